/* A preloaded or linked object for tests: one step of the host fails, that which STEP names, as `memory:3` (the third
   growth of memory) or `read:1`. The kinds are memory; open and read; stat, create, chmod, write, sync and rename of files
   that are made; close; out and err, the writes to the two streams. Steps are counted from the start of `main`. A step that failed is told on
   descriptor 9. With SHORT in the environment no read takes more than seven bytes, and no write more than five. It is no
   part of any crate. */
typedef unsigned long size_t;
typedef long ssize_t;
extern void *__libc_malloc(size_t);
extern void *__libc_calloc(size_t, size_t);
extern void *__libc_realloc(void *, size_t);
extern int *__errno_location(void);
extern char *getenv(const char *);

enum { O_CREAT = 0100, AT_FDCWD = -100, EIO = 5 };
enum { READ = 0, WRITE = 1, CLOSE = 3, FSYNC = 74, RENAME = 82, FCHMOD = 91, OPENAT = 257, STATX = 332 };

static long left = -1;
static const char *kind = "";
static volatile int has_begun; /* or the compiler takes it for begun */
static int is_short;

/* The C library's own start needs memory too, and falls without it. */
__attribute__((constructor)) static void begin(void) { has_begun = 1; }

static long call_with(long number, long a, long b, long c, long d, long e) {
  long result;
  register long fourth __asm__("r10") = d;
  register long fifth __asm__("r8") = e;
  __asm__ volatile("syscall" : "=a"(result) : "a"(number), "D"(a), "S"(b), "d"(c), "r"(fourth), "r"(fifth) : "rcx", "r11", "memory");
  if (result < 0) {
    *__errno_location() = (int)-result;
    return -1;
  }
  return result;
}

static long call(long number, long a, long b, long c, long d) { return call_with(number, a, b, c, d, 0); }

static int is_kind(const char *name) {
  const char *it = kind;
  while (*name && *it == *name) it++, name++;
  return !*name && *it == ':';
}

static int fails(const char *name) {
  if (!has_begun) return 0;
  if (left < 0) {
    const char *digits = getenv("STEP");
    left = 0;
    is_short = getenv("SHORT") != 0;
    if (digits) {
      kind = digits;
      while (*digits && *digits != ':') digits++;
      while (*digits && *++digits) left = left * 10 + (*digits - '0');
    }
  }
  if (!is_kind(name) || left == 0 || --left > 0) return 0;
  call(WRITE, 9, (long)"failed\n", 7, 0);
  *__errno_location() = EIO;
  return 1;
}

static size_t at_most(size_t bytes, size_t most) { return is_short && bytes > most ? most : bytes; }

static const char *writes_to(int file) { return file == 1 ? "out" : file == 2 ? "err" : "write"; }

void *malloc(size_t size) { return fails("memory") ? 0 : __libc_malloc(size); }
void *calloc(size_t count, size_t size) { return fails("memory") ? 0 : __libc_calloc(count, size); }
void *realloc(void *old, size_t size) { return fails("memory") ? 0 : __libc_realloc(old, size); }

int openat(int folder, const char *name, int flags, int mode) {
  if (fails(flags & O_CREAT ? "create" : "open")) return -1;
  return (int)call(OPENAT, folder, (long)name, flags, mode);
}

int open(const char *name, int flags, int mode) { return openat(AT_FDCWD, name, flags, mode); }

ssize_t read(int file, void *to, size_t bytes) {
  return fails("read") ? -1 : call(READ, file, (long)to, (long)at_most(bytes, 7), 0);
}

ssize_t write(int file, const void *from, size_t bytes) {
  return fails(writes_to(file)) ? -1 : call(WRITE, file, (long)from, (long)at_most(bytes, 5), 0);
}

ssize_t __write(int file, const void *from, size_t bytes) { return write(file, from, bytes); }

int statx(int folder, const char *name, int flags, unsigned mask, void *to) {
  return fails("stat") ? -1 : (int)call_with(STATX, folder, (long)name, flags, mask, (long)to);
}

int fchmod(int file, unsigned mode) { return fails("chmod") ? -1 : (int)call(FCHMOD, file, mode, 0, 0); }

int rename(const char *from, const char *to) { return fails("rename") ? -1 : (int)call(RENAME, (long)from, (long)to, 0, 0); }

int fsync(int file) { return fails("sync") ? -1 : (int)call(FSYNC, file, 0, 0, 0); }

int close(int file) {
  call(CLOSE, file, 0, 0, 0);
  return fails("close") ? -1 : 0;
}
