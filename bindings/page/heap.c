/* Memory of the module of the page: the arena for hosts without a C library (acpins_heap_arena.c), in memory of its own behind stack
 * and data, which grows where the arena is full.
 *
 * The page calls page_reset before a run, page_alloc for the bytes that it hands in and takes out, and page_most for what was needed. */
#define rattle_alloc arena_alloc
#define rattle_realloc arena_realloc
#include "acpins_heap_arena.c"
#undef rattle_alloc
#undef rattle_realloc

#define PAGE_BYTES 65536
#define LEAST_GROWTH 256 /* pages: 16 MiB */

extern unsigned char __heap_base; /* of the linker: the first byte behind stack and data */
static struct acpins_arena arena;

/* Forgets all that was taken. The first call takes what memory there is. */
__attribute__((export_name("page_reset"))) void page_reset(void) {
    size_t begin = (size_t)&__heap_base;
    acpins_arena = &arena;
    acpins_arena_init(&arena, &__heap_base, __builtin_wasm_memory_size(0) * PAGE_BYTES - begin);
}

/* Makes the arena larger by at least so many bytes; whether that is done. */
static int grown(size_t bytes) {
    size_t pages = bytes / PAGE_BYTES + 2;
    if (pages < LEAST_GROWTH) pages = LEAST_GROWTH;
    if (__builtin_wasm_memory_grow(0, pages) == SIZE_MAX) return 0;
    arena.size += pages * PAGE_BYTES;
    return 1;
}

struct acpins_block rattle_alloc(size_t size, size_t align) {
    struct acpins_block block = arena_alloc(size, align);
    if (!block.ok && size < SIZE_MAX / 2 && grown(size)) block = arena_alloc(size, align);
    return block;
}

struct acpins_block rattle_realloc(void *p, size_t kept, size_t size, size_t align) {
    struct acpins_block block = arena_realloc(p, kept, size, align);
    if (!block.ok && size < SIZE_MAX / 2 && grown(size)) block = arena_realloc(p, kept, size, align);
    return block;
}

/* A block of so many bytes for the page; 0 where there is none. */
__attribute__((export_name("page_alloc"))) size_t page_alloc(size_t size) {
    struct acpins_block block = rattle_alloc(size, 16);
    return block.ok ? (size_t)block.p : 0;
}

/* How many bytes of the arena were in use at most since page_reset. */
__attribute__((export_name("page_most"))) size_t page_most(void) { return arena.most; }
