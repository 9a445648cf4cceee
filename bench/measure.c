/* measure DEPTH RUNS PATH FILE..: what each call of the library takes over tables, one in each file. Each line: the
 * call, its status, the stack in bytes, the memory in bytes at most at once, how many allocations, and the processor
 * time in nanoseconds of each of RUNS calls. The call of acpins_body is made where PATH isn't empty. Each call is
 * made as a caller makes it that knows the sizes, so with room for all.
 *
 * Memory comes from malloc and is counted; compiled with -DARENA it comes from an arena, and what is told is how much
 * of it was needed; with -DPLAIN it comes from malloc alone, so that time is not spent on counting. */
#define _GNU_SOURCE
#include "acpins.h"
#include "acpins_heap.h"
#include <inttypes.h>
#include <stdio.h>
#include <stdlib.h>
#include <string.h>
#include <sys/mman.h>
#include <time.h>
#include <ucontext.h>

enum { PAINT = 0xA5 };
static const size_t STACK = (size_t)16 << 20;

/* ---- Memory */

static size_t most, allocations;

#if defined ARENA
#include "acpins_arena.h"
static struct acpins_arena arena;
static void begin_memory(void) { acpins_arena_init(&arena, arena.begin, arena.size); }
static void end_memory(void) { most = arena.most; }
static void start_memory(void) {
    size_t size = (size_t)4 << 30;
    void *bytes = mmap(NULL, size, PROT_READ | PROT_WRITE, MAP_PRIVATE | MAP_ANONYMOUS | MAP_NORESERVE, -1, 0);
    if (bytes == MAP_FAILED) exit(3);
    acpins_arena_init(&arena, bytes, size);
    acpins_arena = &arena;
}
#elif defined PLAIN
static void begin_memory(void) {}
static void end_memory(void) {}
static void start_memory(void) {}
#else
static size_t now;
static void begin_memory(void) { most = now, allocations = 0; }
static void end_memory(void) {}
static void start_memory(void) {}

static struct acpins_block counted(size_t *head, size_t size, size_t was) {
    struct acpins_block block = {head != NULL, head != NULL ? head + 2 : (void *)&now};
    if (!head) return block;
    *head = size;
    now += size - was;
    if (now > most) most = now;
    allocations++;
    return block;
}

struct acpins_block rattle_alloc(size_t size, size_t align) {
    (void)align;
    return counted(malloc(size + 16), size, 0);
}

struct acpins_block rattle_realloc(void *p, size_t kept, size_t size, size_t align) {
    size_t *head = (size_t *)p - 2, was = *head;
    (void)kept;
    (void)align;
    return counted(realloc(head, size + 16), size, was);
}

void rattle_dealloc(void *p) {
    now -= ((size_t *)p)[-2];
    free((size_t *)p - 2);
}
#endif

/* ---- Calls */

static struct acpins_table *tables;
static size_t table_count;
static uint32_t depth, status;
static const char *path;
static struct acpins_arrays arrays;
static struct acpins_outcome outcome;
static struct acpins_body body;
static struct acpins_verdict verdict;
static struct acpins_satisfied *satisfied;
static size_t satisfied_room, text_room, byte_room;
static uint8_t *text, *bytes;
static uint64_t *ends;

static void call_nothing(void) {}
static void call_load(void) { status = acpins_load(tables, table_count, depth, &arrays, &outcome); }
static void call_body(void) {
    status = acpins_body(tables, table_count, depth, (const uint8_t *)path, strlen(path), text, text_room, &body, &outcome);
}
static void call_check(void) {
    status = acpins_check(tables, table_count, depth, satisfied, satisfied_room, text, text_room, &verdict, &outcome);
}
static void call_rewrite(void) {
    status = acpins_rewrite(tables, table_count, depth, bytes, byte_room, ends, table_count, &outcome);
}

static void *room(size_t count, size_t size) { return calloc(count + 1, size); }

/* Gives all arrays as much room as the call asked for. */
static void make_room(void) {
    if (status != ACPINS_NO_ROOM) return;
    arrays.objects = room(arrays.object_room = outcome.objects, sizeof *arrays.objects);
    arrays.targets = room(arrays.target_room = outcome.targets, sizeof *arrays.targets);
    arrays.text = room(arrays.text_room = outcome.text, 1);
    arrays.parts = room(arrays.part_room = outcome.parts, sizeof *arrays.parts);
    arrays.bytes = room(arrays.byte_room = outcome.bytes, 1);
    satisfied = room(satisfied_room = verdict.satisfied, sizeof *satisfied);
    text = room(text_room = outcome.text, 1);
    bytes = room(byte_room = outcome.bytes, 1);
}

/* ---- Stack */

static uint8_t *stack;
static ucontext_t caller, callee;
static size_t own; /* what it takes to make a call that does nothing */

/* Makes the call on a stack of its own; how much of that was written. */
static size_t stack_of(void (*call)(void)) {
    size_t untouched = 0;
    getcontext(&callee);
    callee.uc_stack.ss_sp = stack;
    callee.uc_stack.ss_size = STACK;
    callee.uc_link = &caller;
    makecontext(&callee, call, 0);
    swapcontext(&caller, &callee);
    while (untouched < STACK && stack[untouched] == PAINT) untouched++;
    memset(stack + untouched, PAINT, STACK - untouched);
    return STACK - untouched;
}

static uint64_t nanoseconds(void) {
    struct timespec it;
    clock_gettime(CLOCK_PROCESS_CPUTIME_ID, &it);
    return (uint64_t)it.tv_sec * 1000000000u + (uint64_t)it.tv_nsec;
}

static void measure(const char *name, void (*call)(void), int runs) {
    verdict.satisfied = 0;
    call();
    make_room();
    begin_memory();
    size_t taken = stack_of(call);
    end_memory();
    printf("%s %" PRIu32 " %zu %zu %zu", name, status, taken - own, most, allocations);
    for (int i = 0; i < runs; i++) {
        uint64_t begun = nanoseconds();
        call();
        printf(" %" PRIu64, nanoseconds() - begun);
    }
    putchar('\n');
}

static void read_table(const char *name, struct acpins_table *table) {
    FILE *file = fopen(name, "rb");
    if (!file || fseek(file, 0, SEEK_END) != 0) exit(3);
    size_t length = (size_t)ftell(file);
    uint8_t *read = malloc(length + 1);
    rewind(file);
    table->bytes = read;
    table->length = fread(read, 1, length, file);
    fclose(file);
}

int main(int count, char **words) {
    if (count < 5) return 2;
    depth = (uint32_t)atoi(words[1]);
    int runs = atoi(words[2]);
    path = words[3];
    table_count = (size_t)count - 4;
    tables = room(table_count, sizeof *tables);
    ends = room(table_count, sizeof *ends);
    for (size_t i = 0; i < table_count; i++) read_table(words[4 + i], &tables[i]);
    start_memory();
    stack = mmap(NULL, STACK, PROT_READ | PROT_WRITE, MAP_PRIVATE | MAP_ANONYMOUS, -1, 0);
    if (stack == MAP_FAILED) return 3;
    memset(stack, PAINT, STACK);
    own = stack_of(call_nothing);
    measure("load", call_load, runs);
    if (path[0]) measure("body", call_body, runs);
    measure("check", call_check, runs);
    measure("rewrite", call_rewrite, runs);
    return 0;
}
