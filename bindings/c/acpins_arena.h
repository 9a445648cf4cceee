/* Memory for libacpins.a from a block of the caller, for hosts without a C library: acpins_heap_arena.c. */
#ifndef ACPINS_ARENA_H
#define ACPINS_ARENA_H

#include <stddef.h>

#ifdef __cplusplus
extern "C" {
#endif

/* One for each number of binary digits that the size of a block may have. */
#define ACPINS_ARENA_BINS (8 * sizeof(size_t))

struct acpins_chunk;

/* A block of memory from which the running call takes its own. One call at a time uses an arena. */
struct acpins_arena {
    unsigned char *begin; /* where the memory begins, at a multiple of 16 */
    size_t size;          /* how many bytes it has, a multiple of 16 */
    size_t top;           /* from here on, in bytes from `begin`, nothing is taken */
    size_t last;          /* size in bytes of the chunk that ends at `top`; 0 where there is none */
    size_t taken;         /* how many allocations aren't given back: 0 before and after each call */
    size_t most;          /* the highest `top` so far: so much of the block was needed */
    struct acpins_chunk *bins[ACPINS_ARENA_BINS]; /* chunks that were given back, by their size */
};

/* Makes an arena of the `size` bytes at `bytes`. */
void acpins_arena_init(struct acpins_arena *arena, void *bytes, size_t size);

/* The arena of the running call: set it before the first call. Where several threads load at once, each has one of
 * its own; compile acpins_heap_arena.c, and what sets the variable, with -DACPINS_ARENA_STORAGE=_Thread_local then,
 * or what the host has for it. */
#ifndef ACPINS_ARENA_STORAGE
#define ACPINS_ARENA_STORAGE
#endif
extern ACPINS_ARENA_STORAGE struct acpins_arena *acpins_arena;

#ifdef __cplusplus
}
#endif
#endif
