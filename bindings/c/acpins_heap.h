/* The three functions by which libacpins.a takes memory. A host defines them: over malloc (acpins_heap_malloc.c), over a block of
 * its own (acpins_heap_arena.c), or by itself. Whatever a call of the library takes it gives back before it returns. */
#ifndef ACPINS_HEAP_H
#define ACPINS_HEAP_H

#include <stddef.h>

#ifdef __cplusplus
extern "C" {
#endif

/* What an allocation gives. */
struct acpins_block {
    size_t ok; /* 1, or 0 where it failed */
    void *p;   /* the block; of ok 0 any pointer but NULL */
};

/* A block of `size` bytes, which may be 0, at a multiple of `align`, which is 1, 2, 4, 8 or 16. */
struct acpins_block rattle_alloc(size_t size, size_t align);

/* The block at p made one of `size` bytes, of which the first `kept` are as they were (`kept` is at most either size).
 * It may move. Of ok 0 the block at p is as it was. */
struct acpins_block rattle_realloc(void *p, size_t kept, size_t size, size_t align);

/* Gives the block at p back. */
void rattle_dealloc(void *p);

#ifdef __cplusplus
}
#endif
#endif
