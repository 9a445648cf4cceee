/* The library's memory from the C library's malloc, whose blocks lie at multiples of 16. */
#include "acpins_heap.h"
#include <stdlib.h>

static struct acpins_block block_at(void *p) {
    static char nothing;
    struct acpins_block block = {p != NULL, p != NULL ? p : &nothing};
    return block;
}

struct acpins_block rattle_alloc(size_t size, size_t align) {
    (void)align;
    return block_at(malloc(size > 0 ? size : 1));
}

struct acpins_block rattle_realloc(void *p, size_t kept, size_t size, size_t align) {
    (void)kept;
    (void)align;
    return block_at(realloc(p, size > 0 ? size : 1));
}

void rattle_dealloc(void *p) { free(p); }
