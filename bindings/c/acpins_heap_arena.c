/* The library's memory from a block of the caller: see acpins_arena.h. It needs no C library, but for memcpy and
 * memset, of which a compiler may make calls in place of loops. An allocation looks at a bounded number of chunks,
 * unless the block is nearly full.
 *
 * The memory below `top` is a row of chunks. A chunk is a head of 16 bytes and what it holds; sizes count the head
 * and are multiples of 16. No two chunks that were given back lie side by side, and none lies at the top: such ones
 * are made one, or the top is lowered. */
#include "acpins_arena.h"
#include "acpins_heap.h"
#include <stdint.h>

struct acpins_chunk {
    size_t before;                        /* size of the chunk before it; 0 of the first */
    size_t size_is;                       /* its own size, and 1 more where it is taken */
    struct acpins_chunk *next, *previous; /* of one that was given back: its neighbours in its bin */
};

enum {
    HEAD = 16,
    LEAST = sizeof(struct acpins_chunk), /* of a size */
    TRIES = 8,                           /* how many chunks of a bin are looked at first */
};

ACPINS_ARENA_STORAGE struct acpins_arena *acpins_arena;

void acpins_arena_init(struct acpins_arena *arena, void *bytes, size_t size) {
    size_t skipped = (size_t)(-(uintptr_t)bytes & 15);
    arena->begin = (unsigned char *)bytes + skipped;
    arena->size = size > skipped ? (size - skipped) & ~(size_t)15 : 0;
    arena->top = arena->last = arena->taken = arena->most = 0;
    for (size_t i = 0; i < ACPINS_ARENA_BINS; i++) arena->bins[i] = NULL;
}

static struct acpins_block refused(void) {
    static char nothing;
    struct acpins_block block = {0, &nothing};
    return block;
}

static struct acpins_block block_of(struct acpins_chunk *chunk) {
    struct acpins_block block = {1, (unsigned char *)chunk + HEAD};
    return block;
}

static struct acpins_chunk *chunk_of(void *p) { return (struct acpins_chunk *)(void *)((unsigned char *)p - HEAD); }

static size_t size_of(const struct acpins_chunk *chunk) { return chunk->size_is & ~(size_t)1; }

static struct acpins_chunk *chunk_at(struct acpins_arena *arena, size_t place) {
    return (struct acpins_chunk *)(void *)(arena->begin + place);
}

static size_t place_of(struct acpins_arena *arena, struct acpins_chunk *chunk) {
    return (size_t)((unsigned char *)chunk - arena->begin);
}

/* The size of a chunk that holds so many bytes; 0 where no arena is so large. */
static size_t size_for(struct acpins_arena *arena, size_t bytes) {
    if (bytes > arena->size) return 0;
    size_t size = HEAD + ((bytes + 15) & ~(size_t)15);
    return size < LEAST ? (size_t)LEAST : size;
}

static struct acpins_chunk **bin_of(struct acpins_arena *arena, size_t size) {
    size_t digits = 0;
    while (size >>= 1) digits++;
    return &arena->bins[digits];
}

/* The chunk behind this one; NULL where it is the last one. */
static struct acpins_chunk *behind(struct acpins_arena *arena, struct acpins_chunk *chunk) {
    size_t place = place_of(arena, chunk) + size_of(chunk);
    return place < arena->top ? chunk_at(arena, place) : NULL;
}

/* Tells what lies behind a chunk its size. */
static void tell_size(struct acpins_arena *arena, struct acpins_chunk *chunk) {
    struct acpins_chunk *next = behind(arena, chunk);
    if (next) next->before = size_of(chunk);
    else arena->last = size_of(chunk);
}

static void put_into_bin(struct acpins_arena *arena, struct acpins_chunk *chunk) {
    struct acpins_chunk **bin = bin_of(arena, size_of(chunk));
    chunk->previous = NULL;
    chunk->next = *bin;
    if (*bin) (*bin)->previous = chunk;
    *bin = chunk;
}

static void take_from_bin(struct acpins_arena *arena, struct acpins_chunk *chunk) {
    if (chunk->previous) chunk->previous->next = chunk->next;
    else *bin_of(arena, size_of(chunk)) = chunk->next;
    if (chunk->next) chunk->next->previous = chunk->previous;
}

static int is_free(const struct acpins_chunk *chunk) { return chunk != NULL && (chunk->size_is & 1) == 0; }

/* Gives a chunk that is in no bin back, together with its neighbours where these were given back. */
static void give_back(struct acpins_arena *arena, struct acpins_chunk *chunk) {
    size_t size = size_of(chunk);
    struct acpins_chunk *next = behind(arena, chunk);
    if (is_free(next)) {
        take_from_bin(arena, next);
        size += size_of(next);
    }
    if (chunk->before > 0) {
        struct acpins_chunk *last = chunk_at(arena, place_of(arena, chunk) - chunk->before);
        if (is_free(last)) {
            take_from_bin(arena, last);
            size += size_of(last);
            chunk = last;
        }
    }
    chunk->size_is = size;
    if (place_of(arena, chunk) + size == arena->top) {
        arena->top = place_of(arena, chunk);
        arena->last = chunk->before;
        return;
    }
    tell_size(arena, chunk);
    put_into_bin(arena, chunk);
}

/* Keeps `size` bytes of a chunk that is taken, and gives the rest back where that is a chunk. */
static void keep(struct acpins_arena *arena, struct acpins_chunk *chunk, size_t size) {
    size_t rest = size_of(chunk) - size;
    if (rest < LEAST) return;
    struct acpins_chunk *other = chunk_at(arena, place_of(arena, chunk) + size);
    chunk->size_is = size | 1;
    other->before = size;
    other->size_is = rest | 1;
    tell_size(arena, other);
    give_back(arena, other);
}

/* The first chunk of a bin that has so many bytes, of as many as may be tried; NULL where there is none. */
static struct acpins_chunk *fitting(struct acpins_chunk *bin, size_t size, size_t tries) {
    for (struct acpins_chunk *it = bin; it && tries > 0; it = it->next, tries--)
        if (size_of(it) >= size) return it;
    return NULL;
}

/* A chunk that was given back and has so many bytes; NULL where there is none. */
static struct acpins_chunk *found(struct acpins_arena *arena, size_t size) {
    struct acpins_chunk **bin = bin_of(arena, size);
    struct acpins_chunk *chunk = fitting(*bin, size, TRIES);
    while (!chunk && ++bin < arena->bins + ACPINS_ARENA_BINS) chunk = *bin;
    return chunk;
}

/* A chunk of so many bytes at the top; NULL where there is no room. */
static struct acpins_chunk *at_top(struct acpins_arena *arena, size_t size) {
    if (size > arena->size - arena->top) return NULL;
    struct acpins_chunk *chunk = chunk_at(arena, arena->top);
    chunk->before = arena->last;
    chunk->size_is = size;
    arena->top += size;
    arena->last = size;
    if (arena->top > arena->most) arena->most = arena->top;
    return chunk;
}

struct acpins_block rattle_alloc(size_t size, size_t align) {
    struct acpins_arena *arena = acpins_arena;
    size_t wanted = size_for(arena, size);
    (void)align;
    if (wanted == 0) return refused();
    struct acpins_chunk *chunk = found(arena, wanted);
    int is_new = !chunk && (chunk = at_top(arena, wanted)) != NULL;
    /* The bin may have one behind those that were tried. */
    if (!chunk) chunk = fitting(*bin_of(arena, wanted), wanted, SIZE_MAX);
    if (!chunk) return refused();
    if (!is_new) take_from_bin(arena, chunk);
    chunk->size_is |= 1;
    keep(arena, chunk, wanted);
    arena->taken++;
    return block_of(chunk);
}

void rattle_dealloc(void *p) {
    acpins_arena->taken--;
    give_back(acpins_arena, chunk_of(p));
}

/* Makes a chunk longer where it lies, by what is free behind it; whether it has so many bytes then. */
static int grow(struct acpins_arena *arena, struct acpins_chunk *chunk, size_t size) {
    struct acpins_chunk *next = behind(arena, chunk);
    if (!next) {
        size_t more = size - size_of(chunk);
        if (more > arena->size - arena->top) return 0;
        arena->top += more;
        if (arena->top > arena->most) arena->most = arena->top;
        chunk->size_is = size | 1;
    } else {
        if (!is_free(next) || size_of(chunk) + size_of(next) < size) return 0;
        take_from_bin(arena, next);
        chunk->size_is += size_of(next);
    }
    tell_size(arena, chunk);
    return 1;
}

struct acpins_block rattle_realloc(void *p, size_t kept, size_t size, size_t align) {
    struct acpins_arena *arena = acpins_arena;
    struct acpins_chunk *chunk = chunk_of(p);
    size_t wanted = size_for(arena, size);
    if (wanted == 0) return refused();
    if (wanted <= size_of(chunk) || grow(arena, chunk, wanted)) {
        keep(arena, chunk, wanted);
        return block_of(chunk);
    }
    struct acpins_block block = rattle_alloc(size, align);
    if (!block.ok) return block;
    const unsigned char *from = p;
    unsigned char *to = block.p;
    for (size_t i = 0; i < kept; i++) to[i] = from[i];
    rattle_dealloc(p);
    return block;
}
