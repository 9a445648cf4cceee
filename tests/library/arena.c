/* arena: takes, resizes and gives back blocks by chance, in arenas of several sizes, and looks after each step whether what the
 * blocks hold is kept and the row of chunks is whole. */
#include "acpins_heap_arena.c"
#include <stdio.h>
#include <stdlib.h>
#include <string.h>

enum { BLOCKS = 200, STEPS = 20000 };

static struct acpins_arena arena;
static struct {
    unsigned char *p;
    size_t size;
    unsigned char filled;
} held[BLOCKS];
static uint64_t state = 1;

#define CHECK(what)                                                                                                              \
    do {                                                                                                                         \
        if (!(what)) {                                                                                                           \
            printf("arena: line %d: %s\n", __LINE__, #what);                                                                     \
            exit(1);                                                                                                             \
        }                                                                                                                        \
    } while (0)

static size_t by_chance(size_t below) {
    state = state * 6364136223846793005u + 1442695040888963407u;
    return (size_t)(state >> 33) % below;
}

/* The sizes of chunks tell each other, and those that were given back stand in their bins and apart. */
static void check_chunks(void) {
    size_t before = 0, taken = 0, given_back = 0, in_bins = 0;
    int was_free = 0;
    for (size_t place = 0; place < arena.top; place += before) {
        struct acpins_chunk *it = chunk_at(&arena, place);
        CHECK(it->before == before && size_of(it) >= LEAST && size_of(it) % 16 == 0 && size_of(it) <= arena.top - place);
        CHECK(!(was_free && is_free(it)));
        was_free = is_free(it);
        taken += (size_t)!was_free;
        given_back += (size_t)was_free;
        before = size_of(it);
    }
    CHECK(!was_free && arena.last == before && arena.taken == taken && arena.top <= arena.most && arena.most <= arena.size);
    for (size_t i = 0; i < ACPINS_ARENA_BINS; i++) {
        struct acpins_chunk *previous = NULL;
        for (struct acpins_chunk *it = arena.bins[i]; it; previous = it, it = it->next, in_bins++)
            CHECK(is_free(it) && it->previous == previous && bin_of(&arena, size_of(it)) == &arena.bins[i]);
    }
    CHECK(in_bins == given_back);
}

static void check_held(size_t i, size_t size) {
    for (size_t at = 0; at < size; at++) CHECK(held[i].p[at] == held[i].filled);
}

static void fill(size_t i, struct acpins_block block, size_t size) {
    held[i].p = block.p;
    held[i].size = size;
    held[i].filled = (unsigned char)by_chance(256);
    CHECK((uintptr_t)block.p % 16 == 0 && held[i].p >= arena.begin && held[i].p + size <= arena.begin + arena.size);
    if (size > 0) memset(block.p, held[i].filled, size);
}

static size_t size_by_chance(void) {
    size_t sizes[] = {8, 64, 500, 5000, 100000};
    return by_chance(sizes[by_chance(5)] + 1);
}

static void step(void) {
    size_t i = by_chance(BLOCKS), size = size_by_chance();
    if (!held[i].p) {
        struct acpins_block block = rattle_alloc(size, 8);
        if (block.ok) fill(i, block, size);
        CHECK(block.p != NULL);
    } else if (by_chance(2)) {
        size_t most = held[i].size < size ? held[i].size : size, kept = by_chance(4) ? most : by_chance(most + 1);
        struct acpins_block block = rattle_realloc(held[i].p, kept, size, 8);
        if (block.ok) {
            held[i].p = block.p;
            check_held(i, kept);
            fill(i, block, size);
        } else {
            check_held(i, held[i].size);
        }
    } else {
        check_held(i, held[i].size);
        rattle_dealloc(held[i].p);
        held[i].p = NULL;
    }
}

static void give_all_back(void) {
    for (size_t i = 0; i < BLOCKS; i++) {
        if (!held[i].p) continue;
        check_held(i, held[i].size);
        rattle_dealloc(held[i].p);
        held[i].p = NULL;
        check_chunks();
    }
    CHECK(arena.top == 0 && arena.taken == 0);
}

int main(void) {
    size_t sizes[] = {0, 15, 47, 100, 1000, 50000, 1 << 20, 8 << 20};
    acpins_arena = &arena;
    for (size_t it = 0; it < sizeof sizes / sizeof *sizes; it++) {
        unsigned char *bytes = malloc(sizes[it] + 16), odd = (unsigned char)by_chance(16);
        acpins_arena_init(&arena, bytes + odd, sizes[it]);
        CHECK(!rattle_alloc(SIZE_MAX, 8).ok && !rattle_alloc(SIZE_MAX - 16, 8).ok && !rattle_alloc(sizes[it] + 1, 8).ok);
        for (size_t n = 0; n < STEPS; n++) {
            step();
            if (n % 16 == 0) check_chunks();
        }
        give_all_back();
        free(bytes);
    }
    printf("arena: whole\n");
    return 0;
}
