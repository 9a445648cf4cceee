/* threads FILE..: loads the tables in several threads at once, many times, each with arrays of its own; each must write
 * what one thread alone writes. Compiled with -DARENA each thread takes its memory from a block of its own. */
#include "tables.h"
#include <pthread.h>
#include <stdio.h>
#include <stdlib.h>

enum { THREADS = 4, TIMES = 200 };

static struct tables tables;
static struct load alone;

#if defined ARENA
#include "acpins_arena.h"
enum { MEMORY = 4 << 20 };
static void begin_memory(struct acpins_arena *arena) { acpins_arena_init(acpins_arena = arena, malloc(MEMORY), MEMORY); }
#else
struct acpins_arena {
    int unused;
};
static void begin_memory(struct acpins_arena *arena) { (void)arena; }
#endif

static void *work(void *wrong) {
    struct acpins_arena arena;
    begin_memory(&arena);
    for (int i = 0; i < TIMES; i++) {
        struct load load = load_of(tables, 1024);
        if (!is_same_load(&load, &alone)) *(int *)wrong = 1;
        free_load(load);
    }
    return NULL;
}

int main(int count, char **words) {
    pthread_t threads[THREADS];
    int wrong[THREADS] = {0}, all = 0;
    struct acpins_arena arena;
    begin_memory(&arena);
    tables = tables_of(count - 1, words + 1);
    alone = load_of(tables, 1024);
    for (int i = 0; i < THREADS; i++)
        if (pthread_create(&threads[i], NULL, work, &wrong[i]) != 0) return 2;
    for (int i = 0; i < THREADS; i++) pthread_join(threads[i], NULL), all |= wrong[i];
    if (alone.status != ACPINS_OK || all) printf("threads: not loaded, or not the same in each thread\n");
    free_load(alone);
    free_tables(tables);
    return alone.status != ACPINS_OK || all;
}
