/* interrupts FILE..: loads the tables again and again while a timer interrupts, whose handler loads them too, with
 * memory of its own; each load must write what one alone writes. */
#define _DEFAULT_SOURCE
#include "acpins_arena.h"
#include "tables.h"
#include <signal.h>
#include <stdio.h>
#include <stdlib.h>
#include <string.h>
#include <sys/time.h>

enum { MEMORY = 4 << 20, TIMES = 50 };

static struct tables tables;
static struct load alone, inside; /* inside: the arrays of the handler */
static struct acpins_arena outer, inner;
static volatile sig_atomic_t interrupts, wrong;

static void interrupted(int signal) {
    struct acpins_arena *was = acpins_arena;
    (void)signal;
    acpins_arena = &inner;
    inside.status = acpins_load(tables.list, tables.count, 1024, &inside.arrays, &inside.outcome);
    acpins_arena = was;
    if (!is_same_load(&inside, &alone)) wrong = 1;
    interrupts++;
}

int main(int count, char **words) {
    struct sigaction action;
    struct itimerval each = {{0, 500}, {0, 500}}; /* microseconds */
    acpins_arena_init(&outer, malloc(MEMORY), MEMORY);
    acpins_arena_init(&inner, malloc(MEMORY), MEMORY);
    acpins_arena = &outer;
    tables = tables_of(count - 1, words + 1);
    alone = load_of(tables, 1024);
    inside = load_of(tables, 1024);
    memset(&action, 0, sizeof action);
    action.sa_handler = interrupted;
    action.sa_flags = SA_RESTART;
    sigaction(SIGALRM, &action, NULL);
    setitimer(ITIMER_REAL, &each, NULL);
    struct load load = load_of(tables, 1024);
    while (interrupts < TIMES && !wrong) {
        load.status = acpins_load(tables.list, tables.count, 1024, &load.arrays, &load.outcome);
        if (!is_same_load(&load, &alone)) wrong = 1;
    }
    setitimer(ITIMER_REAL, &(struct itimerval){{0, 0}, {0, 0}}, NULL);
    if (alone.status != ACPINS_OK || wrong) printf("interrupts: not loaded, or not the same in each load\n");
    free_load(load);
    free_load(inside);
    free_load(alone);
    free_tables(tables);
    return alone.status != ACPINS_OK || wrong || outer.taken != 0 || inner.taken != 0;
}
