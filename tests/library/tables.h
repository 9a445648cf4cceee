/* Tables in files, and the library's answers about them, for the callers of these tests. */
#ifndef TABLES_H
#define TABLES_H

#include "acpins.h"

struct tables {
    struct acpins_table *list;
    size_t count;
};

/* All tables of these files, in order. A file is cut where each table ends; what is no whole table is one to the file's end. */
struct tables tables_of(int files, char **names);
void free_tables(struct tables tables);

/* What a load wrote. Each array has just the room that it needs. */
struct load {
    uint32_t status;
    struct acpins_arrays arrays;
    struct acpins_outcome outcome;
};

struct load load_of(struct tables tables, uint32_t depth);
void free_load(struct load load);

/* Whether they ended alike, and wrote the same. */
int is_same_load(const struct load *one, const struct load *other);

/* Room for so many elements, on the heap, where an access behind them is found; NULL where there are none. */
void *room_for(size_t count, size_t size);

#endif
