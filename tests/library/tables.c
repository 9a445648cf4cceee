#include "tables.h"
#include <stdio.h>
#include <stdlib.h>
#include <string.h>

enum { HEADER_BYTES = 36 };

static void stop(const char *what) {
    perror(what);
    exit(99);
}

void *room_for(size_t count, size_t size) {
    void *room = count > 0 ? malloc(count * size) : NULL;
    if (count > 0 && !room) stop("malloc");
    return room;
}

static uint8_t *read_file(const char *name, size_t *length) {
    FILE *file = fopen(name, "rb");
    size_t room = 1 << 16, n;
    uint8_t *bytes = malloc(room);
    if (!file || !bytes) stop(name);
    for (*length = 0; (n = fread(bytes + *length, 1, room - *length, file)) > 0;) {
        *length += n;
        if (*length == room && !(bytes = realloc(bytes, room *= 2))) stop(name);
    }
    fclose(file);
    return bytes;
}

/* The length of the table at the front, by its header (ACPI 6.5, 5.2.6); all where no whole table is there. */
static size_t table_length(const uint8_t *bytes, size_t left) {
    uint32_t length;
    if (left < HEADER_BYTES) return left;
    length = bytes[4] | (uint32_t)bytes[5] << 8 | (uint32_t)bytes[6] << 16 | (uint32_t)bytes[7] << 24;
    return length >= HEADER_BYTES && length <= left ? length : left;
}

struct tables tables_of(int files, char **names) {
    struct tables tables = {NULL, 0};
    for (int i = 0; i < files; i++) {
        size_t length, at = 0;
        uint8_t *bytes = read_file(names[i], &length);
        while (at < length) {
            size_t own = table_length(bytes + at, length - at);
            uint8_t *copy = room_for(own, 1);
            tables.list = realloc(tables.list, sizeof *tables.list * (tables.count + 1));
            if (!tables.list) stop(names[i]);
            memcpy(copy, bytes + at, own);
            tables.list[tables.count].bytes = copy;
            tables.list[tables.count++].length = own;
            at += own;
        }
        free(bytes);
    }
    return tables;
}

void free_tables(struct tables tables) {
    for (size_t i = 0; i < tables.count; i++) free((void *)(uintptr_t)tables.list[i].bytes);
    free(tables.list);
}

struct load load_of(struct tables tables, uint32_t depth) {
    struct load load = {0, {0}, {0}};
    struct acpins_arrays *arrays = &load.arrays;
    load.status = acpins_load(tables.list, tables.count, depth, arrays, &load.outcome);
    if (load.status == ACPINS_NO_ROOM || (load.status == ACPINS_REFUSED && load.outcome.text > 0)) {
        arrays->objects = room_for(arrays->object_room = load.outcome.objects, sizeof *arrays->objects);
        arrays->targets = room_for(arrays->target_room = load.outcome.targets, sizeof *arrays->targets);
        arrays->text = room_for(arrays->text_room = load.outcome.text, sizeof *arrays->text);
        arrays->parts = room_for(arrays->part_room = load.outcome.parts, sizeof *arrays->parts);
        arrays->bytes = room_for(arrays->byte_room = load.outcome.bytes, sizeof *arrays->bytes);
        load.status = acpins_load(tables.list, tables.count, depth, arrays, &load.outcome);
    }
    return load;
}

void free_load(struct load load) {
    free(load.arrays.objects);
    free(load.arrays.targets);
    free(load.arrays.text);
    free(load.arrays.parts);
    free(load.arrays.bytes);
}

static int is_same(const void *one, const void *other, size_t size) { return size == 0 || memcmp(one, other, size) == 0; }

int is_same_load(const struct load *one, const struct load *other) {
    const struct acpins_arrays *a = &one->arrays, *b = &other->arrays;
    const struct acpins_outcome *has = &other->outcome;
    return one->status == other->status && is_same(&one->outcome, has, sizeof *has) &&
           is_same(a->objects, b->objects, has->objects * sizeof *a->objects) &&
           is_same(a->targets, b->targets, has->targets * sizeof *a->targets) && is_same(a->text, b->text, has->text) &&
           is_same(a->parts, b->parts, has->parts * sizeof *a->parts) && is_same(a->bytes, b->bytes, has->bytes);
}
