/* Prints the devices of a machine with their ids, resources and conditions: devices DSDT SSDT.. */
#include "acpins.h"
#include <inttypes.h>
#include <stdio.h>

static uint8_t file[1 << 24], text[1 << 24], bytes[1 << 22];
static struct acpins_entry entries[1 << 16];
static struct acpins_literal literals[1 << 14];
static struct acpins_part parts[1 << 18];
static struct acpins_target targets[1 << 16];
static struct acpins_finding findings[1 << 14];
static struct acpins_survey_outcome has;

static const struct acpins_part *value_below(uint64_t device, const char *name) {
    uint64_t entry = acpins_entry_below(entries, has.entries, text, device, name);
    return entry == ACPINS_NONE || entries[entry].part == ACPINS_NONE ? NULL : &parts[entries[entry].part];
}

static void print_condition(uint64_t literal) {
    if (literal == ACPINS_NONE) return;
    print_condition(literals[literal].before);
    printf(" %.*s", (int)literals[literal].text_length, (const char *)text + literals[literal].text);
}

static void print_device(const struct acpins_entry *device, const struct acpins_part *id, const struct acpins_part *resources) {
    static const char *const kinds[] = {"other", "irq", "dma", "io", "memory", "bus"};
    char name[8];
    printf("%.*s", (int)device->path_length, (const char *)text + device->line);
    if (id && id->kind == ACPINS_STRING) printf("  %.*s", (int)id->bytes, (const char *)bytes + id->byte);
    if (id && id->kind == ACPINS_INTEGER && acpins_eisa_name(id->constant.value, name)) printf("  %s", name);
    struct acpins_resource it;
    for (size_t at = 0; resources && acpins_next_resource(bytes + resources->byte, (size_t)resources->bytes, &at, &it);)
        printf("  %s %" PRIX64 "+%" PRIX64, kinds[it.kind], it.base, it.size);
    if (device->condition != ACPINS_NONE) printf("  ?");
    print_condition(device->condition);
    putchar('\n');
}

int main(int count, char **names) {
    struct acpins_table tables[16];
    size_t read = 0, tables_read = 0;
    for (FILE *in; tables_read < 16 && (int)tables_read + 1 < count && (in = fopen(names[tables_read + 1], "rb")); fclose(in)) {
        struct acpins_table table = {file + read, fread(file + read, 1, sizeof file - read, in)};
        read += table.length, tables[tables_read++] = table;
    }
    struct acpins_survey_arrays arrays = {entries, 1 << 16, targets,     1 << 16, literals, 1 << 14, findings,
                                          1 << 14, text,    sizeof text, parts,   1 << 18,  bytes,   sizeof bytes};
    uint32_t status = acpins_survey(tables, tables_read, 1024, &arrays, &has);
    if (status != ACPINS_OK) return fprintf(stderr, "status %" PRIu32 "\n", status), 1;
    for (uint64_t i = 0; i < has.entries; i++)
        if (entries[i].kind == ACPINS_DEVICE) print_device(&entries[i], value_below(i, "_HID"), value_below(i, "_CRS"));
}
