/* survey COMMAND [--depth N] [WORD] FILE..: answers as the program acpins-survey does, by the library: `list`, `map`, `bodies`, `uses`,
 * `check`, `json`, `show PATH`. Three commands more: `listed` prints what `list` prints, line by line from the records of acpins_survey;
 * `records` holds the records against each other, against the text and against the tables' bytes, and prints how many there are; `tables`
 * writes the tables that acpins_tables finds in a file. */
#include "acpins.h"
#include "acpins_heap.h"
#include <inttypes.h>
#include <stdio.h>
#include <stdlib.h>
#include <string.h>

enum { MOST_TABLES = 1024, WHOLE = 1 << 25 };

static struct acpins_table tables[MOST_TABLES];
static size_t count;
static uint32_t depth = 1024;
static struct acpins_survey_arrays a;
static struct acpins_survey_outcome has;

static int failed(const char *why) {
    fprintf(stderr, "acpins-survey: %s\n", why);
    return 1;
}

static uint8_t *read_file(const char *name, size_t *length) {
    FILE *file = fopen(name, "rb");
    uint8_t *bytes = malloc(WHOLE);
    if (!file || !bytes) exit(failed("a file can't be read"));
    *length = fread(bytes, 1, WHOLE, file);
    fclose(file);
    return bytes;
}

static void *array(uint64_t number, size_t size) {
    void *found = calloc(number > 0 ? (size_t)number : 1, size);
    if (!found) exit(failed("M Memory"));
    return found;
}

/* The tables of a file, one behind the other, and where each ends. */
struct found {
    uint8_t *bytes;
    uint64_t *ends;
    struct acpins_survey_outcome outcome;
};

static uint32_t tables_of(const uint8_t *file, size_t length, uint32_t form, struct found *found) {
    struct acpins_survey_outcome *outcome = &found->outcome;
    uint32_t status = acpins_tables(file, length, form, NULL, 0, NULL, 0, outcome);
    found->bytes = array(outcome->bytes, 1);
    found->ends = array(outcome->tables, sizeof *found->ends);
    if (status != ACPINS_NO_ROOM) return status;
    return acpins_tables(file, length, form, found->bytes, (size_t)outcome->bytes, found->ends, (size_t)outcome->tables, outcome);
}

/* As the program reads a file without --hex. */
static void read_tables(const char *name) {
    size_t length;
    struct found found;
    uint8_t *file = read_file(name, &length);
    uint32_t status = tables_of(file, length, ACPINS_PLAIN, &found);
    if (status == ACPINS_CALL) status = tables_of(file, length, ACPINS_DUMP, &found);
    if (status != ACPINS_OK) exit(failed("M Memory"));
    if (found.outcome.tables == 0) {
        fprintf(stderr, "acpins-survey: %s: holds no table\n", name);
        exit(1);
    }
    for (uint64_t i = 0; i < found.outcome.tables; i++) {
        uint64_t begin = i ? found.ends[i - 1] : 0;
        if (count == MOST_TABLES) exit(failed("too many tables"));
        /* Each in memory of its own: no byte behind a table may be looked at. */
        uint8_t *bytes = array(found.ends[i] - begin, 1);
        memcpy(bytes, found.bytes + begin, (size_t)(found.ends[i] - begin));
        tables[count].bytes = bytes;
        tables[count++].length = (size_t)(found.ends[i] - begin);
    }
    free(file), free(found.bytes), free(found.ends);
}

/* ---- texts */

static int print_text(uint32_t what, const char *path) {
    struct acpins_survey_outcome outcome;
    const uint8_t *word = (const uint8_t *)path;
    uint32_t status = acpins_survey_text(tables, count, depth, what, word, strlen(path), NULL, 0, &outcome);
    size_t room = (size_t)outcome.text;
    uint8_t *text = malloc(room > 0 ? room : 1);
    if (!text) return failed("M Memory");
    if (status == ACPINS_NO_ROOM && room > 0) {
        if (acpins_survey_text(tables, count, depth, what, word, strlen(path), text, room - 1, &outcome) != ACPINS_NO_ROOM) return 97;
        status = acpins_survey_text(tables, count, depth, what, word, strlen(path), text, room, &outcome);
        if (outcome.text != room) return 96;
    }
    switch (status) {
    case ACPINS_OK: break;
    case ACPINS_MEMORY: return failed("M Memory");
    case ACPINS_NO_OBJECT: return failed("no such path");
    case ACPINS_BAD_PATH: fprintf(stderr, "acpins-survey: bad path: %s\n", path); return 2;
    default: fprintf(stderr, "survey: status %" PRIu32 "\n", status); return 98;
    }
    fwrite(text, 1, room, stdout);
    free(text);
    return outcome.is_faulty ? 3 : 0;
}

/* ---- records */

static void survey(void) {
    if (acpins_survey(tables, count, depth, &a, &has) == ACPINS_CALL) exit(failed("status 4"));
    uint64_t findings = has.problems + has.notes;
    a.entries = array(a.entry_room = has.entries, sizeof *a.entries);
    a.targets = array(a.target_room = has.targets, sizeof *a.targets);
    a.literals = array(a.literal_room = has.literals, sizeof *a.literals);
    a.findings = array(a.finding_room = findings, sizeof *a.findings);
    a.text = array(a.text_room = has.text, 1);
    a.parts = array(a.part_room = has.parts, sizeof *a.parts);
    a.bytes = array(a.byte_room = has.bytes, 1);
    if (acpins_survey(tables, count, depth, &a, &has) != ACPINS_OK) exit(failed("M Memory"));
}

static int print_lines(void) {
    survey();
    for (uint64_t i = 0; i < has.entries; i++) fwrite(a.text + a.entries[i].line, 1, (size_t)a.entries[i].line_length, stdout);
    for (uint64_t i = 0; i < has.problems + has.notes; i++)
        fwrite(a.text + a.findings[i].line, 1, (size_t)a.findings[i].line_length, stdout);
    return has.is_faulty ? 3 : 0;
}

static void hold(int is_so, const char *what, uint64_t place) {
    if (is_so) return;
    fprintf(stderr, "survey: %s at %" PRIu64 "\n", what, place);
    exit(99);
}

/* The condition of an entry, in its line behind " ? ", is its literals' texts. */
static void hold_condition(uint64_t place) {
    const struct acpins_entry *it = &a.entries[place];
    uint64_t end = it->line + it->line_length - 1;
    for (uint64_t at = it->condition; at != ACPINS_NONE; at = a.literals[at].before) {
        hold(at < has.literals && (a.literals[at].before == ACPINS_NONE || a.literals[at].before < at), "a literal", at);
        const struct acpins_literal *literal = &a.literals[at];
        hold(end >= it->line + literal->text_length, "a condition", place);
        end -= literal->text_length;
        hold(memcmp(a.text + end, a.text + literal->text, (size_t)literal->text_length) == 0, "a literal's text", at);
        hold(end > it->line && a.text[end - 1] == ' ', "a blank before a literal", at);
        end--;
    }
    hold(it->condition == ACPINS_NONE || a.text[end - 1] == '?', "the sign of a condition", place);
}

static void hold_entry(uint64_t place) {
    const struct acpins_entry *it = &a.entries[place];
    size_t length = (size_t)it->path_length;
    const char *kind = acpins_entry_kind_name(it);
    hold(it->line == (place ? a.entries[place - 1].line + a.entries[place - 1].line_length : 0), "a line", place);
    hold(it->line_length > length + 1 + strlen(kind) && a.text[it->line + it->line_length - 1] == '\n', "a line's end", place);
    hold(memcmp(a.text + it->line + length + 1, kind, strlen(kind)) == 0 || it->kind == ACPINS_PREDEFINED, "a kind", place);
    size_t around = length > 5 ? length - 5 : 1;
    hold(it->parent == (length > 1 ? acpins_find_entry(a.entries, has.entries, a.text, a.text + it->line, around) : ACPINS_NONE), "a parent",
         place);
    uint64_t found = acpins_find_entry(a.entries, has.entries, a.text, a.text + it->line, length);
    hold(found <= place && a.entries[found].path_length == length, "an entry that is found", place);
    hold(it->target + it->targets <= has.targets, "targets", place);
    for (uint64_t i = it->target; i < it->target + it->targets; i++) hold(a.targets[i].entry < has.entries, "a target", i);
    hold(it->part == ACPINS_NONE || it->part < has.parts, "a part", place);
    hold(it->table == ACPINS_NONE || (it->table < count && it->place + it->length <= tables[it->table].length), "a term", place);
    hold(it->code_length == 0 || (it->code_place + it->code_length <= it->place + it->length), "a code", place);
    hold_condition(place);
}

static int hold_records(void) {
    survey();
    for (uint64_t i = 0; i < has.entries; i++) hold_entry(i);
    for (uint64_t i = 0; i < has.parts; i++) {
        hold(a.parts[i].behind > i && a.parts[i].behind <= has.parts, "a part's end", i);
        hold(a.parts[i].byte + a.parts[i].bytes <= has.bytes, "a part's bytes", i);
    }
    uint64_t problems = 0;
    for (uint64_t i = 0; i < has.problems + has.notes; i++) {
        const struct acpins_finding *it = &a.findings[i];
        const char *name = acpins_reason_name(it->reason);
        problems += it->level == 0;
        hold(a.text[it->line] == (it->level ? '~' : '!') && it->table < count, "a finding", i);
        hold(it->lost_from <= it->lost_to && it->lost_to <= tables[it->table].length, "what is lost", i);
        char line[4096] = {0};
        memcpy(line, a.text + it->line, it->line_length < sizeof line ? (size_t)it->line_length : sizeof line - 1);
        hold(name[0] != '?' && strstr(line, name) != NULL, "a reason", i);
    }
    hold(problems == has.problems, "how many problems", problems);
    printf("%" PRIu64 " entries, %" PRIu64 " literals, %" PRIu64 " findings\n", has.entries, has.literals, has.problems + has.notes);
    return 0;
}

static int write_tables(const char *name) {
    size_t length;
    struct found found;
    uint8_t *file = read_file(name, &length);
    uint32_t status = tables_of(file, length, ACPINS_ANY_FORM, &found);
    if (status != ACPINS_OK) return (int)status;
    fwrite(found.bytes, 1, (size_t)found.outcome.bytes, stdout);
    return 0;
}

int main(int words, char **word) {
    static const char *const texts[] = {"", "list", "list-bodies", "map", "bodies", "show", "uses", "check", "report", "report-all", "json",
                                        "html"};
    const char *command = words > 1 ? word[1] : "", *path = "";
    int at = 2;
    if (acpins_abi() != ACPINS_ABI) return failed("another ABI");
    if (at + 1 < words && strcmp(word[at], "--depth") == 0) depth = (uint32_t)atoi(word[at + 1]), at += 2;
    if (strcmp(command, "show") == 0 && at < words) path = word[at++];
    if (strcmp(command, "tables") == 0 && at < words) return write_tables(word[at]);
    while (at < words) read_tables(word[at++]);
    if (strcmp(command, "listed") == 0) return print_lines();
    if (strcmp(command, "records") == 0) return hold_records();
    for (uint32_t what = 1; what < sizeof texts / sizeof *texts; what++)
        if (strcmp(command, texts[what]) == 0) return print_text(what, path);
    return failed("no command");
}
