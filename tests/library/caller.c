/* caller COMMAND [--depth N] WORD..: answers as the program does, by the library: `list`, `show`, `check` and
 * `rewrite`. Two commands more: `typed` prints what `list` prints, each line made anew from the numbers of its
 * record; `records` holds the records against each other, against the text and against the tables' bytes, and prints
 * how many objects and bodies it saw. */
#include "tables.h"
#include <inttypes.h>
#include <stdio.h>
#include <stdlib.h>
#include <string.h>

static uint32_t depth = 1024;

/* ---- Answers that aren't ACPINS_OK */

static int failed(const char *why) {
    fprintf(stderr, "acpins: %s\n", why);
    return 1;
}

/* The line of a refusal, behind the table's number. */
static void print_reason(FILE *to, uint64_t reason, uint64_t place, const uint8_t *path, uint64_t path_length) {
    fputs(acpins_reason_name(reason), to);
    if (path_length > 0) fprintf(to, " %.*s", (int)path_length, (const char *)path);
    if (reason >> 8 == 'K') fprintf(to, " at %" PRIu64, place);
    fputc('\n', to);
}

static int ended(uint32_t status, const struct acpins_outcome *outcome, const uint8_t *path) {
    switch (status) {
    case ACPINS_OK: return 0;
    case ACPINS_REFUSED:
        fprintf(stderr, "acpins: table %" PRIu64 ": ", outcome->table);
        print_reason(stderr, outcome->reason, outcome->place, path, outcome->text);
        return 1;
    case ACPINS_MEMORY: return failed("M Memory");
    case ACPINS_CALL: return failed("no table");
    default: fprintf(stderr, "caller: status %u\n", status); return 98;
    }
}

/* The program tells of the first table that is none before it loads any: each table's own load tells that too. */
static int has_bad_table(struct tables tables) {
    for (size_t i = 0; tables.count > 1 && i < tables.count; i++) {
        struct acpins_arrays none = {0};
        struct acpins_outcome outcome;
        if (acpins_load(&tables.list[i], 1, depth, &none, &outcome) != ACPINS_REFUSED || outcome.reason >> 8 != 'T') continue;
        outcome.table = i;
        return ended(ACPINS_REFUSED, &outcome, NULL);
    }
    return 0;
}

/* ---- Lines of records */

static void print_constant(struct acpins_constant constant) {
    static const char *const words[] = {"Zero", "One", "Ones", "Revision"};
    if (constant.form < ACPINS_BYTE) fputs(words[constant.form], stdout);
    else printf("0x%0*" PRIX64, 2 << (constant.form - ACPINS_BYTE), constant.value);
}

static void print_string(const uint8_t *bytes, uint64_t length) {
    putchar('"');
    for (uint64_t i = 0; i < length; i++) {
        if (bytes[i] >= 0x20 && bytes[i] <= 0x7E && bytes[i] != '"' && bytes[i] != '\\') putchar(bytes[i]);
        else printf("\\x%02X", bytes[i]);
    }
    putchar('"');
}

static void print_part(const struct load *load, uint64_t place);

static void print_elements(const struct load *load, uint64_t place) {
    const struct acpins_part *parts = load->arrays.parts;
    putchar('{');
    for (uint64_t i = place + 1; i < parts[place].behind; i = parts[i].behind) {
        if (i > place + 1) fputs(", ", stdout);
        print_part(load, i);
    }
    putchar('}');
}

static void print_part(const struct load *load, uint64_t place) {
    const struct acpins_part *part = &load->arrays.parts[place];
    const uint8_t *bytes = load->arrays.bytes + part->byte;
    switch (part->kind) {
    case ACPINS_INTEGER: print_constant(part->constant); break;
    case ACPINS_STRING: print_string(bytes, part->bytes); break;
    case ACPINS_BUFFER:
        fputs("Buffer(", stdout);
        print_constant(part->constant);
        fputs("){", stdout);
        for (uint64_t i = 0; i < part->bytes; i++) printf(i > 0 ? " %02X" : "%02X", bytes[i]);
        putchar('}');
        break;
    case ACPINS_PACKAGE:
        printf("Package(%" PRIu64 ")", part->constant.value);
        print_elements(load, place);
        break;
    case ACPINS_VAR_PACKAGE:
        fputs("VarPackage(", stdout);
        print_constant(part->constant);
        putchar(')');
        print_elements(load, place);
        break;
    case ACPINS_REFERENCE: fwrite(bytes, 1, part->bytes, stdout); break;
    default: putchar('?');
    }
}

/* What stands behind the word of the kind. */
static void print_numbers(const struct load *load, const struct acpins_object *object) {
    switch (object->kind) {
    case ACPINS_PROCESSOR:
        printf(" id=%02" PRIX64 " block=%08" PRIX64 " length=%02" PRIX64, object->processor.id, object->processor.block,
               object->processor.length);
        break;
    case ACPINS_POWER_RESOURCE: printf(" level=%02" PRIX64 " order=%04" PRIX64, object->power.level, object->power.order); break;
    case ACPINS_NAME:
        putchar(' ');
        print_part(load, object->part);
        break;
    case ACPINS_METHOD:
        printf(" %" PRIu64 "%s", object->method.flags % 8, object->method.flags / 8 % 2 ? " Serialized" : "");
        if (object->method.flags / 16 > 0) printf(" Sync %" PRIu64, object->method.flags / 16);
        break;
    case ACPINS_REGION:
        printf(" space=%02" PRIX64 " offset=", object->region.space);
        print_constant(object->region.offset);
        fputs(" length=", stdout);
        print_constant(object->region.length);
        break;
    case ACPINS_MUTEX: printf(" %02" PRIX64, object->mutex.flags); break;
    case ACPINS_FIELD:
    case ACPINS_INDEX_FIELD:
    case ACPINS_BANK_FIELD:
        printf(" offset=%" PRIu64 " bits=%" PRIu64 " flags=%02" PRIX64, object->field.offset, object->field.bits,
               object->field.flags);
        if (object->kind != ACPINS_BANK_FIELD) break;
        fputs(" value=", stdout);
        print_constant(object->field.bank);
        break;
    case ACPINS_CREATE:
        fputs(" index=", stdout);
        print_constant(object->create.index);
        break;
    case ACPINS_CREATE_FIELD:
        fputs(" index=", stdout);
        print_constant(object->create_field.index);
        fputs(" bits=", stdout);
        print_constant(object->create_field.bits);
        break;
    default: break;
    }
}

static void print_path(const struct load *load, uint64_t place) {
    const struct acpins_object *object = &load->arrays.objects[place];
    fwrite(load->arrays.text + object->line, 1, object->path_length, stdout);
}

static void print_line(const struct load *load, uint64_t place) {
    const struct acpins_object *object = &load->arrays.objects[place];
    print_path(load, place);
    printf(" %s", acpins_kind_name(object));
    print_numbers(load, object);
    for (uint64_t i = 0; i < object->targets; i++) {
        uint64_t target = load->arrays.targets[object->target + i];
        fputs(i > 0 ? ", " : " -> ", stdout);
        if (target == ACPINS_NONE) putchar('-');
        else print_path(load, target);
    }
    putchar('\n');
}

/* ---- Records against each other */

#define CHECK(what)                                                                                                              \
    do {                                                                                                                         \
        if (!(what)) {                                                                                                           \
            printf("caller: line %d: %s; object or part %" PRIu64 "\n", __LINE__, #what, i);                                     \
            return 97;                                                                                                           \
        }                                                                                                                        \
    } while (0)

/* The lines lie one behind another, and each path is found, whole and with short segments. */
static int check_text(const struct load *load) {
    const struct acpins_object *objects = load->arrays.objects;
    uint64_t i, count = load->outcome.objects, line = 0, target = 0;
    uint8_t *typed = room_for(load->outcome.text + 1, 1);
    for (i = 0; i < count; i++) {
        const uint8_t *path = load->arrays.text + objects[i].line;
        uint64_t length = 0;
        CHECK(objects[i].line == line && objects[i].path_length < objects[i].line_length);
        CHECK(path[objects[i].path_length] == ' ' && path[objects[i].line_length - 1] == '\n');
        CHECK(objects[i].target == target || objects[i].targets == 0);
        line += objects[i].line_length;
        target += objects[i].targets;
        CHECK(acpins_find(objects, count, load->arrays.text, path, objects[i].path_length) == i);
        for (uint64_t at = 0; at < objects[i].path_length; at++) {
            while (length > 2 && path[at] == '.' && typed[length - 1] == '_' && typed[length - 2] != '.' &&
                   typed[length - 2] != '\\')
                length--;
            typed[length++] = path[at];
        }
        CHECK(acpins_find(objects, count, load->arrays.text, typed, length) == i);
        typed[length] = '.';
        CHECK(acpins_find(objects, count, load->arrays.text, typed, length + 1) == ACPINS_NONE);
    }
    CHECK(line == load->outcome.text && target == load->outcome.targets);
    free(typed);
    return 0;
}

/* Whether the path of one object is that of another and a segment more. */
static int is_child(const struct load *load, uint64_t above, uint64_t place) {
    const struct acpins_object *a = &load->arrays.objects[above], *b = &load->arrays.objects[place];
    uint64_t length = a->path_length == 1 ? 5 : a->path_length + 5;
    return b->path_length == length && memcmp(load->arrays.text + a->line, load->arrays.text + b->line, a->path_length) == 0;
}

static int is_below(const struct load *load, uint64_t above, uint64_t place) {
    const struct acpins_object *a = &load->arrays.objects[above], *b = &load->arrays.objects[place];
    return b->path_length > a->path_length &&
           memcmp(load->arrays.text + a->line, load->arrays.text + b->line, a->path_length) == 0;
}

/* Parents and ends agree with the paths, and so do the walks over children. */
static int check_tree(const struct load *load) {
    const struct acpins_object *objects = load->arrays.objects;
    uint64_t i, count = load->outcome.objects, children = 0;
    for (i = 0; i < count; i++) {
        uint64_t parent = acpins_parent(objects, i);
        CHECK(i == 0 ? parent == ACPINS_NONE && objects[i].path_length == 1 : parent < i && is_child(load, parent, i));
        CHECK(objects[i].below > i && objects[i].below <= count);
        CHECK(objects[i].below == i + 1 || is_below(load, i, objects[i].below - 1));
        CHECK(objects[i].below == count || !is_below(load, i, objects[i].below));
        for (uint64_t it = acpins_first_child(objects, i); it != ACPINS_NONE; it = acpins_next_sibling(objects, it)) {
            CHECK(acpins_parent(objects, it) == i);
            children++;
        }
    }
    CHECK(children + 1 == count);
    return 0;
}

/* Each package ends where its elements do, and the bytes lie one behind another. */
static int check_parts(const struct load *load) {
    const struct acpins_part *parts = load->arrays.parts;
    uint64_t i, count = load->outcome.parts, bytes = 0, next = 0;
    for (i = 0; i < count; i++) {
        int is_package = parts[i].kind == ACPINS_PACKAGE || parts[i].kind == ACPINS_VAR_PACKAGE;
        uint64_t at = i + 1;
        CHECK(parts[i].kind <= ACPINS_REFERENCE && parts[i].behind > i && parts[i].behind <= count);
        while (at < parts[i].behind) at = parts[at].behind;
        CHECK(at == parts[i].behind && (is_package || at == i + 1));
        if (parts[i].kind == ACPINS_STRING || parts[i].kind == ACPINS_BUFFER || parts[i].kind == ACPINS_REFERENCE) {
            CHECK(parts[i].byte == bytes);
            bytes += parts[i].bytes;
        } else {
            CHECK(parts[i].byte == 0 && parts[i].bytes == 0);
        }
    }
    CHECK(bytes == load->outcome.bytes);
    for (i = 0; i < load->outcome.objects; i++) {
        const struct acpins_object *object = &load->arrays.objects[i];
        if (object->kind != ACPINS_NAME) {
            CHECK(object->part == ACPINS_NONE);
            continue;
        }
        CHECK(object->part == next && next < count && object->name.data == parts[next].kind);
        next = parts[next].behind;
    }
    CHECK(next == count);
    return 0;
}

/* ---- Bodies */

/* A body, its text on the heap. */
struct answer {
    uint32_t status;
    struct acpins_body body;
    struct acpins_outcome outcome;
    uint8_t *text;
};

static struct answer body_at(struct tables tables, const uint8_t *path, size_t length) {
    struct answer answer = {0, {0}, {0}, NULL};
    answer.status = acpins_body(tables.list, tables.count, depth, path, length, NULL, 0, &answer.body, &answer.outcome);
    if (answer.status == ACPINS_NO_ROOM || (answer.status == ACPINS_REFUSED && answer.outcome.text > 0)) {
        size_t room = answer.outcome.text;
        answer.text = room_for(room, 1);
        answer.status =
            acpins_body(tables.list, tables.count, depth, path, length, answer.text, room, &answer.body, &answer.outcome);
    }
    return answer;
}

/* Where the package of a method that begins at `at` ends, if its flags stand right before `code`; 0 otherwise (ACPI
 * 6.5, 20.2.4). */
static uint64_t method_end(const uint8_t *bytes, uint64_t at, uint64_t code) {
    uint64_t begin = at + 1, more = bytes[begin] >> 6, length = more > 0 ? bytes[begin] & 0x0F : bytes[begin] & 0x3F;
    if (bytes[at] != 0x14 || begin + more >= code) return 0;
    for (uint64_t i = 1; i <= more; i++) length |= (uint64_t)bytes[begin + i] << (8 * i - 4);
    at = begin + more + 1;
    if (bytes[at] == '\\') at++;
    else
        while (bytes[at] == '^') at++;
    if (at < code && bytes[at] == 0x2E) at += 1 + 2 * 4;
    else if (at + 1 < code && bytes[at] == 0x2F) at += 2 + 4 * (uint64_t)bytes[at + 1];
    else at += 4;
    return at + 1 == code ? begin + length : 0;
}

/* Whether a method's name and flags stand before its code, and its package ends with the code. */
static int is_method_code(const struct load *load, const struct acpins_object *object, struct acpins_table table) {
    const uint8_t *path = load->arrays.text + object->line;
    uint64_t code = object->code_place;
    if (code < 36 + 7 || code > table.length || object->code_length > table.length - code) return 0;
    if (table.bytes[code - 1] != object->method.flags || memcmp(table.bytes + code - 5, path + object->path_length - 4, 4) != 0)
        return 0;
    for (uint64_t at = code - 7; at >= 36; at--)
        if (method_end(table.bytes, at, code) == code + object->code_length) return 1;
    return 0;
}

/* The code of methods stands where the records say; what isn't read is given as those bytes. */
static int check_code(const struct load *load, struct tables tables, uint64_t *bodies) {
    for (uint64_t i = 0; i < load->outcome.objects; i++) {
        const struct acpins_object *object = &load->arrays.objects[i];
        const uint8_t *path = load->arrays.text + object->line;
        if (object->code_table == ACPINS_NONE) {
            CHECK(object->code_place == 0 && object->code_length == 0);
            CHECK(object->kind != ACPINS_METHOD || (object->path_length == 5 && memcmp(path, "\\_OSI", 5) == 0));
            if (i % 16 > 0) continue;
            CHECK(body_at(tables, path, object->path_length).status == ACPINS_NO_METHOD);
            continue;
        }
        CHECK(object->kind == ACPINS_METHOD && object->code_table < tables.count);
        struct acpins_table table = tables.list[object->code_table];
        CHECK(is_method_code(load, object, table));
        if (++*bodies > 40 && *bodies % 50 > 0) continue; /* each is a load */
        struct answer answer = body_at(tables, path, object->path_length);
        CHECK(answer.status == ACPINS_OK);
        if (!answer.body.is_read) {
            CHECK(answer.outcome.text == object->code_length && answer.body.reason >> 8 == 'B' &&
                  answer.body.place <= object->code_length);
            CHECK(object->code_length == 0 || memcmp(answer.text, table.bytes + object->code_place, object->code_length) == 0);
        } else {
            CHECK(answer.body.reason == 0 && answer.body.place == 0 && (answer.outcome.text == 0) == (object->code_length == 0));
        }
        free(answer.text);
    }
    return 0;
}

/* ---- Commands */

static int list(struct tables tables, int is_typed) {
    struct load load = load_of(tables, depth);
    int status = ended(load.status, &load.outcome, load.arrays.text);
    if (status == 0 && !is_typed) fwrite(load.arrays.text, 1, load.outcome.text, stdout);
    for (uint64_t i = 0; status == 0 && is_typed && i < load.outcome.objects; i++) print_line(&load, i);
    free_load(load);
    return status;
}

static int records(struct tables tables) {
    struct load load = load_of(tables, depth);
    uint64_t bodies = 0;
    int status = ended(load.status, &load.outcome, load.arrays.text);
    if (status == 0) status = check_text(&load);
    if (status == 0) status = check_tree(&load);
    if (status == 0) status = check_parts(&load);
    if (status == 0) status = check_code(&load, tables, &bodies);
    if (status == 0) printf("%" PRIu64 " objects, %" PRIu64 " bodies\n", load.outcome.objects, bodies);
    free_load(load);
    return status;
}

static void print_body(const struct answer *answer) {
    if (answer->body.is_read) {
        fwrite(answer->text, 1, answer->outcome.text, stdout);
        return;
    }
    fputs("Opaque", stdout);
    for (uint64_t i = 0; i < answer->outcome.text; i++) printf(" %02X", answer->text[i]);
    printf("\nAt %" PRIu64 ": %s\n", answer->body.place, acpins_reason_name(answer->body.reason));
}

static int is_bad_path(const char *path) {
    struct acpins_body body;
    struct acpins_outcome outcome;
    static const uint8_t empty[36] = {'D', 'S', 'D', 'T', 36, 0, 0, 0, 2, 0xA4};
    struct acpins_table table = {empty, sizeof empty};
    return acpins_body(&table, 1, depth, (const uint8_t *)path, strlen(path), NULL, 0, &body, &outcome) == ACPINS_BAD_PATH;
}

static int show(struct tables tables, const char *path) {
    struct load load = load_of(tables, depth);
    int status = ended(load.status, &load.outcome, load.arrays.text);
    if (status == 0) {
        uint64_t place =
            acpins_find(load.arrays.objects, load.outcome.objects, load.arrays.text, (const uint8_t *)path, strlen(path));
        struct answer answer = body_at(tables, (const uint8_t *)path, strlen(path));
        if (place == ACPINS_NONE && answer.status == ACPINS_NO_METHOD) {
            status = failed("no such path");
        } else if (answer.status != ACPINS_NO_METHOD && (status = ended(answer.status, &answer.outcome, answer.text)) != 0) {
        } else {
            fwrite(load.arrays.text + load.arrays.objects[place].line, 1, load.arrays.objects[place].line_length, stdout);
            if (answer.status == ACPINS_OK) print_body(&answer);
        }
        free(answer.text);
    }
    free_load(load);
    return status;
}

/* The verdict's line, and those of Externals that are satisfied; the status. */
static int print_verdict(const struct acpins_verdict *verdict, const struct acpins_satisfied *satisfied, const uint8_t *text) {
    switch (verdict->order) {
    case ACPINS_COMMUTE:
        puts("commute");
        for (uint64_t i = 0; i < verdict->satisfied; i++)
            printf("satisfied %" PRIu64 " %" PRIu64 " %.*s\n", satisfied[i].user, satisfied[i].definer,
                   (int)satisfied[i].path_length, (const char *)text + satisfied[i].path);
        return 0;
    case ACPINS_NOT_ALONE:
        printf("not alone %" PRIu64 ": ", verdict->first);
        print_reason(stdout, verdict->reason, verdict->place, text, verdict->path_length);
        return 3;
    default:
        printf("%s %" PRIu64 " %" PRIu64 " %.*s\n", verdict->order == ACPINS_SAME ? "same" : "missed", verdict->first,
               verdict->second, (int)verdict->path_length, (const char *)text);
        return 3;
    }
}

static int check(struct tables tables) {
    struct acpins_verdict verdict;
    struct acpins_outcome outcome;
    struct acpins_satisfied *satisfied = NULL;
    uint8_t *text = NULL;
    uint32_t status = acpins_check(tables.list, tables.count, depth, NULL, 0, NULL, 0, &verdict, &outcome);
    if (status == ACPINS_NO_ROOM || (status == ACPINS_REFUSED && outcome.text > 0)) {
        size_t satisfied_room = status == ACPINS_NO_ROOM ? verdict.satisfied : 0, text_room = outcome.text;
        satisfied = room_for(satisfied_room, sizeof *satisfied);
        text = room_for(text_room, 1);
        status = acpins_check(tables.list, tables.count, depth, satisfied, satisfied_room, text, text_room, &verdict, &outcome);
    }
    int result = ended(status, &outcome, text);
    if (result == 0) result = print_verdict(&verdict, satisfied, text);
    free(satisfied);
    free(text);
    return result;
}

static int rewrite(struct tables tables, const char *out) {
    struct acpins_outcome outcome;
    uint64_t *ends = room_for(tables.count, sizeof *ends), end = 0;
    uint8_t *bytes = NULL;
    uint32_t status = acpins_rewrite(tables.list, tables.count, depth, NULL, 0, ends, tables.count, &outcome);
    if (status == ACPINS_NO_ROOM || (status == ACPINS_REFUSED && outcome.text > 0)) {
        size_t room = status == ACPINS_NO_ROOM ? outcome.bytes : outcome.text;
        bytes = room_for(room, 1);
        status = acpins_rewrite(tables.list, tables.count, depth, bytes, room, ends, tables.count, &outcome);
    }
    int result = ended(status, &outcome, bytes);
    if (result == 0) {
        FILE *file = fopen(out, "wb");
        /* one by one, so that the ends are tried too */
        for (size_t i = 0; i < tables.count; end = ends[i++]) fwrite(bytes + end, 1, ends[i] - end, file);
        if (fclose(file) != 0 || end != outcome.bytes) result = failed("OUT");
    }
    free(bytes);
    free(ends);
    return result;
}

int main(int count, char **words) {
    int next = 2;
    const char *command = count > 1 ? words[1] : "", *word = "";
    if (acpins_abi() != ACPINS_ABI) return failed("another ABI");
    if (next + 1 < count && strcmp(words[next], "--depth") == 0) depth = (uint32_t)strtoul(words[next + 1], NULL, 10), next += 2;
    if (next < count && (strcmp(command, "show") == 0 || strcmp(command, "rewrite") == 0)) word = words[next++];
    if (strcmp(command, "show") == 0 && is_bad_path(word)) {
        failed("bad path");
        return 2;
    }
    struct tables tables = tables_of(count - next, words + next);
    int status = has_bad_table(tables);
    if (status != 0) {
    } else if (strcmp(command, "list") == 0) status = list(tables, 0);
    else if (strcmp(command, "typed") == 0) status = list(tables, 1);
    else if (strcmp(command, "records") == 0) status = records(tables);
    else if (strcmp(command, "show") == 0) status = show(tables, word);
    else if (strcmp(command, "check") == 0) status = check(tables);
    else if (strcmp(command, "rewrite") == 0) status = rewrite(tables, word);
    else status = failed("wrong words");
    free_tables(tables);
    return status;
}
