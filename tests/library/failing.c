/* failing PATH FILE..: makes each call over the tables with each of its allocations refused in turn; of a call of the
 * survey the steps grow behind the first 2,048. PATH is that of a method which a table declares, or empty where there is none. Each time all
 * memory must be given back, and the answer be either ACPINS_MEMORY, with nothing else told and the arrays as they were,
 * or the same as when nothing is refused (a list that can't be made shorter stays as it is). Then each array is one
 * place too short. */
#include "acpins_heap.h"
#include "tables.h"
#include <stdio.h>
#include <stdlib.h>
#include <string.h>

/* ---- Memory that is refused once */

static size_t left; /* the allocation that fails; 0: none does */
static size_t taken;

static struct acpins_block block_at(void *p) {
    static char nothing;
    struct acpins_block block = {p != NULL, p != NULL ? p : &nothing};
    return block;
}

static int is_refused(void) { return left > 0 && --left == 0; }

struct acpins_block rattle_alloc(size_t size, size_t align) {
    (void)align;
    if (is_refused()) return block_at(NULL);
    taken++;
    return block_at(malloc(size > 0 ? size : 1));
}

/* It always moves, so that who keeps an old pointer is found out. */
struct acpins_block rattle_realloc(void *p, size_t kept, size_t size, size_t align) {
    (void)align;
    if (is_refused()) return block_at(NULL);
    void *other = malloc(size > 0 ? size : 1);
    if (kept > 0) memcpy(other, p, kept);
    free(p);
    return block_at(other);
}

void rattle_dealloc(void *p) {
    taken--;
    free(p);
}

/* ---- Arrays of a call */

enum { ARRAYS = 7, GUARD = 64, FILLED = 0x5A };

struct array {
    uint8_t *bytes;          /* `room` elements, and GUARD bytes behind them */
    uint8_t *whole;          /* what they hold when nothing is refused */
    size_t room, size, used; /* used: how many elements the answer has */
};

static struct array arrays[ARRAYS];
static struct tables tables;
static const char *path;
static struct acpins_outcome outcome;
static struct acpins_survey_outcome found; /* of calls of the survey */
static struct acpins_body body;
static struct acpins_verdict verdict;
static uint32_t status, right; /* right: the status when nothing is refused */

static size_t bytes_of(const struct array *array) { return array->room * array->size; }

static void make_array(struct array *array, size_t used, size_t size, size_t room) {
    array->used = used, array->size = size, array->room = room;
    array->bytes = room_for(bytes_of(array) + GUARD, 1);
    memset(array->bytes, FILLED, bytes_of(array) + GUARD);
}

static int is_filled(const uint8_t *bytes, size_t count) {
    for (size_t i = 0; i < count; i++)
        if (bytes[i] != FILLED) return 0;
    return 1;
}

/* Fills the records of acpins_body and acpins_check, and whether they are as they were then. */
static void fill_records(void) {
    memset(&body, FILLED, sizeof body);
    memset(&verdict, FILLED, sizeof verdict);
}

static int are_filled_records(void) {
    return is_filled((const uint8_t *)&body, sizeof body) && is_filled((const uint8_t *)&verdict, sizeof verdict);
}

/* ---- Calls. Each makes the call over the arrays, and tells how many elements of each the answer has. */

static struct acpins_arrays of_load(void) {
    struct acpins_arrays all = {(void *)arrays[0].bytes, arrays[0].room, (void *)arrays[1].bytes, arrays[1].room,
                                arrays[2].bytes,         arrays[2].room, (void *)arrays[3].bytes, arrays[3].room,
                                arrays[4].bytes,         arrays[4].room};
    return all;
}

static void call_load(void) {
    struct acpins_arrays all = of_load();
    status = acpins_load(tables.list, tables.count, 1024, &all, &outcome);
    arrays[0].used = outcome.objects, arrays[0].size = sizeof(struct acpins_object);
    arrays[1].used = outcome.targets, arrays[1].size = sizeof(uint64_t);
    arrays[2].used = outcome.text, arrays[3].used = outcome.parts, arrays[3].size = sizeof(struct acpins_part);
    arrays[4].used = outcome.bytes;
}

static void call_body(void) {
    status = acpins_body(tables.list, tables.count, 1024, (const uint8_t *)path, strlen(path), arrays[0].bytes, arrays[0].room,
                         &body, &outcome);
    arrays[0].used = outcome.text;
}

static void call_check(void) {
    status = acpins_check(tables.list, tables.count, 1024, (void *)arrays[0].bytes, arrays[0].room, arrays[1].bytes,
                          arrays[1].room, &verdict, &outcome);
    arrays[0].used = status == ACPINS_OK || status == ACPINS_NO_ROOM ? verdict.satisfied : 0;
    arrays[0].size = sizeof(struct acpins_satisfied), arrays[1].used = outcome.text;
}

static void call_rewrite(void) {
    status = acpins_rewrite(tables.list, tables.count, 1024, arrays[0].bytes, arrays[0].room, (void *)arrays[1].bytes,
                            arrays[1].room, &outcome);
    arrays[0].used = status == ACPINS_REFUSED ? outcome.text : outcome.bytes;
    arrays[1].used = status == ACPINS_REFUSED ? 0 : tables.count, arrays[1].size = sizeof(uint64_t);
}

static void call_survey(void) {
    struct acpins_survey_arrays all = {
        (void *)arrays[0].bytes, arrays[0].room, (void *)arrays[1].bytes, arrays[1].room, (void *)arrays[2].bytes,
        arrays[2].room,          (void *)arrays[3].bytes, arrays[3].room, arrays[4].bytes, arrays[4].room,
        (void *)arrays[5].bytes, arrays[5].room, arrays[6].bytes, arrays[6].room};
    status = acpins_survey(tables.list, tables.count, 1024, &all, &found);
    arrays[0].used = found.entries, arrays[0].size = sizeof(struct acpins_entry);
    arrays[1].used = found.targets, arrays[1].size = sizeof(struct acpins_target);
    arrays[2].used = found.literals, arrays[2].size = sizeof(struct acpins_literal);
    arrays[3].used = found.problems + found.notes, arrays[3].size = sizeof(struct acpins_finding);
    arrays[4].used = found.text, arrays[5].used = found.parts, arrays[5].size = sizeof(struct acpins_part);
    arrays[6].used = found.bytes;
}

static void call_text(uint32_t what) {
    status = acpins_survey_text(tables.list, tables.count, 1024, what, (const uint8_t *)"\\", 1, arrays[0].bytes, arrays[0].room,
                                &found);
    arrays[0].used = found.text;
}

static void call_list(void) { call_text(ACPINS_LIST); }
static void call_json(void) { call_text(ACPINS_JSON); }
static void call_report(void) { call_text(ACPINS_REPORT); }
static void call_problems(void) { call_text(ACPINS_CHECK); }

static void call_tables(void) {
    struct acpins_table first = tables.count > 0 ? tables.list[0] : (struct acpins_table){NULL, 0};
    status = acpins_tables(first.bytes, first.length, ACPINS_PLAIN, arrays[0].bytes, arrays[0].room, (void *)arrays[1].bytes,
                           arrays[1].room, &found);
    arrays[0].used = found.bytes, arrays[1].used = found.tables, arrays[1].size = sizeof(uint64_t);
}

/* ---- Tests */

static const char *name;

#define CHECK(what)                                                                                                              \
    do {                                                                                                                         \
        if (!(what)) {                                                                                                           \
            printf("failing: %s, line %d: %s; allocation %zu, status %u\n", name, __LINE__, #what, n, status);                   \
            exit(1);                                                                                                             \
        }                                                                                                                        \
    } while (0)

static void make_arrays(const size_t *rooms, const struct array *like) {
    for (int i = 0; i < ARRAYS; i++) make_array(&arrays[i], like[i].used, like[i].size, rooms[i]);
}

static void free_arrays(void) {
    for (int i = 0; i < ARRAYS; i++) free(arrays[i].bytes);
}

/* The call with no array at all tells the sizes. A call that writes nothing ends well so. */
static void learn_sizes(void (*call)(void), struct array *like) {
    size_t n = 0, all = 0;
    memset(arrays, 0, sizeof arrays);
    for (int i = 0; i < ARRAYS; i++) arrays[i].size = 1;
    fill_records();
    call();
    memcpy(like, arrays, sizeof arrays);
    for (int i = 0; i < ARRAYS; i++) all += like[i].used;
    right = status == ACPINS_REFUSED ? ACPINS_REFUSED : ACPINS_OK;
    CHECK(status != ACPINS_REFUSED || are_filled_records());
    CHECK(status != ACPINS_REFUSED || call != call_check || outcome.table == 0);
    CHECK(taken == 0 && (status == ACPINS_REFUSED || status == (all > 0 ? ACPINS_NO_ROOM : ACPINS_OK)));
}

static int is_told(const struct acpins_body *told_body, const struct acpins_verdict *told_verdict) {
    return memcmp(&body, told_body, sizeof body) == 0 && memcmp(&verdict, told_verdict, sizeof verdict) == 0;
}

enum { EACH = 2048 };

/* Each allocation refused in turn, and of the survey's calls some behind the first ones: how many were. */
static size_t refuse_each(void (*call)(void), size_t *in_vain) {
    static const struct acpins_outcome nothing;
    static const struct acpins_survey_outcome none;
    struct acpins_outcome told = outcome;
    struct acpins_survey_outcome told_found = found;
    int is_survey = !(call == call_load || call == call_body || call == call_check || call == call_rewrite);
    struct acpins_body told_body = body;
    struct acpins_verdict told_verdict = verdict;
    size_t count = 0;
    for (size_t n = 1;; n += is_survey ? 1 + n / EACH : 1) {
        for (int i = 0; i < ARRAYS; i++) memset(arrays[i].bytes, FILLED, bytes_of(&arrays[i]));
        left = n;
        fill_records();
        call();
        int is_whole = status == right;
        CHECK(taken == 0 && (is_whole || status == ACPINS_MEMORY));
        CHECK(memcmp(&outcome, is_whole || is_survey ? &told : &nothing, sizeof outcome) == 0);
        CHECK(memcmp(&found, is_whole || !is_survey ? &told_found : &none, sizeof found) == 0);
        CHECK(is_whole ? is_told(&told_body, &told_verdict) : are_filled_records());
        for (int i = 0; i < ARRAYS; i++) {
            size_t size = bytes_of(&arrays[i]);
            CHECK(is_whole ? size == 0 || memcmp(arrays[i].bytes, arrays[i].whole, size) == 0 : is_filled(arrays[i].bytes, size));
            CHECK(is_filled(arrays[i].bytes + size, GUARD));
        }
        if (left > 0) {
            left = 0;
            CHECK(is_whole);
            return count;
        }
        count++;
        *in_vain += (size_t)is_whole;
    }
}

/* Each array one place too short: the sizes are told, and no array is written, but the records of acpins_body and
 * acpins_check are. A refusal stays one. */
static void shorten_each(void (*call)(void), const struct array *like) {
    struct acpins_body told_body = body;
    struct acpins_verdict told_verdict = verdict;
    for (int which = 0; which < ARRAYS; which++) {
        size_t n = 0, rooms[ARRAYS];
        if (like[which].used == 0) continue;
        for (int i = 0; i < ARRAYS; i++) rooms[i] = like[i].used - (i == which);
        make_arrays(rooms, like);
        fill_records();
        call();
        CHECK(is_told(&told_body, &told_verdict));
        CHECK(taken == 0 && status == (right == ACPINS_OK ? ACPINS_NO_ROOM : right));
        for (int i = 0; i < ARRAYS; i++)
            CHECK(arrays[i].used == like[i].used && is_filled(arrays[i].bytes, bytes_of(&arrays[i]) + GUARD));
        free_arrays();
    }
}

static void test(const char *of, void (*call)(void)) {
    struct array like[ARRAYS];
    size_t n = 0, in_vain = 0, rooms[ARRAYS];
    name = of;
    learn_sizes(call, like);
    for (int i = 0; i < ARRAYS; i++) rooms[i] = like[i].used;
    make_arrays(rooms, like);
    fill_records();
    call();
    CHECK(taken == 0 && status == right);
    for (int i = 0; i < ARRAYS; i++) {
        CHECK(arrays[i].used == like[i].used && is_filled(arrays[i].bytes + bytes_of(&arrays[i]), GUARD));
        arrays[i].whole = room_for(bytes_of(&arrays[i]), 1);
        if (arrays[i].whole) memcpy(arrays[i].whole, arrays[i].bytes, bytes_of(&arrays[i]));
    }
    size_t count = refuse_each(call, &in_vain);
    for (int i = 0; i < ARRAYS; i++) free(arrays[i].whole), arrays[i].whole = NULL;
    free_arrays();
    shorten_each(call, like);
    /* with more room than is needed, what is behind stays */
    for (int i = 0; i < ARRAYS; i++) rooms[i] = like[i].used + 3;
    make_arrays(rooms, like);
    call();
    CHECK(taken == 0 && status == right);
    for (int i = 0; i < ARRAYS; i++)
        CHECK(is_filled(arrays[i].bytes + like[i].used * arrays[i].size,
                        bytes_of(&arrays[i]) - like[i].used * arrays[i].size + GUARD));
    free_arrays();
    printf("failing: %s: %zu allocations refused in turn, %zu of them in vain\n", of, count, in_vain);
}

/* Calls with no table, or with a depth that is none. */
static void call_wrongly(void (*call)(void)) {
    struct tables given = tables;
    size_t n = 0;
    memset(arrays, 0, sizeof arrays);
    tables.count = 0;
    call();
    CHECK(status == ACPINS_CALL && taken == 0);
    tables.list = NULL;
    call();
    CHECK(status == ACPINS_CALL && taken == 0);
    tables = given;
}

static void test_wrong_calls(void) {
    static const uint32_t depths[] = {0, 4097, UINT32_MAX};
    struct acpins_arrays none = {0};
    struct acpins_survey_arrays no_survey = {0};
    struct acpins_table empty = {NULL, 0};
    size_t n = 0;
    name = "wrong calls";
    call_wrongly(call_load), call_wrongly(call_body), call_wrongly(call_check), call_wrongly(call_rewrite);
    call_wrongly(call_survey), call_wrongly(call_list);
    for (size_t i = 0; i < sizeof depths / sizeof *depths; i++) {
        CHECK((status = acpins_load(tables.list, tables.count, depths[i], &none, &outcome)) == ACPINS_CALL);
        CHECK((status = acpins_body(tables.list, tables.count, depths[i], (const uint8_t *)"\\", 1, NULL, 0, &body, &outcome)) ==
              ACPINS_CALL);
        CHECK((status = acpins_check(tables.list, tables.count, depths[i], NULL, 0, NULL, 0, &verdict, &outcome)) == ACPINS_CALL);
        CHECK((status = acpins_rewrite(tables.list, tables.count, depths[i], NULL, 0, NULL, 0, &outcome)) == ACPINS_CALL);
        CHECK((status = acpins_survey(tables.list, tables.count, depths[i], &no_survey, &found)) == ACPINS_CALL);
        CHECK((status = acpins_survey_text(tables.list, tables.count, depths[i], 1, NULL, 0, NULL, 0, &found)) == ACPINS_CALL);
    }
    for (uint32_t what = 0; what < 20; what += what == 0 ? 12 : 1)
        CHECK((status = acpins_survey_text(tables.list, tables.count, 9, what, NULL, 0, NULL, 0, &found)) == ACPINS_CALL);
    status = acpins_survey_text(tables.list, tables.count, 9, ACPINS_SHOW, (const uint8_t *)"no", 2, NULL, 0, &found);
    CHECK(status == ACPINS_BAD_PATH && taken == 0);
    status = acpins_survey_text(tables.list, tables.count, 9, ACPINS_SHOW, (const uint8_t *)"\\NONE.NONE", 10, NULL, 0, &found);
    CHECK(status == ACPINS_NO_OBJECT && taken == 0);
    status = acpins_load(&empty, 1, 1024, &none, &outcome);
    CHECK(status == ACPINS_REFUSED && outcome.reason == 0x5401 && outcome.table == 0 && outcome.text == 0);
}

int main(int count, char **words) {
    if (count < 3) return 2;
    path = words[1];
    tables = tables_of(count - 2, words + 2);
    test("load", call_load);
    if (path[0]) test("body", call_body);
    test("check", call_check);
    test("rewrite", call_rewrite);
    test("survey", call_survey), test("list", call_list), test("json", call_json), test("report", call_report);
    test("check of a survey", call_problems), test("tables of a file", call_tables);
    test_wrong_calls();
    free_tables(tables);
    return 0;
}
