/* Surveys tables as a kernel does, which has no C library: all memory is in arrays of the program, its stack too, and it reads and
 * writes by raw system calls of Linux on x86-64. Standard input holds the tables, one behind another, or the text of acpidump; a line
 * for each entry, problem and note goes to standard output, and how much memory and stack that took to standard error.
 *
 *     ./library out
 *     cc -O2 -ffreestanding -nostdlib -static -fno-stack-protector -fno-pie -no-pie -Wl,--gc-sections -Ibindings/c -o kernel \
 *         examples/kernel.c bindings/c/acpins_heap_arena.c out/lib/libacpins.a
 *     ./kernel <examples/small.dsdt
 */
#include "acpins.h"
#include "acpins_arena.h"

enum { DEPTH = 64, TABLES = 64, ENTRIES = 1 << 16, STACK = 1 << 20 };

static uint8_t file[2 << 20], table_bytes[2 << 20];
static uint64_t ends[TABLES];
static struct acpins_table tables[TABLES];
static uint8_t memory[32 << 20], text[8 << 20], bytes[1 << 20];
static struct acpins_entry entries[ENTRIES];
static struct acpins_target targets[ENTRIES];
static struct acpins_literal literals[ENTRIES];
static struct acpins_finding findings[ENTRIES];
static struct acpins_part parts[4 * ENTRIES];
__attribute__((used)) static uint8_t stack[STACK] __attribute__((aligned(16)));

/* The archive that LLVM builds calls these three, and a compiler may call them in place of a loop. */
void *memcpy(void *to, const void *from, size_t n) {
    void *at = to;
    __asm__ volatile("rep movsb" : "+D"(at), "+S"(from), "+c"(n) : : "memory");
    return to;
}

void *memmove(void *to, const void *from, size_t n) {
    if ((uintptr_t)to <= (uintptr_t)from) return memcpy(to, from, n);
    uint8_t *last = (uint8_t *)to + n - 1;
    const uint8_t *from_last = (const uint8_t *)from + n - 1;
    __asm__ volatile("std\n\trep movsb\n\tcld" : "+D"(last), "+S"(from_last), "+c"(n) : : "memory");
    return to;
}

void *memset(void *to, int byte, size_t n) {
    void *at = to;
    __asm__ volatile("rep stosb" : "+D"(at), "+c"(n) : "a"(byte) : "memory");
    return to;
}

enum { READ = 0, WRITE = 1, EXIT = 60 };

static long call(long number, long a, const void *b, size_t c) {
    long result;
    __asm__ volatile("syscall" : "=a"(result) : "a"(number), "D"(a), "S"(b), "d"(c) : "rcx", "r11", "memory");
    return result;
}

static void put(int file, const void *from, size_t length) {
    const uint8_t *at = from;
    for (long n; length > 0 && (n = call(WRITE, file, at, length)) > 0; at += n) length -= (size_t)n;
}

static void say(const char *word, uint64_t number) {
    char digits[32];
    size_t n = sizeof digits, length = 0;
    digits[--n] = '\n';
    do digits[--n] = (char)('0' + number % 10);
    while ((number /= 10) > 0);
    while (word[length]) length++;
    put(2, word, length);
    put(2, digits + n, sizeof digits - n);
}

/* The tables of standard input; how many there are. */
static size_t read_tables(void) {
    struct acpins_survey_outcome has;
    size_t length = 0;
    for (long n; (n = call(READ, 0, file + length, sizeof file - length)) > 0;) length += (size_t)n;
    if (acpins_tables(file, length, ACPINS_ANY_FORM, table_bytes, sizeof table_bytes, ends, TABLES, &has) != ACPINS_OK) return 0;
    for (size_t i = 0; i < has.tables; i++) {
        uint64_t begin = i ? ends[i - 1] : 0;
        tables[i].bytes = table_bytes + begin;
        tables[i].length = (size_t)(ends[i] - begin);
    }
    return (size_t)has.tables;
}

static size_t stack_taken(void) {
    size_t left = 0;
    while (left < STACK && stack[left] == 0) left++;
    return STACK - left;
}

__attribute__((used)) static void run(void) {
    struct acpins_arena arena;
    struct acpins_survey_outcome has;
    struct acpins_survey_arrays arrays = {entries, ENTRIES, targets,     ENTRIES, literals,    ENTRIES, findings,
                                          ENTRIES, text,    sizeof text, parts,   4 * ENTRIES, bytes,   sizeof bytes};
    acpins_arena_init(&arena, memory, sizeof memory);
    acpins_arena = &arena;
    uint32_t status = acpins_survey(tables, read_tables(), DEPTH, &arrays, &has);
    if (status == ACPINS_OK) put(1, text, has.literals ? (size_t)literals[0].text : (size_t)has.text);
    else say("status ", status);
    say("bytes of memory ", arena.most);
    say("bytes of stack ", stack_taken());
    say("not given back ", arena.taken);
    call(EXIT, status != ACPINS_OK || arena.taken ? 1 : has.problems ? 3 : 0, NULL, 0);
}

/* Where the program starts, on the stack that it has itself. */
__asm__(".globl _start\n_start:\n\txor %ebp, %ebp\n\tlea stack + 1048576, %rsp\n\tcall run\n");
