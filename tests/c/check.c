/* Checks and groups, random numbers, words as doubles, lent slices: see check.h. */
#include "check.h"

#include <stdarg.h>
#include <stdio.h>
#include <stdlib.h>
#include <string.h>

/* ---- Checks and groups ---- */

static const char *group = "start";
unsigned long checks, all_checks;

_Noreturn void fail(const char *format, ...) {
    va_list arguments;
    va_start(arguments, format);
    fflush(stdout);
    fprintf(stderr, "FAILED in %s: ", group);
    vfprintf(stderr, format, arguments);
    fprintf(stderr, "\n");
    va_end(arguments);
    exit(1);
}

void begin(const char *name) {
    group = name;
    checks = 0;
}

void end(const char *covers) {
    printf("%-20s %9lu checks: %s\n", group, checks, covers);
    fflush(stdout);
    all_checks += checks;
}

/* ---- Random numbers: splitmix64 ---- */

static uint64_t seed = 20240601;

uint64_t random_word(void) {
    uint64_t z = seed += UINT64_C(0x9E3779B97F4A7C15);
    z = (z ^ z >> 30) * UINT64_C(0xBF58476D1CE4E5B9);
    z = (z ^ z >> 27) * UINT64_C(0x94D049BB133111EB);
    return z ^ z >> 31;
}

size_t below(size_t limit) {
    return random_word() % limit;
}

void fill(uint64_t *words, size_t len) {
    for (size_t i = 0; i < len; i++) words[i] = random_word();
}

/* ---- Words and native doubles ---- */

double as_double(uint64_t bits) {
    double number;
    memcpy(&number, &bits, sizeof number);
    return number;
}

uint64_t as_bits(double number) {
    uint64_t bits;
    memcpy(&bits, &number, sizeof bits);
    return bits;
}

/* ---- Memory and lent slices ---- */

void *grab(size_t size) {
    void *memory = malloc(size ? size : 1);
    if (!memory) fail("out of memory");
    return memory;
}

enum { GUARD = 64 };

static lent lend(const void *words, size_t size) {
    lent l = {grab(size + 2 * GUARD), grab(size + 2 * GUARD), size};
    memset(l.library, 0xA5, GUARD);
    memset(l.library + GUARD + size, 0x5A, GUARD);
    memcpy(l.library + GUARD, words, size);
    memcpy(l.reference, l.library, size + 2 * GUARD);
    return l;
}

lent lend32(const uint32_t *words, size_t len) {
    return lend(words, len * sizeof *words);
}

lent lend64(const uint64_t *words, size_t len) {
    return lend(words, len * sizeof *words);
}

void *ours(lent l) {
    return l.library + GUARD;
}

void *theirs(lent l) {
    return l.reference + GUARD;
}

void take_back(const char *call, const char *slice, lent l, void *to) {
    size_t whole = l.size + 2 * GUARD, at = 0;
    checks++;
    if (memcmp(l.library, l.reference, whole) != 0) {
        while (l.library[at] == l.reference[at]) at++;
        fail("%s: slice %s differs from the reference at byte %td of %zu", call, slice, (ptrdiff_t)at - GUARD, l.size);
    }
    if (to && l.size) memcpy(to, ours(l), l.size);
    free(l.library);
    free(l.reference);
}
