/* The table that destinations.py makes of the test program itself, by address. The program is linked at a fixed address, so the table's addresses
 * are those of the run. */
#include "leak.h"
#include <stdio.h>
#include <stdlib.h>

static instruction *table;
static uint64_t low = UINT64_MAX, high;

noreturn void fail(const char *why, uint64_t at) {
    fprintf(stderr, "leakage: %s", why);
    if (at) fprintf(stderr, " at %llx", (unsigned long long)at);
    fprintf(stderr, "\n");
    _Exit(1);
}

static bool read_place(FILE *file, place *p) {
    long long disp;
    if (fscanf(file, " %c %hhd %hhd %hhd %hhd %hhd %lld", &p->kind, &p->size, &p->reg, &p->base, &p->index, &p->scale, &disp) != 7) return false;
    p->disp = disp;
    return true;
}

static bool read_row(FILE *file, uint64_t *at, instruction *i) {
    unsigned long long address;
    *i = (instruction){0};
    if (fscanf(file, "%llx %hhu %c %hhu %hhu", &address, &i->length, &i->flow, &i->relative, &i->places) != 5) return false;
    *at = address;
    if (i->places > 4) fail("too many places in the table", address);
    for (int k = 0; k < i->places; k++)
        if (!read_place(file, &i->place[k])) fail("the table has a broken row", address);
    return true;
}

void read_table(const char *file_name) {
    FILE *file = fopen(file_name, "r");
    uint64_t at;
    instruction i;
    if (!file) fail("no table of instructions", 0);
    while (read_row(file, &at, &i)) low = at < low ? at : low, high = at >= high ? at + 1 : high;
    if (high <= low || high >> 31) fail("the table is empty, or the program is not linked low", high);
    table = calloc(high - low, sizeof *table);
    if (!table) fail("out of memory", 0);
    rewind(file);
    while (read_row(file, &at, &i)) table[at - low] = i;
    fclose(file);
}

const instruction *instruction_at(uint64_t at) {
    return at >= low && at < high && table[at - low].length ? &table[at - low] : NULL;
}
