/* Leakage by words and by transitions, on the machine code; docs/LEAKAGE.md says what is tested and how.
 *
 * usage: leak TABLE CALL N RUNS [FILE]; TABLE is destinations.py's of this program, RUNS are about half fixed, half random. Prints a summary; FILE
 * gets a line for each step: address, largest |t| by words and by transitions. Ends with 0 if nothing depends on the operands, 2 if words do,
 * 4 if transitions do, 6 if both, and 1 where the test fails itself or runs differ in path. In a sabotage only its own code counts. */
#define _GNU_SOURCE
#include "leak.h"
#include <math.h>
#include <stdio.h>
#include <stdlib.h>
#include <string.h>
#include <time.h>

enum { CHECKS = 4, FEW = 20000 };
extern const char __start_sabotage, __stop_sabotage;
static double stepped, replayed; /* steps per second */

static double seconds(void) {
    struct timespec t;
    clock_gettime(CLOCK_MONOTONIC, &t);
    return (double)t.tv_sec + (double)t.tv_nsec * 1e-9;
}

static bool differ(const uint64_t *a, const uint64_t *b) {
    for (size_t s = 0; s < slots_used; s++)
        if ((a[s] ^ b[s]) & slots[s].mask) return true;
    return false;
}

/* The same run by single steps and by replay: every word before and after every step must be the same. */
static void check(const call_row *call, int group) {
    static uint64_t stepped_before[SLOTS], stepped_after[SLOTS];
    draw(call, group);
    reset(call), step_again(call->call);
    if (!right(call)) fail("the call's result is wrong", 0);
    memcpy(stepped_before, before, slots_used * 8), memcpy(stepped_after, after, slots_used * 8);
    reset(call);
    if (!replay()) fail("the path is not the same in all runs", 0);
    if (!right(call) || differ(before, stepped_before) || differ(after, stepped_after)) fail("single steps and replay differ", 0);
}

/* The path of one run, checked by a few more; where the runs are few by one, since single steps would take most of the time. */
static void find_path(const call_row *call, long runs) {
    int checks = runs < FEW ? 1 : CHECKS;
    double start = seconds();
    draw(call, 0), reset(call), record(call->call);
    stepped = (double)steps / (seconds() - start);
    write_replay();
    for (int k = 0; k < checks; k++) check(call, (k + 1) % 2);
}

static void run_all(const call_row *call, long runs) {
    double start = seconds();
    start_counts();
    for (long k = 0; k < runs; k++) {
        int group = random_word() & 1;
        draw(call, group), reset(call);
        if (!replay()) fail("the path is not the same in all runs", 0);
        if (!right(call)) fail("the call's result is wrong", 0);
        count(group);
    }
    if (!end_counts()) fail("the path is not the same in all runs", 0);
    replayed = (double)steps * (double)runs / (seconds() - start);
}

static bool counts_here(const call_row *call, uint64_t at) {
    uint64_t start = (uint64_t)&__start_sabotage, stop = (uint64_t)&__stop_sabotage;
    bool sabotaged = (uint64_t)call->call >= start && (uint64_t)call->call < stop;
    return !sabotaged || (at >= start && at < stop);
}

static int report(const call_row *call, long runs, FILE *file) {
    size_t found[KINDS] = {0, 0};
    double largest[KINDS] = {0, 0}, bound = threshold();
    if (file) fprintf(file, "%s %zu %zu %ld %.2f\n", call->name, shares, steps, runs, bound);
    for (size_t s = 0; s < steps; s++) {
        double t[KINDS];
        for (int kind = 0; kind < KINDS; kind++) {
            t[kind] = t_of_step(s, kind);
            largest[kind] = fmax(largest[kind], t[kind]);
            found[kind] += t[kind] > bound && counts_here(call, path[s].at);
        }
        if (file) fprintf(file, "%llx %.2f %.2f\n", (unsigned long long)path[s].at, t[WORDS], t[TRANSITIONS]);
    }
    printf("%s, n = %zu, %ld runs of %zu instructions: %zu by words (largest t %.2f), %zu by transitions (%.2f); threshold %.2f; "
           "steps a second: %.0f single, %.0f replayed\n", call->name, shares, runs, steps, found[WORDS], largest[WORDS], found[TRANSITIONS],
           largest[TRANSITIONS], bound, stepped, replayed);
    return (found[WORDS] ? 2 : 0) | (found[TRANSITIONS] ? 4 : 0);
}

int main(int argc, char **argv) {
    const call_row *call = argc >= 5 ? call_named(argv[2]) : NULL;
    if (!call || argc > 6) fail("usage: leak TABLE CALL N RUNS [FILE]", 0);
    shares = (size_t)atoi(argv[3]);
    long runs = atol(argv[4]);
    if (shares < 2 || shares > 8 || runs < 100) fail("N has to be 2 to 8, RUNS 100 or more", 0);
    FILE *file = argc == 6 ? fopen(argv[5], "w") : NULL;
    if (argc == 6 && !file) fail("the file cannot be written", 0);
    read_table(argv[1]);
    prepare();
    find_path(call, runs);
    run_all(call, runs);
    int status = report(call, runs, file);
    if (file && fclose(file)) fail("the file cannot be written", 0);
    return status;
}
