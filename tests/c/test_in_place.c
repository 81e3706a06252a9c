/* Groups: operations that replace their first operand, by the plans that test_plan_copies left, and an accumulator made of them. */
#include <stdio.h>
#include <stdlib.h>
#include <string.h>

#include "calls.h"
#include "check.h"
#include "input.h"
#include "operands.h"
#include "tests.h"

/* The shares, the answer and the work slice of the other form over the same tape. */
static void as_the_other_form(const operation *op, size_t n, uint64_t a, uint64_t b) {
    size_t need = ref_measure(n, op->plan, op->plan_len).tape, tape_len = need + (below(2) ? below(9) : 0);
    uint64_t *tape = grab(tape_len * sizeof *tape), x[8], y[8], result[8], work[REF_CELLS], other_work[REF_CELLS];
    split_into(a, x, n);
    split_into(b, y, n);
    fill(tape, tape_len), fill(result, 8), fill(work, REF_CELLS), fill(other_work, REF_CELLS);
    lubewon_answer other = op->on_shares(x, n, y, n, result, n, other_work, REF_CELLS, tape, tape_len);
    lubewon_answer got = try_in_place(0, op, x, n, y, n, work, REF_CELLS, tape, tape_len);
    CHECK(got.place == other.place && got.words == other.words && got.tape == other.tape && got.tape == need,
          "%s in place on %zu shares: not the answer of the other form", op->name, n);
    CHECK(memcmp(x, result, n * sizeof *x) == 0, "%s in place on %zu shares: not the shares of the other form", op->name, n);
    CHECK(try_join(0, x, n) == op->plain(a, b), "%s in place on %zu shares of %016lX, %016lX", op->name, n, a, b);
    for (size_t i = 0; i < REF_CELLS; i++)
        CHECK(work[i] == 0 && other_work[i] == 0, "%s in place on %zu shares: work is not zero at %zu", op->name, n, i);
    free(tape);
}

typedef struct {
    size_t x, y, work, tape;
} lengths;

/* One wrong length of y or work, by turns, then both. With one operand there is no y. */
static void spoil(const operation *op, int turn, lengths *l) {
    static const size_t works[] = {0, 32, 511, 513};
    size_t shorter = l->x ? l->x - 1 : 1, longer = l->x < 10 ? l->x + 1 : 2;
    if (!op->two || turn % 4 == 0 || turn % 4 == 3) l->work = works[below(COUNT(works))];
    if (turn % 4 == 1 || turn % 4 == 3) l->y = shorter;
    if (turn % 4 == 2) l->y = longer;
}

/* x and work are then what they were: no answer but 0 moves a word of either. */
static void turned_down(const operation *op, uint32_t number, lengths l) {
    uint64_t x[10], y[10], work[REF_CELLS + 1], old_x[10], old_work[REF_CELLS + 1], *tape = grab(l.tape * sizeof *tape);
    fill(x, 10), fill(y, 10), fill(work, COUNT(work)), fill(tape, l.tape);
    memcpy(old_x, x, sizeof x);
    memcpy(old_work, work, sizeof work);
    try_in_place(number, op, x, l.x, y, l.y, work, l.work, tape, l.tape);
    CHECK(memcmp(x, old_x, sizeof x) == 0, "%s in place, turned down with %u: x has changed", op->name, number);
    CHECK(memcmp(work, old_work, sizeof work) == 0, "%s in place, turned down with %u: work has changed", op->name, number);
    free(tape);
}

static void test_in_place(const operation *op) {
    static const uint32_t numbers[] = {1, 4, 6};
    static const size_t share_counts[] = {0, 1, 9, 10};
    uint64_t a, b;
    for (unsigned mask = 1; mask < 8; mask++)
        for (size_t n = 2; n <= 8; n++)
            for (int round = 0; round < 12; round++) {
                size_t x_len = mask & 1 ? share_counts[below(COUNT(share_counts))] : n;
                size_t need = ref_measure(n, op->plan, op->plan_len).tape;
                lengths l = {x_len, x_len, REF_CELLS, need};
                if (mask & 2) spoil(op, round, &l);
                if (mask & 4) l.tape = round % 3 ? need - 1 : below(need);
                turned_down(op, first_that_applies(mask, numbers, 3), l);
            }
    for (size_t n = 2; n <= 8; n++)
        for (int round = 0; round < 60; round++) {
            random_pair(&a, &b);
            as_the_other_form(op, n, a, b);
        }
}

void test_operations_in_place(void) {
    static char name[40];
    for (size_t i = 0; i < COUNT(operations); i++) {
        snprintf(name, sizeof name, "%s in place", operations[i].name);
        begin(name);
        test_in_place(&operations[i]);
        end("1, 4, 6 in all combinations, which leave x and work; shares, answer and work of the other form for n = 2..8");
    }
}

/* Terms of both signs, near enough to each other that sums round and cancel. */
static uint64_t random_term(void) {
    return pack(below(2), 1000 + below(60), random_fraction());
}

/* Terms summed one after another in the shares of the first. */
static void accumulate(size_t n, int terms) {
    static uint64_t tape[LUBEWON_SUM_TAPE(LUBEWON_MOST_SHARES)];
    uint64_t sum[8], y[8], work[REF_CELLS], plain = random_term();
    split_into(plain, sum, n);
    for (int i = 1; i < terms; i++) {
        uint64_t term = random_term();
        split_into(term, y, n);
        fill(tape, LUBEWON_SUM_TAPE(n));
        CHECK(lubewon_sum_in_place(sum, n, y, n, work, REF_CELLS, tape, LUBEWON_SUM_TAPE(n)).number == LUBEWON_DONE, "accumulator");
        plain = lubewon_sum(plain, term);
        CHECK(try_join(0, sum, n) == plain, "accumulator on %zu shares after %d terms", n, i + 1);
    }
}

void test_accumulator(void) {
    begin("accumulator");
    for (size_t n = LUBEWON_LEAST_SHARES; n <= LUBEWON_MOST_SHARES; n++)
        for (int round = 0; round < 20; round++) accumulate(n, 16);
    end("sixteen terms summed in place, one after another, join to the plain sums for n = 2..8");
}
