/* Groups: split and join, operations on shares. */
#include <stdio.h>
#include <stdlib.h>
#include <string.h>

#include "calls.h"
#include "check.h"
#include "input.h"
#include "operands.h"
#include "tests.h"

/* ---- Split and join ---- */

void test_split_and_join(void) {
    static const uint32_t numbers[] = {1, 6};
    static const size_t bad_lengths[] = {0, 1, 9, 10, 16};
    uint64_t tape[16], out[16];
    begin("split and join");
    for (unsigned mask = 0; mask < 4; mask++)
        for (int round = 0; round < 500; round++) {
            size_t n = mask & 1 ? bad_lengths[below(COUNT(bad_lengths))] : 2 + below(7);
            size_t tape_len = mask & 2 ? (mask & 1 || n < 2 ? 0 : below(n - 1)) : mask & 1 ? COUNT(tape) : n - 1 + below(3);
            fill(tape, COUNT(tape));
            fill(out, COUNT(out));
            try_split(first_that_applies(mask, numbers, 2), random_word(), tape, tape_len, out, n);
        }
    for (size_t n = 2; n <= 8; n++)
        for (int round = 0; round < 500; round++) {
            uint64_t word = random_word();
            fill(tape, n - 1);
            try_split(0, word, tape, n - 1, out, n);
            CHECK(memcmp(out + 1, tape, (n - 1) * sizeof *tape) == 0, "split: shares 1 and up are the tape's words");
            CHECK(try_join(0, out, n) == word, "split and joined for n = %zu", n);
            try_split(6, word, tape, n - 2, out, n);
            fill(out, n);
            try_join(0, out, n);
        }
    for (size_t i = 0; i < COUNT(bad_lengths); i++) {
        fill(out, COUNT(out));
        CHECK(try_join(1, out, bad_lengths[i]) == 0, "join: the word is 0 when turned down");
    }
    end("1 and 6 in all combinations, there and back for n = 2..8");
}

/* ---- Operations on shares, by the plans that test_plan_copies left ---- */

/* The library's own share run over its own translation of the copied plan, on zeroed cells with the operands placed. */
static void by_share_run(const operation *op, size_t n, const uint64_t *x, const uint64_t *y, const uint64_t *tape, size_t tape_len,
                         uint64_t *result) {
    size_t words = ref_measure(n, op->plan, op->plan_len).words;
    uint32_t *program = grab(words * sizeof *program);
    uint64_t cells[REF_CELLS] = {0};
    for (size_t i = 0; i < n; i++) {
        cells[32 * i] = x[i];
        if (op->two) cells[32 * i + 1] = y[i];
    }
    CHECK(lubewon_translate(n, op->plan, op->plan_len, program, words).number == 0, "%s: translate", op->name);
    CHECK(lubewon_share_run(n, program, words, 0, tape, tape_len, 0, words, cells, REF_CELLS).words == words, "%s: share run", op->name);
    for (size_t i = 0; i < n; i++) result[i] = cells[32 * i + 2];
    free(program);
}

static void one_on_shares(const operation *op, size_t n, uint64_t a, uint64_t b) {
    size_t need = ref_measure(n, op->plan, op->plan_len).tape, tape_len = need + (below(2) ? below(9) : 0);
    uint64_t *tape = grab(tape_len * sizeof *tape), x[8], y[8], result[8], run[8], work[REF_CELLS];
    split_into(a, x, n);
    split_into(b, y, n);
    fill(tape, tape_len);
    fill(result, 8);
    fill(work, REF_CELLS);
    lubewon_answer answer = try_on_shares(0, op, x, n, y, n, result, n, work, REF_CELLS, tape, tape_len);
    CHECK(answer.tape == need && answer.words == 0, "%s on %zu shares: counts", op->name, n);
    by_share_run(op, n, x, y, tape, tape_len, run);
    CHECK(memcmp(result, run, n * sizeof *run) == 0, "%s on %zu shares: not the shares of share run", op->name, n);
    CHECK(try_join(0, result, n) == op->plain(a, b), "%s on %zu shares of %016lX, %016lX joins to %016lX", op->name, n, a, b,
          try_join(0, result, n));
    for (size_t i = 0; i < REF_CELLS; i++) CHECK(work[i] == 0, "%s on %zu shares: work is not zero at %zu", op->name, n, i);
    free(tape);
}

typedef struct {
    size_t x, y, result, work, tape;
} lengths;

/* One wrong length of y, result or work, by turns, then all of them. With one operand there is no y. */
static void spoil(const operation *op, int turn, lengths *l) {
    static const size_t works[] = {0, 32, 511, 513};
    size_t shorter = l->x ? l->x - 1 : 1, longer = l->x < 10 ? l->x + 1 : 2;
    switch (turn % 6) {
    case 0: l->result = shorter; break;
    case 1: l->result = longer; break;
    case 2: l->work = works[below(COUNT(works))]; break;
    case 3: *(op->two ? &l->y : &l->result) = shorter; break;
    case 4: *(op->two ? &l->y : &l->result) = longer; break;
    default: l->y = 0, l->result = 0, l->work = 513; break;
    }
}

static void test_on_shares(const operation *op) {
    static const uint32_t numbers[] = {1, 4, 6};
    static const size_t share_counts[] = {0, 1, 9, 10};
    uint64_t x[10], y[10], result[10], work[REF_CELLS + 1], a, b;
    for (unsigned mask = 0; mask < 8; mask++)
        for (size_t n = 2; n <= 8; n++)
            for (int round = 0; round < 12; round++) {
                size_t x_len = mask & 1 ? share_counts[below(COUNT(share_counts))] : n;
                size_t need = ref_measure(n, op->plan, op->plan_len).tape;
                lengths l = {x_len, x_len, x_len, REF_CELLS, need};
                if (mask & 2) spoil(op, round, &l);
                if (mask & 4) l.tape = round % 3 ? need - 1 : below(need);
                uint64_t *tape = grab(l.tape * sizeof *tape);
                fill(x, 10), fill(y, 10), fill(result, 10), fill(work, COUNT(work)), fill(tape, l.tape);
                try_on_shares(first_that_applies(mask, numbers, 3), op, x, l.x, y, l.y, result, l.result, work, l.work, tape, l.tape);
                free(tape);
            }
    for (size_t n = 2; n <= 8; n++) {
        for (size_t i = 0; i < edges; i++)
            if (op == &operations[edge_table[i].operation]) one_on_shares(op, n, edge_table[i].a, edge_table[i].b);
        for (int round = 0; round < 120; round++) {
            random_pair(&a, &b);
            one_on_shares(op, n, a, b);
        }
    }
}

void test_operations_on_shares(void) {
    static char name[40];
    for (size_t i = 0; i < COUNT(operations); i++) {
        snprintf(name, sizeof name, "%s on shares", operations[i].name);
        begin(name);
        test_on_shares(&operations[i]);
        end("1, 4, 6 in all combinations, edges and random operands for n = 2..8: shares of share run, joined, work, tape");
    }
}
