/* The check: library and baselines give the same words. */
#include <stdio.h>
#include <stdlib.h>
#include <string.h>

#include "bench.h"

static void same(bool equal, const char *what) {
    if (equal) return;
    fprintf(stderr, "bench: library and baseline differ in %s, n = %zu\n", what, n);
    exit(1);
}

static bool same_answer(lubewon_answer p, lubewon_answer q) {
    return p.number == q.number && p.place == q.place && p.words == q.words && p.tape == q.tape;
}

/* The first words of `program`, from its head on. */
static void same_run(size_t told, size_t words, size_t budget, uint64_t *one, uint64_t *other) {
    same(same_answer(lubewon_share_run(told, program, words, 0, tape, TAPE, 0, budget, one, 512),
                     base_share_run(told, program, words, 0, tape, TAPE, 0, budget, other, 512)),
         "share run's answer");
}

static void check_plan(const uint32_t *plan, size_t plan_len) {
    static uint64_t start[512], one[512], other[512];
    for (size_t i = 0; i < 512; i++) start[i] = random_word();
    lubewon_answer t = lubewon_translate(n, plan, plan_len, program, PROGRAM);
    same(t.number == 0 && same_answer(t, base_translate(n, plan, plan_len, written, PROGRAM)), "translate's answer");
    same(memcmp(program, written, t.words * sizeof *program) == 0, "translated words");

    memcpy(one, start, sizeof one), memcpy(other, start, sizeof other);
    same_run(n, t.words, t.words, one, other);
    same(memcmp(one, other, sizeof one) == 0, "share run's cells");
    memcpy(other, start, sizeof other);
    same(base_plan_on_shares(n, plan, plan_len, tape, other) == t.tape, "tape words of the gadgets");
    same(memcmp(one, other, sizeof one) == 0, "the gadgets' cells");

    same_run(n, t.words, 1, one, other); /* just the head; every count told; no program; a bad last word */
    for (size_t told = 0; told < 10; told++) same_run(told, t.words, told == n ? 0 : t.words, one, other);
    same_run(n, 0, 1, one, other);
    program[t.words - 1] = 0;
    same_run(n, t.words, 1, one, other);
    same(memcmp(one, other, sizeof one) == 0, "cells after runs that do nothing");
}

/* A baseline's shares, tape words and wiped work; a tape that is a word short is turned down. */
static void check_baseline(base_call *baseline, lubewon_answer answer, const char *name) {
    uint64_t base[8];
    memset(work, 0xA5, sizeof work);
    same(same_answer(answer, baseline(n, x, y, base, work, tape, TAPE)), name);
    same(memcmp(result, base, n * sizeof *base) == 0, name);
    for (size_t i = 0; i < 512; i++) same(work[i] == 0, name);
    same(baseline(n, x, y, base, work, tape, answer.tape - 1).number == LUBEWON_TAPE_SHORT, name);
}

static void check_operation(const operation *op, uint64_t joined) {
    lubewon_answer answer = op->on_shares();
    same(answer.number == 0 && lubewon_join(result, n).word == joined, op->name);
    check_baseline(op->gadgets, answer, op->name);
    check_baseline(op->straight, answer, op->name);
}

/* The number that stands in every `step`th word, joined. */
static uint64_t joined_from(const uint64_t *from, size_t step) {
    uint64_t gathered[8];
    for (size_t i = 0; i < n; i++) gathered[i] = from[step * i];
    return lubewon_join(gathered, n).word;
}

static void check_complex(size_t first) {
    lubewon_complex z = base_complex_product(a[first], a[first + 1], b[first], b[first + 1]);
    split_complex(first);
    lubewon_answer answer = complex_shares();
    same(answer.number == 0, "complex product");
    same(joined_from(complex_result, 2) == z.re && joined_from(complex_result + 1, 2) == z.im, "complex product");
    for (size_t k = 0; k < BASELINES; k++) {
        uint64_t base[16];
        same(same_answer(answer, base_complex_product_shares(&baselines[k], n, complex_x, complex_y, base, work, tape, TAPE)), "complex product");
        same(memcmp(complex_result, base, 2 * n * sizeof *base) == 0, "complex product");
    }
}

static void check_layer(size_t count, size_t distance) {
    uint64_t start[16 * COUNT], one[16 * COUNT], other[16 * COUNT], plain[2 * COUNT];
    for (size_t j = 0; j < 2 * count; j++) {
        plain[j] = random_number();
        split_into(plain[j], start + j, 2 * count);
    }
    memcpy(one, start, sizeof one);
    lubewon_answer answer =
        lubewon_layer_shares(n, count, distance, one, 2 * count * n, factors, count / distance, work, 512, tape, TAPE);
    same(answer.number == 0, "layer");
    for (size_t k = 0; k < BASELINES; k++) {
        memcpy(other, start, sizeof other);
        same(same_answer(answer, base_layer_shares(&baselines[k], n, count, distance, other, factors, work, tape, TAPE)), "layer");
        same(memcmp(one, other, 2 * count * n * sizeof *one) == 0, "layer");
    }
    base_layer(count, distance, plain, factors);
    for (size_t j = 0; j < 2 * count; j++) same(joined_from(one + j, 2 * count) == plain[j], "layer");
}

/* All sizes, over any words. */
static void check_plain_layers(void) {
    for (size_t count = 2; count <= PAIRS; count *= 2)
        for (size_t distance = 1; distance < count; distance *= 2) {
            static uint64_t one[2 * PAIRS], other[2 * PAIRS];
            for (size_t j = 0; j < 2 * count; j++) one[j] = other[j] = j % 2 ? random_word() : random_number();
            lubewon_answer answer = lubewon_layer(count, distance, one, 2 * count, factors, count / distance);
            same(answer.number == 0 && same_answer(answer, base_layer(count, distance, other, factors)), "plain layer");
            same(memcmp(one, other, 2 * count * sizeof *one) == 0, "plain layer");
        }
}

static uint32_t random_plan_word(void) {
    uint32_t kind = 1 + random_word() % 8, r = (uint32_t)random_word() & 0x007C0E07; /* d below 32; what is read, and shifts, below 8 */
    if (kind == 4 || kind == 7) r &= ~UINT32_C(511);
    return kind << 28 | r;
}

static void check_on_shares(void) {
    uint32_t plan[12];
    for (int round = 0; round < 50; round++) {
        for (size_t i = 0; i < 12; i++) plan[i] = random_plan_word();
        check_plan(plan, 12);
    }
    check_plan(plan, 0);
    for (const operation *op = operations; op < operations + OPERATIONS; op++) check_plan(op->plan, op->plan_len);
    for (size_t i = 0; i < PAIRS; i++) { /* every second pair any words */
        uint64_t p = i % 2 ? random_word() : a[i], q = i % 2 ? random_word() : b[i];
        lubewon_split(p, tape, TAPE, x, n);
        lubewon_split(q, tape + 8, TAPE - 8, y, n);
        for (const operation *op = operations; op < operations + OPERATIONS; op++) check_operation(op, op->base(p, q));
    }
    for (size_t i = 0; i < 20; i++) {
        check_complex(i);
        check_layer(2, 1), check_layer(COUNT, 1), check_layer(COUNT, DISTANCE);
    }
}

void check(void) {
    for (size_t shares = 2; shares <= 8; shares++) {
        set_up(shares);
        check_on_shares();
    }
    for (int round = 0; round < 2000000; round++) {
        uint64_t p = round % 2 ? random_word() : random_number(), q = round % 2 ? random_word() : random_number();
        if (round % 4 == 0) p &= UINT64_MAX << 50; /* two bits of fraction, so that 0.5, 1.5 and 2.5 occur */
        for (const operation *op = operations; op < operations + OPERATIONS; op++) same(op->plain(p, q) == op->base(p, q), op->name);
        lubewon_complex z = lubewon_complex_product(p, q, a[round % PAIRS], p ^ q), base = base_complex_product(p, q, a[round % PAIRS], p ^ q);
        same(z.re == base.re && z.im == base.im, "plain complex product");
    }
    for (int round = 0; round < 20; round++) check_plain_layers();
}
