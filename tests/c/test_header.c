/* Group: the header's macros against what the calls answer. */
#include <stdlib.h>

#include "calls.h"
#include "check.h"
#include "tests.h"

static void limits(void) {
    static uint32_t plan[LUBEWON_PLAN_MAX + 1];
    uint64_t cells[LUBEWON_CELLS + 1] = {0}, tape[1] = {0}, shares[LUBEWON_MOST_SHARES + 1] = {0};
    const uint32_t good = 0x20080001, rand = 0x90000000, program[2] = {LUBEWON_HEAD(2), good};
    for (size_t i = 0; i < COUNT(plan); i++) plan[i] = 0x80080001; /* ADD: the longest translation */
    CHECK(lubewon_measure(LUBEWON_MOST_SHARES, plan, LUBEWON_PLAN_MAX).words == LUBEWON_PROGRAM_MAX, "header: longest program");
    CHECK(lubewon_measure(2, plan, LUBEWON_PLAN_MAX + 1).number == LUBEWON_TOO_LONG, "header: too long");
    CHECK(lubewon_measure(LUBEWON_LEAST_SHARES - 1, plan, 1).number == LUBEWON_SHARE_COUNT, "header: too few shares");
    CHECK(lubewon_join(shares, LUBEWON_MOST_SHARES + 1).answer.number == LUBEWON_SHARE_COUNT, "header: too many shares");
    CHECK(lubewon_measure(2, &rand, 1).number == LUBEWON_BAD_WORD, "header: bad word");
    CHECK(lubewon_plain_run(&good, 1, cells, LUBEWON_REGISTERS).number == LUBEWON_DONE, "header: registers");
    CHECK(lubewon_plain_run(&good, 1, cells, LUBEWON_REGISTERS + 1).number == LUBEWON_WRONG_LENGTH, "header: a register too many");
    CHECK(lubewon_share_run(2, program, 2, 2, tape, 0, 0, 1, cells, LUBEWON_CELLS).number == LUBEWON_DONE, "header: cells");
    CHECK(lubewon_share_run(2, program, 2, 3, tape, 0, 0, 1, cells, LUBEWON_CELLS).number == LUBEWON_PAST_END, "header: past the end");
    CHECK(lubewon_share_run(3, program, 2, 0, tape, 0, 0, 1, cells, LUBEWON_CELLS).number == LUBEWON_WRONG_HEAD, "header: wrong head");
    CHECK(lubewon_one_share_step(rand, tape, 0, 0, cells, LUBEWON_CELLS).number == LUBEWON_TAPE_SHORT, "header: tape short");
}

/* The longest program, with its head and stored without it. */
static void longest_programs(void) {
    const size_t most = LUBEWON_PROGRAM_MAX;
    uint64_t cells[LUBEWON_CELLS] = {0}, tape[1] = {0};
    uint32_t *program = grab((most + 1) * sizeof *program), out[1];
    for (size_t i = 0; i <= most; i++) program[i] = i ? 0x20080001 : LUBEWON_HEAD(4);
    CHECK(lubewon_share_run(4, program, most, 0, tape, 0, 0, 0, cells, LUBEWON_CELLS).number == LUBEWON_DONE, "header: longest run");
    CHECK(lubewon_share_run(4, program, most + 1, 0, tape, 0, 0, 0, cells, LUBEWON_CELLS).number == LUBEWON_TOO_LONG, "header: too long a run");
    CHECK(lubewon_add_head(4, program + 1, LUBEWON_STORED_MAX, out, 1).number == LUBEWON_WRONG_LENGTH, "header: longest stored program");
    CHECK(lubewon_add_head(4, program + 1, LUBEWON_STORED_MAX + 1, out, 1).number == LUBEWON_TOO_LONG, "header: too long a stored program");
    CHECK(LUBEWON_STORED_MAX + 1 == LUBEWON_PROGRAM_MAX, "header: a stored program lacks its head");
    free(program);
}

static void plan_words(void) {
    static const size_t words[OPERATIONS] = {LUBEWON_PRODUCT_PLAN, LUBEWON_SUM_PLAN, LUBEWON_FLOOR_PLAN, LUBEWON_TRUNCATE_PLAN, LUBEWON_NEAREST_PLAN};
    static uint32_t plan[LUBEWON_PLAN_MAX];
    for (size_t i = 0; i < OPERATIONS; i++)
        CHECK(operations[i].copy(plan, LUBEWON_PLAN_MAX).words == words[i], "header: plan of %s", operations[i].name);
}

/* An operation takes just the tape words that its macro says: with one fewer it is turned down. */
static void tape_words(const operation *op, size_t n, size_t words) {
    static uint64_t tape[8192];
    uint64_t x[LUBEWON_MOST_SHARES] = {0}, result[LUBEWON_MOST_SHARES] = {0}, work[LUBEWON_WORK];
    lubewon_answer answer = op->on_shares(x, n, x, n, result, n, work, LUBEWON_WORK, tape, words);
    CHECK(answer.number == LUBEWON_DONE && answer.tape == words, "header: tape words of %s, n = %zu", op->name, n);
    answer = op->on_shares(x, n, x, n, result, n, work, LUBEWON_WORK, tape, words - 1);
    CHECK(answer.number == LUBEWON_TAPE_SHORT, "header: fewer tape words for %s, n = %zu", op->name, n);
    answer = op->in_place(result, n, x, n, work, LUBEWON_WORK, tape, words);
    CHECK(answer.number == LUBEWON_DONE && answer.tape == words, "header: tape words of %s in place, n = %zu", op->name, n);
    answer = op->in_place(result, n, x, n, work, LUBEWON_WORK, tape, words - 1);
    CHECK(answer.number == LUBEWON_TAPE_SHORT, "header: fewer tape words for %s in place, n = %zu", op->name, n);
}

/* A layer's most numbers, and that a complex number is its two words, the real part first. */
static void layer_sizes(void) {
    static uint64_t numbers[4 * LUBEWON_LAYER_MOST], factors[2 * LUBEWON_LAYER_MOST];
    const size_t most = LUBEWON_LAYER_MOST;
    CHECK(lubewon_layer(most, most / 2, numbers, 2 * most, factors, 2).number == LUBEWON_DONE, "header: most numbers of a layer");
    CHECK(lubewon_layer(2 * most, most, numbers, 4 * most, factors, 2).number == LUBEWON_WRONG_SIZE, "header: too many numbers");
    CHECK(lubewon_layer(most, most, numbers, 2 * most, factors, 0).number == LUBEWON_WRONG_SIZE, "header: too far");
    CHECK(sizeof(lubewon_complex) == 16 && offsetof(lubewon_complex, re) == 0 && offsetof(lubewon_complex, im) == 8, "header: complex numbers");
}

/* The same of the complex product, and of a layer over eight numbers. */
static void transform_tape_words(size_t n) {
    static uint64_t tape[LUBEWON_LAYER_TAPE(LUBEWON_MOST_SHARES, 8)];
    uint64_t x[2 * LUBEWON_MOST_SHARES] = {0}, result[2 * LUBEWON_MOST_SHARES] = {0}, work[LUBEWON_WORK];
    uint64_t numbers[16 * LUBEWON_MOST_SHARES] = {0}, factors[2] = {0};
    size_t words = LUBEWON_COMPLEX_TAPE(n);
    lubewon_answer answer = lubewon_complex_product_shares(n, x, 2 * n, x, 2 * n, result, 2 * n, work, LUBEWON_WORK, tape, words);
    CHECK(answer.number == LUBEWON_DONE && answer.tape == words, "header: tape words of the complex product, n = %zu", n);
    answer = lubewon_complex_product_shares(n, x, 2 * n, x, 2 * n, result, 2 * n, work, LUBEWON_WORK, tape, words - 1);
    CHECK(answer.number == LUBEWON_TAPE_SHORT, "header: fewer tape words for the complex product, n = %zu", n);
    words = LUBEWON_LAYER_TAPE(n, 8);
    answer = lubewon_layer_shares(n, 8, 4, numbers, 16 * n, factors, 2, work, LUBEWON_WORK, tape, words);
    CHECK(answer.number == LUBEWON_DONE && answer.tape == words, "header: tape words of a layer, n = %zu", n);
    answer = lubewon_layer_shares(n, 8, 4, numbers, 16 * n, factors, 2, work, LUBEWON_WORK, tape, words - 1);
    CHECK(answer.number == LUBEWON_TAPE_SHORT, "header: fewer tape words for a layer, n = %zu", n);
    CHECK(LUBEWON_COMPLEX_TAPE(n) == 4 * LUBEWON_PRODUCT_TAPE(n) + 2 * LUBEWON_SUM_TAPE(n), "header: calls of the complex product, n = %zu", n);
    CHECK(LUBEWON_LAYER_TAPE(n, 8) == 4 * (LUBEWON_COMPLEX_TAPE(n) + 4 * LUBEWON_SUM_TAPE(n)), "header: calls of a layer, n = %zu", n);
}

static void splitting(size_t n) {
    uint64_t tape[LUBEWON_MOST_SHARES] = {0}, out[LUBEWON_MOST_SHARES];
    CHECK(lubewon_split(1, tape, LUBEWON_SPLIT_TAPE(n), out, n).number == LUBEWON_DONE, "header: split, n = %zu", n);
    CHECK(lubewon_split(1, tape, LUBEWON_SPLIT_TAPE(n) - 1, out, n).number == LUBEWON_TAPE_SHORT, "header: split, n = %zu", n);
}

/* XOR 2 0 1 on n shares writes share i of register 2 at its cell, behind the head of n. */
static void cells_of(size_t n) {
    uint32_t program[1 + LUBEWON_MOST_SHARES];
    const uint32_t plan = 0x20080001;
    lubewon_translate(n, &plan, 1, program, 1 + LUBEWON_MOST_SHARES);
    CHECK(program[0] == LUBEWON_HEAD(n), "header: head, n = %zu", n);
    for (size_t i = 0; i < n; i++) CHECK((program[1 + i] >> 18 & 511) == LUBEWON_CELL(i, 2), "header: cell, share %zu", i);
}

void test_header(void) {
    begin("header");
    limits();
    longest_programs();
    plan_words();
    layer_sizes();
    for (size_t n = LUBEWON_LEAST_SHARES; n <= LUBEWON_MOST_SHARES; n++) {
        const size_t words[OPERATIONS] = {LUBEWON_PRODUCT_TAPE(n), LUBEWON_SUM_TAPE(n), LUBEWON_FLOOR_TAPE(n), LUBEWON_TRUNCATE_TAPE(n),
                                          LUBEWON_NEAREST_TAPE(n)};
        for (size_t i = 0; i < OPERATIONS; i++) tape_words(&operations[i], n, words[i]);
        transform_tape_words(n);
        splitting(n);
        cells_of(n);
    }
    end("limits, turn-downs, heads, plan words, tape words, a layer's sizes and cells as the macros have them");
}
