/* The calls that are watched, and the operands of a run: in group 0 always the same, in group 1 drawn anew, on fresh shares and a fresh tape in
 * both. A layer's factors are no secret, and the same in both. To watch a further call write a function for it and add a row. */
#include "leak.h"
#include <string.h>
#include <sys/random.h>

size_t shares;
uint64_t x[16], y[16], result[16], numbers[32], work[LUBEWON_WORK], tape[TAPE];
lubewon_answer answer;
static uint64_t operand[NUMBERS], drawn[NUMBERS][8];
static uint32_t program[PROGRAM];
static size_t program_words;

/* ---- One function a call, and one for what it must give: of an operation its two forms and the plain call ---- */
#define TWO_OPERANDS(name)                                                                                                      \
    static void name##_shares(void) {                                                                                           \
        answer = lubewon_##name##_shares(x, shares, y, shares, result, shares, work, LUBEWON_WORK, tape, TAPE);                 \
    }                                                                                                                           \
    static void name##_in_place(void) { answer = lubewon_##name##_in_place(x, shares, y, shares, work, LUBEWON_WORK, tape, TAPE); } \
    static void plain_##name(const uint64_t *of, uint64_t *wanted) { *wanted = lubewon_##name(of[0], of[1]); }

#define ONE_OPERAND(name)                                                                                                       \
    static void name##_shares(void) {                                                                                           \
        answer = lubewon_##name##_shares(x, shares, result, shares, work, LUBEWON_WORK, tape, TAPE);                            \
    }                                                                                                                           \
    static void name##_in_place(void) { answer = lubewon_##name##_in_place(x, shares, work, LUBEWON_WORK, tape, TAPE); }        \
    static void plain_##name(const uint64_t *of, uint64_t *wanted) { *wanted = lubewon_##name(of[0]); }

TWO_OPERANDS(product)
TWO_OPERANDS(sum)
ONE_OPERAND(floor)
ONE_OPERAND(truncate)
ONE_OPERAND(nearest)

/* Floor's share program, whole, its head included, on the work slice as cells. */
static void share_run(void) {
    answer = lubewon_share_run(shares, program, program_words, 0, tape, TAPE, 0, program_words, work, LUBEWON_CELLS);
}

/* Four operands and two results: real and imaginary parts stand in turns. */
static void complex_product(void) {
    answer = lubewon_complex_product_shares(shares, x, 2 * shares, y, 2 * shares, result, 2 * shares, work, LUBEWON_WORK, tape, TAPE);
}

static void plain_complex_product(const uint64_t *of, uint64_t *wanted) {
    lubewon_complex z = lubewon_complex_product(of[0], of[1], of[2], of[3]);
    wanted[0] = z.re, wanted[1] = z.im;
}

/* A layer of one pair: a share's two real parts, then its imaginary ones. */
enum { COUNT = 2, DISTANCE = 1 };
static const uint64_t factors[2] = {0x3FED906BCF328D46, 0x3FD87DE2A6AEA963}; /* cosine and sine of pi / 8 */

static void layer(void) {
    answer = lubewon_layer_shares(shares, COUNT, DISTANCE, numbers, 2 * COUNT * shares, factors, 2, work, LUBEWON_WORK, tape, TAPE);
}

static void plain_layer(const uint64_t *of, uint64_t *wanted) {
    memcpy(wanted, of, 2 * COUNT * sizeof *wanted);
    if (lubewon_layer(COUNT, DISTANCE, wanted, 2 * COUNT, factors, 2).number != LUBEWON_DONE) fail("the plain layer is turned down", 0);
}

/* ---- The one table: name, call, what its results join to, where operands and results are ---- */
static const call_row rows[] = {
    {"product", product_shares, plain_product, {x, y}, {result}, 1},
    {"sum", sum_shares, plain_sum, {x, y}, {result}, 1},
    {"floor", floor_shares, plain_floor, {x, y}, {result}, 1},
    {"truncate", truncate_shares, plain_truncate, {x, y}, {result}, 1},
    {"nearest", nearest_shares, plain_nearest, {x, y}, {result}, 1},
    {"product_in_place", product_in_place, plain_product, {x, y}, {x}, 1},
    {"sum_in_place", sum_in_place, plain_sum, {x, y}, {x}, 1},
    {"floor_in_place", floor_in_place, plain_floor, {x, y}, {x}, 1},
    {"truncate_in_place", truncate_in_place, plain_truncate, {x, y}, {x}, 1},
    {"nearest_in_place", nearest_in_place, plain_nearest, {x, y}, {x}, 1},
    {"share_run", share_run, plain_floor, {work, work + 1}, {work + 2}, LUBEWON_REGISTERS},
    {"complex_product", complex_product, plain_complex_product, {x, x + 1, y, y + 1}, {result, result + 1}, 2},
    {"layer", layer, plain_layer, {numbers, numbers + 1, numbers + 2, numbers + 3}, {numbers, numbers + 1, numbers + 2, numbers + 3}, 2 * COUNT},
    {"control", control, NULL, {x, y}, {result}, 1},
    {"joins", sabotage_joins, plain_floor, {x, y}, {result}, 1},
    {"and", sabotage_and, NULL, {x, y}, {result}, 1},
    {"register", sabotage_register, NULL, {x, y}, {result}, 1},
    {"memory", sabotage_memory, NULL, {x, y}, {result}, 1},
    {"push", sabotage_push, NULL, {x, y}, {result}, 1},
    {"vector", sabotage_vector, NULL, {x, y}, {result}, 1},
    {"string", sabotage_string, NULL, {x, y}, {result}, 1},
    {"exchange", sabotage_exchange, NULL, {x, y}, {result}, 1},
    {"branch", sabotage_branch, NULL, {x, y}, {result}, 1},
    {"jump", sabotage_jump, NULL, {x, y}, {result}, 1},
    {"wide", sabotage_wide, NULL, {x, y}, {result}, 1},
    {"unknown", sabotage_unknown, NULL, {x, y}, {result}, 1},
    {"outside", sabotage_outside, NULL, {x, y}, {result}, 1},
};

const call_row *call_named(const char *name) {
    for (size_t k = 0; k < sizeof rows / sizeof *rows; k++)
        if (strcmp(rows[k].name, name) == 0) return &rows[k];
    return NULL;
}

/* ---- Operands ---- */
uint64_t random_word(void) {
    static uint64_t pool[4096];
    static size_t at = sizeof pool / sizeof *pool;
    if (at == sizeof pool / sizeof *pool) {
        for (size_t got = 0; got < sizeof pool;) {
            ssize_t more = getrandom((char *)pool + got, sizeof pool - got, 0);
            if (more > 0) got += (size_t)more;
        }
        at = 0;
    }
    return pool[at++];
}

/* Every second number with an exponent near 0, where operands meet, others with any, and one in eight with E = 0 or E = 2047. */
static uint64_t random_number(void) {
    uint64_t word = random_word(), choice = random_word(), any = choice >> 8;
    uint64_t exponent = choice & 1 ? 991 + any % 64 : choice & 6 ? any % 2048 : choice & 8 ? 0 : 2047;
    return (word & 0x800FFFFFFFFFFFFF) | exponent << 52;
}

void draw(const call_row *call, int group) {
    static const uint64_t fixed[NUMBERS] = {0x40091EB851EB851F, 0xC005BE76C8B43958,  /* 3.14, -2.718, */
                                            0x3FF9E353F7CED917, 0xBFE276C8B4395810}; /* 1.618, -0.577 */
    static bool known; /* from the second run on, how much of the tape the call takes */
    for (size_t k = 0; k < (known ? answer.tape : TAPE); k++) tape[k] = random_word();
    known = true;
    for (int k = 0; k < NUMBERS && call->operand[k]; k++) {
        uint64_t masks[7];
        operand[k] = group ? random_number() : fixed[k];
        for (size_t i = 0; i + 1 < shares; i++) masks[i] = random_word();
        if (lubewon_split(operand[k], masks, shares - 1, drawn[k], shares).number != LUBEWON_DONE) fail("split is turned down", 0);
    }
}

void prepare(void) {
    uint32_t plan[LUBEWON_FLOOR_PLAN];
    program_words = lubewon_translate(shares, plan, lubewon_copy_floor_plan(plan, LUBEWON_FLOOR_PLAN).words, program, PROGRAM).words;
    if (program_words == 0) fail("translate is turned down", 0);
}

void reset(const call_row *call) {
    memset(x, 0, sizeof x), memset(y, 0, sizeof y), memset(result, 0, sizeof result), memset(numbers, 0, sizeof numbers);
    memset(work, 0, sizeof work), memset(&lent_stack, 0, (size_t)(&lent_stack_top - &lent_stack));
    for (int k = 0; k < NUMBERS && call->operand[k]; k++)
        for (size_t i = 0; i < shares; i++) call->operand[k][i * call->stride] = drawn[k][i];
}

bool right(const call_row *call) {
    uint64_t got[8], wanted[NUMBERS];
    if (answer.number != LUBEWON_DONE) return false;
    if (!call->plain) return true;
    call->plain(operand, wanted);
    for (int k = 0; k < NUMBERS && call->result[k]; k++) {
        for (size_t i = 0; i < shares; i++) got[i] = call->result[k][i * call->stride];
        if (lubewon_join(got, shares).word != wanted[k]) return false;
    }
    return true;
}
