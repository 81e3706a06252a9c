/* The bench. `bench check` compares the library with the baselines, `bench time` prints nanoseconds for each case, `bench count`, run
 * under callgrind, leaves a dump of instruction counts for each case, `bench sizes` prints the plans' sizes and `bench stack` the stack that
 * calls take; `bench/run` puts them side by side. A case's name is "what|n|side", its unit an operation, a share word, a translated word, or a pair
 * of a layer. */
#include <stdio.h>
#include <string.h>
#include <time.h>
#include <valgrind/callgrind.h>

#include "bench.h"

static uint64_t seed = 1;

uint64_t random_word(void) { /* splitmix64 */
    uint64_t z = seed += UINT64_C(0x9E3779B97F4A7C15);
    z = (z ^ z >> 30) * UINT64_C(0xBF58476D1CE4E5B9);
    z = (z ^ z >> 27) * UINT64_C(0x94D049BB133111EB);
    return z ^ z >> 31;
}

/* Numbers as FALCON has them: exponents within 2^-64..2^64, signs and fractions at random. */
uint64_t random_number(void) {
    uint64_t r = random_word();
    return (r & ~(UINT64_C(2047) << 52)) | (959 + random_word() % 128) << 52;
}

/* ---- The input of the cases ---- */

size_t n;
uint64_t x[8], y[8], result[8], work[512], tape[TAPE];
uint64_t a[PAIRS], b[PAIRS], factors[PAIRS];
uint64_t complex_x[16], complex_y[16], complex_result[16];
uint32_t program[PROGRAM], written[PROGRAM];
static uint64_t cells[512], numbers[16 * COUNT], plain_numbers[2 * PAIRS];
static size_t program_len;
static volatile uint64_t sink;

/* The shares of a word, into every `step`th word of `to`: real and imaginary parts stand among one another. */
void split_into(uint64_t word, uint64_t *to, size_t step) {
    uint64_t masks[7], split[8];
    for (size_t i = 0; i + 1 < n; i++) masks[i] = random_word();
    lubewon_split(word, masks, n - 1, split, n);
    for (size_t i = 0; i < n; i++) to[step * i] = split[i];
}

/* Complex operands, of the plain ones from the first on. */
void split_complex(size_t first) {
    for (size_t j = 0; j < 2; j++) split_into(a[first + j], complex_x + j, 2), split_into(b[first + j], complex_y + j, 2);
    for (size_t j = 0; j < COUNT; j++) split_into(a[first + j], numbers + j, 2 * COUNT), split_into(b[first + j], numbers + COUNT + j, 2 * COUNT);
}

void set_up(size_t shares) {
    n = shares;
    for (size_t i = 0; i < TAPE; i++) tape[i] = random_word();
    for (size_t i = 0; i < 512; i++) cells[i] = random_word();
    for (size_t i = 0; i < PAIRS; i++) a[i] = random_number(), b[i] = random_number();
    lubewon_split(a[0], tape, TAPE, x, n);
    lubewon_split(b[0], tape + 8, TAPE - 8, y, n);
    for (size_t i = 0; i < PAIRS; i++) factors[i] = random_number();
    split_complex(0);
    program_len = lubewon_translate(n, operations[PRODUCT].plan, operations[PRODUCT].plan_len, program, PROGRAM).words;
}

/* ---- Cases: one call each, or PAIRS of them for the plain operations ---- */

#define EACH_PAIR(name, call)                                          \
    static void name(void) {                                           \
        uint64_t all = 0;                                              \
        for (size_t i = 0; i < PAIRS; i++) all ^= call(a[i], b[i]);    \
        sink = all;                                                    \
    }

/* An operation's cases; below, its calls in one form for all operations, whether they take two operands or one. */
#define CASES(op, OP, operand)                                                                                                  \
    static lubewon_answer op##_gadgets(size_t shares, const uint64_t *p, const uint64_t *q, uint64_t *to, uint64_t *slice,      \
                                       const uint64_t *words, size_t words_len) {                                               \
        const operation *by = &operations[OP];                                                                                  \
        return base_operation(by->plan, by->plan_len, by->units, p, shares, operand, to, slice, words, words_len);              \
    }                                                                                                                           \
    static void op##_shares_library(void) { op##_shares(); }                                                                    \
    static void op##_shares_straight(void) { straight_##op(n, x, y, result, work, tape, TAPE); }                                \
    static void op##_shares_base(void) { op##_gadgets(n, x, y, result, work, tape, TAPE); }                                     \
    EACH_PAIR(op##_plain_library, op##_plain)                                                                                   \
    EACH_PAIR(op##_plain_base, op##_base)

#define TWO_OPERANDS(op, OP)                                                                                                           \
    static lubewon_answer op##_shares(void) { return lubewon_##op##_shares(x, n, y, n, result, n, work, 512, tape, TAPE); }            \
    static uint64_t op##_plain(uint64_t p, uint64_t q) { return lubewon_##op(p, q); }                                                  \
    static uint64_t op##_base(uint64_t p, uint64_t q) { return base_##op(p, q); }                                                      \
    CASES(op, OP, q)

#define ONE_OPERAND(op, OP)                                                                                                            \
    static lubewon_answer op##_shares(void) { return lubewon_##op##_shares(x, n, result, n, work, 512, tape, TAPE); }                  \
    static uint64_t op##_plain(uint64_t p, uint64_t q) { return (void)q, lubewon_##op(p); }                                            \
    static uint64_t op##_base(uint64_t p, uint64_t q) { return (void)q, base_##op(p); }                                                \
    CASES(op, OP, ((void)q, NULL))

TWO_OPERANDS(product, PRODUCT)
TWO_OPERANDS(sum, SUM)
ONE_OPERAND(floor, FLOOR)
ONE_OPERAND(truncate, TRUNCATE)
ONE_OPERAND(nearest, NEAREST)

#define ENTRY(op) {#op, lubewon_copy_##op##_plan, op##_shares, op##_gadgets, straight_##op, op##_plain, op##_base, {0}, 0, 0}
operation operations[OPERATIONS] = {ENTRY(product), ENTRY(sum), ENTRY(floor), ENTRY(truncate), ENTRY(nearest)};

const base_calls baselines[BASELINES] = {[GADGETS] = {product_gadgets, sum_gadgets}, [STRAIGHT] = {straight_product, straight_sum}};

static void run_library(void) { lubewon_share_run(n, program, program_len, 0, tape, TAPE, 0, program_len, cells, 512); }
static void run_base(void) { base_share_run(n, program, program_len, 0, tape, TAPE, 0, program_len, cells, 512); }
static void translate_library(void) { lubewon_translate(n, operations[PRODUCT].plan, operations[PRODUCT].plan_len, written, PROGRAM); }
static void translate_base(void) { base_translate(n, operations[PRODUCT].plan, operations[PRODUCT].plan_len, written, PROGRAM); }

lubewon_answer complex_shares(void) {
    return lubewon_complex_product_shares(n, complex_x, 2 * n, complex_y, 2 * n, complex_result, 2 * n, work, 512, tape, TAPE);
}
static void complex_by(size_t baseline) {
    base_complex_product_shares(&baselines[baseline], n, complex_x, complex_y, complex_result, work, tape, TAPE);
}
static void complex_shares_library(void) { complex_shares(); }
static void complex_shares_straight(void) { complex_by(STRAIGHT); }
static void complex_shares_base(void) { complex_by(GADGETS); }

/* In place, so that each call goes on from what the last one left; on shares all numbers take the same path. */
lubewon_answer layer_shares(void) {
    return lubewon_layer_shares(n, COUNT, DISTANCE, numbers, 2 * COUNT * n, factors, COUNT / DISTANCE, work, 512, tape, TAPE);
}
static void layer_by(size_t baseline) {
    base_layer_shares(&baselines[baseline], n, COUNT, DISTANCE, numbers, factors, work, tape, TAPE);
}
static void layer_shares_library(void) { layer_shares(); }
static void layer_shares_straight(void) { layer_by(STRAIGHT); }
static void layer_shares_base(void) { layer_by(GADGETS); }

#define EACH_COMPLEX(name, call)                                                   \
    static void name(void) {                                                       \
        uint64_t all = 0;                                                          \
        for (size_t i = 0; i < PAIRS; i++) {                                       \
            lubewon_complex z = call(a[i], b[i], b[PAIRS - 1 - i], factors[i]);    \
            all ^= z.re ^ z.im;                                                    \
        }                                                                          \
        sink = all;                                                                \
    }

EACH_COMPLEX(complex_plain_library, lubewon_complex_product)
EACH_COMPLEX(complex_plain_base, base_complex_product)

/* The numbers of a plain layer anew, since the soft floats' path depends on them: part by part, as long copies are counted byte by byte. */
static void fresh_numbers(void) {
    for (size_t i = 0; i < PAIRS; i += 64) {
        memcpy(plain_numbers + i, a + i, 64 * sizeof *a);
        memcpy(plain_numbers + PAIRS + i, b + i, 64 * sizeof *b);
    }
}

static void layer_plain_library(void) {
    fresh_numbers();
    lubewon_layer(PAIRS, 1, plain_numbers, 2 * PAIRS, factors, PAIRS);
}

static void layer_plain_base(void) {
    fresh_numbers();
    base_layer(PAIRS, 1, plain_numbers, factors);
}

typedef enum { OPERATION, SHARE_WORD, PLAIN_OPERATION, LAYER, PLAIN_LAYER } unit;

/* The library's side and the baselines', the straight one only on shares. */
enum { SIDES = 3 };
static const char *const side_names[SIDES] = {"library", "straight", "base"};

#define ON_SHARES(name, op, per) {name " on shares", {op##_shares_library, op##_shares_straight, op##_shares_base}, per}
#define PLAIN(name, op, per) {"plain " name, {op##_plain_library, NULL, op##_plain_base}, per}
#define EACH_OPERATION(row, per) \
    row("product", product, per), row("sum", sum, per), row("floor", floor, per), row("truncate", truncate, per), row("nearest", nearest, per)
static const struct {
    const char *name;
    void (*sides[SIDES])(void);
    unit per;
} cases[] = {
    EACH_OPERATION(ON_SHARES, OPERATION),
    ON_SHARES("complex product", complex, OPERATION),
    ON_SHARES("layer pair", layer, LAYER),
    {"share run, per word", {run_library, NULL, run_base}, SHARE_WORD},
    {"translate, per share word", {translate_library, NULL, translate_base}, SHARE_WORD},
    EACH_OPERATION(PLAIN, PLAIN_OPERATION),
    PLAIN("complex product", complex, PLAIN_OPERATION),
    PLAIN("layer pair", layer, PLAIN_LAYER),
};

static double units(unit per) {
    switch (per) {
    case OPERATION: return 1;
    case SHARE_WORD: return (double)program_len;
    case LAYER: return COUNT / 2;
    case PLAIN_LAYER: return PAIRS / 2;
    default: return PAIRS;
    }
}

static bool on_plain_words(unit per) {
    return per == PLAIN_OPERATION || per == PLAIN_LAYER;
}

/* ---- Time and instructions ---- */

static double now(void) {
    struct timespec t;
    clock_gettime(CLOCK_PROCESS_CPUTIME_ID, &t);
    return 1e9 * (double)t.tv_sec + (double)t.tv_nsec;
}

/* Nanoseconds of processor time of one call: the mean over a batch of some 4 ms. */
static double batch(void (*call)(void), size_t calls) {
    double start = now();
    for (size_t i = 0; i < calls; i++) call();
    return (now() - start) / (double)calls;
}

/* "what|n|side", n = 0 where there are no shares. */
static const char *name_of(size_t c, int side) {
    static char name[80];
    size_t shares = on_plain_words(cases[c].per) ? 0 : n;
    snprintf(name, sizeof name, "%s|%zu|%s", cases[c].name, shares, side_names[side]);
    return name;
}

static void time_case(size_t c) {
    double best[SIDES];
    size_t calls[SIDES];
    for (int s = 0; s < SIDES; s++) {
        best[s] = 1e30;
        if (cases[c].sides[s]) calls[s] = 1 + (size_t)(4e6 / batch(cases[c].sides[s], 3));
    }
    for (int round = 0; round < 25; round++) /* in turns, so that all see the same machine; the least counts */
        for (int s = 0; s < SIDES; s++) {
            if (!cases[c].sides[s]) continue;
            double t = batch(cases[c].sides[s], calls[s]);
            if (t < best[s]) best[s] = t;
        }
    for (int s = 0; s < SIDES; s++)
        if (cases[c].sides[s]) printf("time|%s|%.3f\n", name_of(c, s), best[s] / units(cases[c].per));
}

static void count_case(size_t c) {
    for (int s = 0; s < SIDES; s++) {
        void (*side)(void) = cases[c].sides[s];
        char label[100];
        if (!side) continue;
        snprintf(label, sizeof label, "count|%s|%.0f", name_of(c, s), units(cases[c].per));
        side();
        CALLGRIND_ZERO_STATS;
        CALLGRIND_TOGGLE_COLLECT;
        side();
        CALLGRIND_TOGGLE_COLLECT;
        CALLGRIND_DUMP_STATS_AT(label);
    }
}

static void each_case(void (*measure)(size_t)) {
    for (size_t c = 0; c < sizeof cases / sizeof *cases; c++)
        for (size_t shares = 2; shares <= 8; shares++) {
            if (on_plain_words(cases[c].per) && shares > 2) break;
            set_up(shares);
            measure(c);
        }
}

static lubewon_answer measure(size_t shares, const operation *op) {
    return lubewon_measure(shares, op->plan, op->plan_len);
}

/* A call of some pairs with four products and so many sums each: share words are theirs, tape words what the call counts. */
static void complex_sizes(const char *name, size_t sums, size_t pairs, lubewon_answer (*run)(void)) {
    for (size_t shares = 2; shares <= 8; shares++) {
        set_up(shares);
        size_t words = 4 * measure(shares, &operations[PRODUCT]).words + sums * measure(shares, &operations[SUM]).words;
        printf("size|%s|%zu|-|%zu|%zu\n", name, shares, words, run().tape / pairs);
    }
}

/* Words and tape words of the operations, for the second table. */
static void sizes(void) {
    for (const operation *op = operations; op < operations + OPERATIONS; op++)
        for (size_t shares = 2; shares <= 8; shares++) {
            lubewon_answer m = measure(shares, op);
            printf("size|%s|%zu|%zu|%zu|%zu\n", op->name, shares, op->plan_len, m.words, m.tape);
        }
    complex_sizes("complex product", 2, 1, complex_shares);
    complex_sizes("layer pair", 6, COUNT / 2, layer_shares);
}

int main(int argc, char **argv) {
    const char *mode = argc == 2 ? argv[1] : "";
    for (operation *op = operations; op < operations + OPERATIONS; op++) {
        op->plan_len = op->copy(op->plan, PLAN).words;
        op->units = lubewon_measure(2, op->plan, op->plan_len).tape / 2;
    }
    if (strcmp(mode, "check") == 0) check();
    else if (strcmp(mode, "time") == 0) each_case(time_case);
    else if (strcmp(mode, "count") == 0) each_case(count_case);
    else if (strcmp(mode, "sizes") == 0) sizes();
    else if (strcmp(mode, "stack") == 0) stack();
    else {
        fprintf(stderr, "usage: bench check | time | count | sizes | stack\n");
        return 2;
    }
    return 0;
}
