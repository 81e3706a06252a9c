/* Groups: the complex product and one layer of the transform, on plain words and on shares, by the plans that test_plan_copies left. */
#include <stdlib.h>
#include <string.h>

#include "calls.h"
#include "check.h"
#include "input.h"
#include "operands.h"
#include "single_calls.h"
#include "tests.h"

/* ---- On plain words, against the reference and native doubles ---- */

/* Zeros, and numbers near enough to 1 that all products and sums of them stay where document 01 and IEEE 754 agree. */
static uint64_t moderate(void) {
    return below(8) ? pack(below(2), 1003 + below(40), random_fraction()) : pack(below(2), 0, 0);
}

/* Words of that sort, or of any. */
static void draw(uint64_t *words, size_t len, bool any) {
    uint64_t a, b;
    for (size_t i = 0; i < len; i++) {
        random_pair(&a, &b);
        words[i] = any ? a : moderate();
        if (any && i + 1 < len) words[++i] = b;
    }
}

static void native_complex_product(void) {
    uint64_t z[4];
    draw(z, 4, false);
    double a = as_double(z[0]), b = as_double(z[1]), c = as_double(z[2]), d = as_double(z[3]);
    lubewon_complex got = try_complex_product(z[0], z[1], z[2], z[3]);
    CHECK(got.re == as_bits(a * c - b * d) && got.im == as_bits(a * d + b * c), "complex product of %a + %a i, %a + %a i is not the native one",
          a, b, c, d);
}

static void test_by_hand(double a, double b, double c, double d, double re, double im) {
    lubewon_complex got = try_complex_product(as_bits(a), as_bits(b), as_bits(c), as_bits(d));
    CHECK(got.re == as_bits(re) && got.im == as_bits(im), "complex product of %g + %g i, %g + %g i", a, b, c, d);
}

void test_complex_product(void) {
    uint64_t numbers[400], z[4];
    size_t count = edge_numbers(numbers);
    begin("complex product");
    test_by_hand(1, 2, 3, 4, -5, 10);
    test_by_hand(0, 1, 0, 1, -1, 0);
    for (size_t i = 0; i < count; i++)
        for (size_t j = 0; j < count; j++) try_complex_product(numbers[i], numbers[below(count)], numbers[j], numbers[below(count)]);
    for (int round = 0; round < 100000; round++) {
        draw(z, 4, true);
        try_complex_product(z[0], z[1], z[2], z[3]);
        native_complex_product();
    }
    end("edge operands and random ones against the reference, moderate ones against native doubles");
}

static void native_layer(size_t count, size_t distance, double *re, double *im, const double *factors) {
    size_t blocks = count / (2 * distance);
    for (size_t block = 0; block < blocks; block++)
        for (size_t p = 2 * distance * block; p < 2 * distance * block + distance; p++) {
            double a = factors[block], b = factors[blocks + block], c = re[p + distance], d = im[p + distance];
            double wv_re = a * c - b * d, wv_im = a * d + b * c, u_re = re[p], u_im = im[p];
            re[p] = u_re + wv_re;
            im[p] = u_im + wv_im;
            re[p + distance] = u_re - wv_re;
            im[p + distance] = u_im - wv_im;
        }
}

static void one_plain_layer(size_t count, size_t distance, bool any) {
    static uint64_t numbers[2 * LUBEWON_LAYER_MOST], factors[LUBEWON_LAYER_MOST];
    static double native[2 * LUBEWON_LAYER_MOST], native_factors[LUBEWON_LAYER_MOST];
    draw(numbers, 2 * count, any);
    draw(factors, count / distance, any);
    for (size_t j = 0; j < 2 * count; j++) native[j] = as_double(numbers[j]);
    for (size_t j = 0; j < count / distance; j++) native_factors[j] = as_double(factors[j]);
    try_layer(0, count, distance, numbers, 2 * count, factors, count / distance);
    if (any) return;
    native_layer(count, distance, native, native + count, native_factors);
    for (size_t j = 0; j < 2 * count; j++)
        CHECK(numbers[j] == as_bits(native[j]), "layer over %zu at %zu: word %zu is not the native one", count, distance, j);
}

/* ---- Wrong sizes and lengths ---- */

typedef struct {
    size_t count, distance;
} size;

static const size wrong_sizes[] = {
    /* the count */
    {0, 1}, {1, 1}, {3, 1}, {5, 2}, {6, 1}, {7, 4}, {12, 4}, {1023, 1}, {1025, 1}, {1536, 2}, {2048, 1}, {2048, 512}, {2048, 1024},
    {(size_t)1 << 32 | 2, 1}, {(size_t)1 << 63, 1}, {SIZE_MAX, 1},
    /* the distance */
    {2, 0}, {2, 2}, {2, 4}, {4, 3}, {8, 0}, {8, 3}, {8, 5}, {8, 6}, {8, 7}, {8, 8}, {8, 16}, {8, 1024}, {1024, 0}, {1024, 768}, {1024, 1024},
    {1024, 2048}, {8, (size_t)1 << 32 | 1}, {8, (size_t)1 << 63}, {8, SIZE_MAX},
    /* both */
    {0, 0}, {1, 0}, {6, 3}, {2048, 2048},
};

static size random_size(bool wrong) {
    if (wrong) return wrong_sizes[below(COUNT(wrong_sizes))];
    size_t bits = 1 + below(3);
    return (size){(size_t)1 << bits, (size_t)1 << below(bits)};
}

static size_t other_length(size_t len) {
    return len == 0 || below(3) == 0 ? len + 1 : below(2) ? len - 1 : len / 2;
}

typedef struct {
    size_t numbers, factors, work, tape;
} lengths;

/* The right lengths; those of smaller sizes where n or s is far off, and no tape for more than 16 numbers. */
static lengths right_lengths(size_t n, size s) {
    size_t shares = n <= 10 ? n : 2, count = s.count <= 2048 ? s.count : 8, taped = count <= 16 ? count : 16;
    size_t blocks = s.distance ? count / 2 / s.distance : 1;
    return (lengths){2 * count * shares, 2 * blocks, LUBEWON_WORK, shares ? LUBEWON_LAYER_TAPE(shares, taped) : 0};
}

/* One wrong length of numbers, factors or work, by turns, then all. */
static void spoil(int turn, lengths *l) {
    if (turn % 4 == 0 || turn % 4 == 3) l->numbers = other_length(l->numbers);
    if (turn % 4 == 1 || turn % 4 == 3) l->factors = other_length(l->factors);
    if (turn % 4 == 2 || turn % 4 == 3) l->work = other_length(l->work);
}

static uint64_t *random_words(size_t len) {
    uint64_t *words = grab(len * sizeof *words);
    fill(words, len);
    return words;
}

static uint64_t *copy_of(const uint64_t *words, size_t len) {
    uint64_t *copy = grab(len * sizeof *copy);
    memcpy(copy, words, len * sizeof *copy);
    return copy;
}

/* The words are what they were; both copies are freed. */
static void unchanged(const char *name, uint32_t number, uint64_t *words, uint64_t *before, size_t len) {
    CHECK(memcmp(words, before, len * sizeof *words) == 0, "turned down with %u: %s has changed", number, name);
    free(words);
    free(before);
}

static void plain_layer_turned_down(uint32_t number, size s, lengths l) {
    uint64_t *numbers = random_words(l.numbers), *before = copy_of(numbers, l.numbers), *factors = random_words(l.factors);
    try_layer(number, s.count, s.distance, numbers, l.numbers, factors, l.factors);
    unchanged("numbers", number, numbers, before, l.numbers);
    free(factors);
}

void test_layer(void) {
    static const uint32_t numbers[] = {7, 4};
    begin("layer");
    for (size_t i = 0; i < COUNT(wrong_sizes); i++) plain_layer_turned_down(7, wrong_sizes[i], right_lengths(1, wrong_sizes[i]));
    for (unsigned mask = 1; mask < 4; mask++)
        for (int round = 0; round < 200; round++) {
            size s = random_size(mask & 1);
            lengths l = right_lengths(1, s);
            if (mask & 2) spoil(round % 2 ? 3 : round / 2 % 2, &l);
            plain_layer_turned_down(first_that_applies(mask, numbers, 2), s, l);
        }
    for (size_t count = 2; count <= LUBEWON_LAYER_MOST; count *= 2)
        for (size_t distance = 1; distance < count; distance *= 2)
            for (int round = 0; round < 8; round++) one_plain_layer(count, distance, round % 2);
    end("7 and 4 in all combinations, which leave the numbers; every count and distance against the reference and native doubles");
}

/* ---- The complex product on shares ---- */

static void all_zeros(const char *call, const uint64_t *work) {
    for (size_t i = 0; i < LUBEWON_WORK; i++) CHECK(work[i] == 0, "%s: work is not zero at %zu", call, i);
}

/* Shares of plain numbers, in the layout of the calls. */
static void split_numbers(size_t n, size_t width, const uint64_t *plain, uint64_t *words) {
    shares number;
    for (size_t j = 0; j < width; j++) {
        split_into(plain[j], number, n);
        put_number(n, width, j, words, number);
    }
}

static void joins_to(const char *call, size_t n, size_t width, const uint64_t *words, const uint64_t *plain) {
    shares number;
    for (size_t j = 0; j < width; j++) {
        take_number(n, width, j, words, number);
        CHECK(lubewon_join(number, n).word == plain[j], "%s on %zu shares: number %zu of %zu does not join to the plain call's", call, n, j, width);
    }
}

static void one_complex_product(size_t n, bool any) {
    static uint64_t tape[LUBEWON_COMPLEX_TAPE(LUBEWON_MOST_SHARES) + 8];
    uint64_t z[4], x[16], y[16], result[16], single[16], work[LUBEWON_WORK];
    size_t tape_len = LUBEWON_COMPLEX_TAPE(n) + (below(2) ? below(9) : 0);
    draw(z, 4, any);
    split_numbers(n, 2, z, x);
    split_numbers(n, 2, z + 2, y);
    if (below(4) == 0) x[0] = z[0], x[1] = z[1], memset(x + 2, 0, (2 * n - 2) * sizeof *x); /* a plain operand */
    fill(tape, tape_len), fill(result, 16), fill(work, LUBEWON_WORK);
    lubewon_answer answer = try_complex_product_shares(0, n, x, 2 * n, y, 2 * n, result, 2 * n, work, LUBEWON_WORK, tape, tape_len);
    CHECK(answer.tape == LUBEWON_COMPLEX_TAPE(n) && answer.words == 0, "complex product on %zu shares: counts", n);
    all_zeros("complex product", work);
    row r = {n, tape, tape_len};
    complex_by_single_calls(&r, x, y, single);
    CHECK(memcmp(result, single, 2 * n * sizeof *result) == 0, "complex product on %zu shares: not the shares of the single calls", n);
    CHECK(tape_len - r.left == answer.tape, "complex product on %zu shares: not the tape words of the single calls", n);
    lubewon_complex plain = lubewon_complex_product(z[0], z[1], z[2], z[3]);
    joins_to("complex product", n, 2, result, (uint64_t[]){plain.re, plain.im});
}

/* x, y, result and work by length and words; one word more than the longest. */
typedef struct {
    size_t x_len, y_len, result_len, work_len;
    uint64_t x[21], y[21], result[21], work[LUBEWON_WORK + 1];
} operands;

/* One wrong length by turns, then all. */
static void spoil_operands(int turn, operands *o) {
    if (turn % 5 == 0 || turn % 5 == 4) o->x_len = other_length(o->x_len);
    if (turn % 5 == 1 || turn % 5 == 4) o->y_len = other_length(o->y_len);
    if (turn % 5 == 2 || turn % 5 == 4) o->result_len = other_length(o->result_len);
    if (turn % 5 == 3 || turn % 5 == 4) o->work_len = other_length(o->work_len);
}

static void complex_product_turned_down(unsigned mask, size_t n, int round) {
    static const uint32_t numbers[] = {1, 4, 6};
    static uint64_t tape[LUBEWON_COMPLEX_TAPE(10)];
    size_t words = n <= 10 ? 2 * n : 4, tape_len = n <= 10 ? LUBEWON_COMPLEX_TAPE(n) : LUBEWON_COMPLEX_TAPE(2);
    uint32_t number = first_that_applies(mask, numbers, 3);
    operands o = {.x_len = words, .y_len = words, .result_len = words, .work_len = LUBEWON_WORK}, before;
    fill(o.x, 21), fill(o.y, 21), fill(o.result, 21), fill(o.work, LUBEWON_WORK + 1);
    if (mask & 2) spoil_operands(round, &o);
    if (mask & 4 && tape_len) tape_len = round % 3 ? tape_len - 1 : below(tape_len);
    before = o;
    try_complex_product_shares(number, n, o.x, o.x_len, o.y, o.y_len, o.result, o.result_len, o.work, o.work_len, tape, tape_len);
    CHECK(memcmp(&o, &before, sizeof o) == 0, "complex product on shares, turned down with %u: lent words have changed", number);
}

void test_complex_product_on_shares(void) {
    begin("complex on shares");
    for (unsigned mask = 1; mask < 8; mask++)
        for (size_t n = 2; n <= 8; n++)
            for (int round = 0; round < 15; round++) complex_product_turned_down(mask, mask & 1 ? bad_share_count() : n, round);
    for (size_t n = 2; n <= 8; n++)
        for (int round = 0; round < 40; round++) one_complex_product(n, round % 2);
    end("1, 4, 6 in all combinations, which leave all words; for n = 2..8 shares and tape words of the single calls, joined, work");
}

/* ---- A layer on shares ---- */

/* Every lent slice of a call; work is 512 words of any. */
typedef struct {
    size_t n, words, factor_words, tape_len;
    size s;
    uint64_t *numbers, *factors, *tape, *plain;
} layer_job;

static layer_job prepare(size_t n, size_t count, size_t distance, bool any) {
    layer_job j = {n, 2 * count * n, count / distance, LUBEWON_LAYER_TAPE(n, count) + below(9), {count, distance}, NULL, NULL, NULL, NULL};
    j.plain = random_words(2 * count);
    j.numbers = random_words(j.words);
    j.factors = random_words(j.factor_words);
    j.tape = random_words(j.tape_len);
    draw(j.plain, 2 * count, any);
    draw(j.factors, j.factor_words, any);
    split_numbers(n, 2 * count, j.plain, j.numbers);
    return j;
}

static void put_away(layer_job *j) {
    free(j->plain), free(j->numbers), free(j->factors), free(j->tape);
}

/* The same numbers by other calls over the same tape. */
static void same_shares(const char *way, void (*calls)(row *, size_t, size_t, uint64_t *, const uint64_t *), const layer_job *j,
                        const uint64_t *after) {
    uint64_t *numbers = copy_of(j->numbers, j->words);
    row r = {j->n, j->tape, j->tape_len};
    calls(&r, j->s.count, j->s.distance, numbers, j->factors);
    CHECK(memcmp(numbers, after, j->words * sizeof *numbers) == 0, "layer over %zu at %zu on %zu shares: not the shares %s", j->s.count,
          j->s.distance, j->n, way);
    CHECK(j->tape_len - r.left == LUBEWON_LAYER_TAPE(j->n, j->s.count), "layer on %zu shares: not the tape words %s", j->n, way);
    free(numbers);
}

static void one_layer(size_t n, size_t count, size_t distance, bool any) {
    layer_job j = prepare(n, count, distance, any);
    uint64_t *numbers = copy_of(j.numbers, j.words), work[LUBEWON_WORK];
    fill(work, LUBEWON_WORK);
    lubewon_answer answer = try_layer_shares(0, n, count, distance, numbers, j.words, j.factors, j.factor_words, work, LUBEWON_WORK, j.tape,
                                             j.tape_len);
    CHECK(answer.tape == LUBEWON_LAYER_TAPE(n, count) && answer.words == 0, "layer on %zu shares: counts", n);
    all_zeros("layer", work);
    same_shares("of the single calls", layer_by_single_calls, &j, numbers);
    same_shares("of its pairs", layer_pair_by_pair, &j, numbers);
    CHECK(lubewon_layer(count, distance, j.plain, 2 * count, j.factors, j.factor_words).number == LUBEWON_DONE, "layer");
    joins_to("layer", n, 2 * count, numbers, j.plain);
    free(numbers);
    put_away(&j);
}

static void layer_turned_down(uint32_t number, size_t n, size s, lengths l) {
    uint64_t *numbers = random_words(l.numbers), *factors = random_words(l.factors), *work = random_words(l.work);
    uint64_t *numbers_before = copy_of(numbers, l.numbers), *work_before = copy_of(work, l.work), *tape = random_words(l.tape);
    try_layer_shares(number, n, s.count, s.distance, numbers, l.numbers, factors, l.factors, work, l.work, tape, l.tape);
    unchanged("numbers", number, numbers, numbers_before, l.numbers);
    unchanged("work", number, work, work_before, l.work);
    free(factors);
    free(tape);
}

static void layers_turned_down(void) {
    static const uint32_t numbers[] = {1, 7, 4, 6};
    for (unsigned mask = 1; mask < 16; mask++)
        for (size_t n = 2; n <= 8; n++)
            for (int round = 0; round < 12; round++) {
                size s = random_size(mask & 2);
                size_t told = mask & 1 ? bad_share_count() : n;
                lengths l = right_lengths(told, s);
                if (mask & 4) spoil(round, &l);
                if (mask & 8 && l.tape) l.tape = round % 3 ? l.tape - 1 : below(l.tape);
                layer_turned_down(first_that_applies(mask, numbers, 4), told, s, l);
            }
    for (size_t i = 0; i < COUNT(wrong_sizes); i++) layer_turned_down(7, 2, wrong_sizes[i], right_lengths(2, wrong_sizes[i]));
    for (size_t distance = 1; distance <= 1024; distance *= 32) { /* too many numbers, and nothing else wrong */
        lengths l = right_lengths(2, (size){2048, distance});
        l.tape = LUBEWON_LAYER_TAPE(2, 2048);
        layer_turned_down(7, 2, (size){2048, distance}, l);
    }
}

void test_layer_on_shares(void) {
    begin("layer on shares");
    layers_turned_down();
    for (size_t n = 2; n <= 8; n++)
        for (size_t count = 2; count <= (n < 4 ? 32 : 8); count *= 2)
            for (size_t distance = 1; distance < count; distance *= 2)
                for (int round = 0; round < 4; round++) one_layer(n, count, distance, round % 2);
    for (size_t distance = 1; distance < LUBEWON_LAYER_MOST; distance *= 8) one_layer(2, LUBEWON_LAYER_MOST, distance, distance == 8);
    end("1, 7, 4, 6 in all combinations, which leave numbers and work; for n = 2..8 shares and tape words of the single calls, joined, work; "
        "1,024 numbers");
}
