/* The complex product and the layer by single calls: see single_calls.h. */
#include "single_calls.h"

#include "check.h"

static const uint64_t sign_bit = UINT64_C(1) << 63;

static void behind(row *r, lubewon_answer answer) {
    CHECK(answer.number == LUBEWON_DONE, "a single call is turned down with %u", answer.number);
    r->tape += answer.tape;
    r->left -= answer.tape;
}

static void times(row *r, const uint64_t *x, const uint64_t *y, uint64_t *result) {
    uint64_t work[LUBEWON_WORK];
    behind(r, lubewon_product_shares(x, r->n, y, r->n, result, r->n, work, LUBEWON_WORK, r->tape, r->left));
}

static void plus(row *r, const uint64_t *x, const uint64_t *y, uint64_t *result) {
    uint64_t work[LUBEWON_WORK];
    behind(r, lubewon_sum_shares(x, r->n, y, r->n, result, r->n, work, LUBEWON_WORK, r->tape, r->left));
}

void take_number(size_t n, size_t width, size_t j, const uint64_t *words, uint64_t *number) {
    for (size_t i = 0; i < n; i++) number[i] = words[width * i + j];
}

void put_number(size_t n, size_t width, size_t j, uint64_t *words, const uint64_t *number) {
    for (size_t i = 0; i < n; i++) words[width * i + j] = number[i];
}

static void complex_product(row *r, const uint64_t *a, const uint64_t *b, const uint64_t *c, const uint64_t *d, uint64_t *re, uint64_t *im) {
    shares ac, bd, ad, bc;
    times(r, a, c, ac);
    times(r, b, d, bd);
    times(r, a, d, ad);
    times(r, b, c, bc);
    bd[0] ^= sign_bit;
    plus(r, ac, bd, re);
    plus(r, ad, bc, im);
}

void complex_by_single_calls(row *r, const uint64_t *x, const uint64_t *y, uint64_t *result) {
    shares a, b, c, d, re, im;
    take_number(r->n, 2, 0, x, a);
    take_number(r->n, 2, 1, x, b);
    take_number(r->n, 2, 0, y, c);
    take_number(r->n, 2, 1, y, d);
    complex_product(r, a, b, c, d, re, im);
    put_number(r->n, 2, 0, result, re);
    put_number(r->n, 2, 1, result, im);
}

/* ---- Layers, by their pairs ---- */

/* The numbers u and v of a pair by their places among all parts, and its factor. */
typedef struct {
    size_t u_re, u_im, v_re, v_im;
    uint64_t re, im;
} pair;

static void by_single_calls(row *r, size_t width, pair p, uint64_t *numbers) {
    shares a = {p.re}, b = {p.im}, c, d, u_re, u_im, re, im, plus_re, plus_im, minus_re, minus_im;
    take_number(r->n, width, p.u_re, numbers, u_re);
    take_number(r->n, width, p.u_im, numbers, u_im);
    take_number(r->n, width, p.v_re, numbers, c);
    take_number(r->n, width, p.v_im, numbers, d);
    complex_product(r, a, b, c, d, re, im);
    plus(r, u_re, re, plus_re);
    plus(r, u_im, im, plus_im);
    re[0] ^= sign_bit;
    im[0] ^= sign_bit;
    plus(r, u_re, re, minus_re);
    plus(r, u_im, im, minus_im);
    put_number(r->n, width, p.u_re, numbers, plus_re);
    put_number(r->n, width, p.u_im, numbers, plus_im);
    put_number(r->n, width, p.v_re, numbers, minus_re);
    put_number(r->n, width, p.v_im, numbers, minus_im);
}

static void by_a_layer(row *r, size_t width, pair p, uint64_t *numbers) {
    const size_t place[4] = {p.u_re, p.v_re, p.u_im, p.v_im};
    const uint64_t factor[2] = {p.re, p.im};
    uint64_t two[4 * LUBEWON_MOST_SHARES], work[LUBEWON_WORK];
    shares number;
    for (size_t j = 0; j < 4; j++) {
        take_number(r->n, width, place[j], numbers, number);
        put_number(r->n, 4, j, two, number);
    }
    behind(r, lubewon_layer_shares(r->n, 2, 1, two, 4 * r->n, factor, 2, work, LUBEWON_WORK, r->tape, r->left));
    for (size_t j = 0; j < 4; j++) {
        take_number(r->n, 4, j, two, number);
        put_number(r->n, width, place[j], numbers, number);
    }
}

static void all_pairs(void (*one)(row *, size_t, pair, uint64_t *), row *r, size_t count, size_t distance, uint64_t *numbers,
                      const uint64_t *factors) {
    size_t blocks = count / (2 * distance);
    for (size_t block = 0; block < blocks; block++)
        for (size_t k = 0; k < distance; k++) {
            size_t u = 2 * distance * block + k, v = u + distance;
            one(r, 2 * count, (pair){u, count + u, v, count + v, factors[block], factors[blocks + block]}, numbers);
        }
}

void layer_by_single_calls(row *r, size_t count, size_t distance, uint64_t *numbers, const uint64_t *factors) {
    all_pairs(by_single_calls, r, count, distance, numbers, factors);
}

void layer_pair_by_pair(row *r, size_t count, size_t distance, uint64_t *numbers, const uint64_t *factors) {
    all_pairs(by_a_layer, r, count, distance, numbers, factors);
}
