/* The complex baselines of the bench: what each is, METHOD.md says. On shares they go by either baseline's products and sums. */
#include "complex_base.h"

#include <stdbool.h>

static const uint64_t SIGN = UINT64_C(1) << 63;

static lubewon_answer done(size_t tape) { return (lubewon_answer){0, 0, 0, tape}; }
static lubewon_answer refused(uint32_t number) { return (lubewon_answer){number, 0, 0, 0}; }

/* ---- On shares ---- */

/* Calls on n shares in a row along one tape. */
typedef struct {
    const base_calls *calls;
    size_t n;
    uint64_t *work;
    const uint64_t *tape;
    size_t left;
} row;

static void call(row *r, base_call *operation, const uint64_t *x, const uint64_t *y, uint64_t *result) {
    size_t used = operation(r->n, x, y, result, r->work, r->tape, r->left).tape;
    r->tape += used;
    r->left -= used;
}

/* The shares of a number that stands every `step` words, and back. */
static void gather(size_t n, const uint64_t *from, size_t step, uint64_t *to) {
    for (size_t i = 0; i < n; i++) to[i] = from[step * i];
}

static void scatter(size_t n, const uint64_t *from, uint64_t *to, size_t step) {
    for (size_t i = 0; i < n; i++) to[step * i] = from[i];
}

/* A complex number on up to 8 shares. */
typedef struct {
    uint64_t re[8], im[8];
} masked;

/* Its parts stand `apart` words from one another. */
static masked gathered(size_t n, const uint64_t *from, size_t step, size_t apart) {
    masked z;
    gather(n, from, step, z.re);
    gather(n, from + apart, step, z.im);
    return z;
}

static masked masked_product(row *r, const masked *x, const masked *y) {
    base_call *product = r->calls->product, *sum = r->calls->sum;
    uint64_t ac[8], bd[8], ad[8], bc[8];
    masked z;
    call(r, product, x->re, y->re, ac);
    call(r, product, x->im, y->im, bd);
    call(r, product, x->re, y->im, ad);
    call(r, product, x->im, y->re, bc);
    bd[0] ^= SIGN;
    call(r, sum, ac, bd, z.re);
    call(r, sum, ad, bc, z.im);
    return z;
}

lubewon_answer base_complex_product_shares(const base_calls *calls, size_t n, const uint64_t *x, const uint64_t *y, uint64_t *result,
                                           uint64_t *work, const uint64_t *tape, size_t tape_len) {
    size_t words = LUBEWON_COMPLEX_TAPE(n);
    if (n < 2 || n > 8) return refused(1);
    if (tape_len < words) return refused(6);
    row r = {calls, n, work, tape, tape_len};
    masked p = gathered(n, x, 2, 1), q = gathered(n, y, 2, 1), z = masked_product(&r, &p, &q);
    scatter(n, z.re, result, 2);
    scatter(n, z.im, result + 1, 2);
    return done(words);
}

static bool is_layer(size_t count, size_t distance) {
    return count >= 2 && count <= 1024 && (count & (count - 1)) == 0 && distance > 0 && distance < count && (distance & (distance - 1)) == 0;
}

/* u is at `place`, v `distance` words on; their imaginary parts are `count` words on. */
static void masked_pair(row *r, size_t count, size_t distance, const masked *w, uint64_t *place) {
    base_call *sum = r->calls->sum;
    masked u = gathered(r->n, place, 2 * count, count), v = gathered(r->n, place + distance, 2 * count, count);
    masked z = masked_product(r, w, &v), plus, minus;
    call(r, sum, u.re, z.re, plus.re);
    call(r, sum, u.im, z.im, plus.im);
    z.re[0] ^= SIGN;
    z.im[0] ^= SIGN;
    call(r, sum, u.re, z.re, minus.re);
    call(r, sum, u.im, z.im, minus.im);
    scatter(r->n, plus.re, place, 2 * count);
    scatter(r->n, plus.im, place + count, 2 * count);
    scatter(r->n, minus.re, place + distance, 2 * count);
    scatter(r->n, minus.im, place + distance + count, 2 * count);
}

lubewon_answer base_layer_shares(const base_calls *calls, size_t n, size_t count, size_t distance, uint64_t *numbers, const uint64_t *factors,
                                 uint64_t *work, const uint64_t *tape, size_t tape_len) {
    size_t words = LUBEWON_LAYER_TAPE(n, count);
    if (n < 2 || n > 8) return refused(1);
    if (!is_layer(count, distance)) return refused(7);
    if (tape_len < words) return refused(6);
    row r = {calls, n, work, tape, tape_len};
    size_t blocks = count / (2 * distance);
    for (size_t b = 0; b < blocks; b++) {
        masked w = {{factors[b]}, {factors[blocks + b]}};
        for (size_t p = 0; p < distance; p++) masked_pair(&r, count, distance, &w, numbers + 2 * distance * b + p);
    }
    return done(words);
}

/* ---- On plain words ---- */

lubewon_complex base_complex_product(uint64_t a, uint64_t b, uint64_t c, uint64_t d) {
    uint64_t ac = base_product(a, c), bd = base_product(b, d), ad = base_product(a, d), bc = base_product(b, c);
    return (lubewon_complex){base_sum(ac, bd ^ SIGN), base_sum(ad, bc)};
}

static void pair(size_t count, size_t distance, uint64_t a, uint64_t b, uint64_t *u) {
    uint64_t *v = u + distance, re = u[0], im = u[count];
    lubewon_complex z = base_complex_product(a, b, v[0], v[count]);
    u[0] = base_sum(re, z.re);
    u[count] = base_sum(im, z.im);
    v[0] = base_sum(re, z.re ^ SIGN);
    v[count] = base_sum(im, z.im ^ SIGN);
}

lubewon_answer base_layer(size_t count, size_t distance, uint64_t *numbers, const uint64_t *factors) {
    if (!is_layer(count, distance)) return refused(7);
    size_t blocks = count / (2 * distance);
    for (size_t b = 0; b < blocks; b++)
        for (size_t p = 0; p < distance; p++) pair(count, distance, factors[b], factors[blocks + b], numbers + 2 * distance * b + p);
    return done(0);
}
