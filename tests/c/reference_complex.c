/* The reference of the complex product and the layer: document 02, No. 5, once more. Its sentences stand beside what renders them. */
#include "reference_complex.h"

#include <stdlib.h>
#include <string.h>

static const uint64_t sign_bit = UINT64_C(1) << 63;

/* "when N or h is not a power of two, N is outside 2..1,024 or h is not below N" */
static bool wrong_size(size_t count, size_t distance) {
    bool powers = count != 0 && (count & (count - 1)) == 0 && distance != 0 && (distance & (distance - 1)) == 0;
    return !powers || count < 2 || count > 1024 || distance >= count;
}

/* "Each pair u, v, places p and p + h of a block": whether place p is that of a u, in the first half of its block of 2h. */
static bool place_of_u(size_t p, size_t distance) {
    return p / distance % 2 == 0;
}

/* ---- On plain words ---- */

static uint64_t difference(uint64_t a, uint64_t b) {
    return ref_sum(a, b ^ sign_bit);
}

/* "real part ac - bd, imaginary part ad + bc" */
ref_complex ref_complex_product(uint64_t a, uint64_t b, uint64_t c, uint64_t d) {
    return (ref_complex){difference(ref_product(a, c), ref_product(b, d)), ref_sum(ref_product(a, d), ref_product(b, c))};
}

ref_answer ref_layer(size_t count, size_t distance, uint64_t *numbers, size_t numbers_len, const uint64_t *factors, size_t factors_len) {
    if (wrong_size(count, distance)) return (ref_answer){.number = 7};
    size_t blocks = count / (2 * distance);
    if (numbers_len != 2 * count || factors_len != 2 * blocks) return (ref_answer){.number = 4};
    uint64_t *re = numbers, *im = numbers + count;
    for (size_t p = 0; p < count; p++) {
        if (!place_of_u(p, distance)) continue;
        size_t q = p + distance, block = p / (2 * distance);
        ref_complex u = {re[p], im[p]}, wv = ref_complex_product(factors[block], factors[blocks + block], re[q], im[q]);
        re[p] = ref_sum(u.re, wv.re);
        im[p] = ref_sum(u.im, wv.im);
        re[q] = difference(u.re, wv.re);
        im[q] = difference(u.im, wv.im);
    }
    return (ref_answer){.number = 0};
}

/* ---- On shares: the single operations "one after another on the tape" ---- */

typedef struct {
    uint64_t share[REF_MOST_SHARES];
} shared;

typedef struct {
    shared re, im;
} shared_complex;

/* Where a row of operations has got to. */
typedef struct {
    ref_plans plans;
    size_t n, used;
    const uint64_t *tape;
    size_t tape_len;
} row;

static shared operate(row *r, ref_plan plan, shared x, shared y) {
    shared result = {{0}};
    uint64_t work[REF_CELLS];
    ref_answer answer = ref_operation(plan.words, plan.len, x.share, r->n, y.share, r->n, result.share, r->n, work, REF_CELLS,
                                      r->tape + r->used, r->tape_len - r->used);
    if (answer.number != 0) abort(); /* the tape was measured first */
    r->used += answer.tape;
    return result;
}

static shared product(row *r, shared x, shared y) {
    return operate(r, r->plans.product, x, y);
}

static shared sum(row *r, shared x, shared y) {
    return operate(r, r->plans.sum, x, y);
}

/* "a difference is a sum with the second's sign bit flipped in share 0" */
static shared negative(shared x) {
    x.share[0] ^= sign_bit;
    return x;
}

/* "products in the order ac, bd, ad, bc, then the real sum, the imaginary sum" */
static shared_complex complex_product(row *r, shared_complex x, shared_complex y) {
    shared ac = product(r, x.re, y.re), bd = product(r, x.im, y.im);
    shared ad = product(r, x.re, y.im), bc = product(r, x.im, y.re);
    shared_complex result;
    result.re = sum(r, ac, negative(bd));
    result.im = sum(r, ad, bc);
    return result;
}

/* "real part j of share i is word 2Ni + j, its imaginary part N words later; N is 1 for the product" */
static shared_complex number_at(size_t n, size_t count, size_t j, const uint64_t *words) {
    shared_complex z = {{{0}}, {{0}}};
    for (size_t i = 0; i < n; i++) {
        z.re.share[i] = words[2 * count * i + j];
        z.im.share[i] = words[2 * count * i + j + count];
    }
    return z;
}

static void put_at(size_t n, size_t count, size_t j, uint64_t *words, shared_complex z) {
    for (size_t i = 0; i < n; i++) {
        words[2 * count * i + j] = z.re.share[i];
        words[2 * count * i + j + count] = z.im.share[i];
    }
}

/* "u plus and u minus, each real part first" */
static void butterfly(row *r, shared_complex w, shared_complex *u, shared_complex *v) {
    shared_complex wv = complex_product(r, w, *v), old = *u;
    u->re = sum(r, old.re, wv.re);
    u->im = sum(r, old.im, wv.im);
    v->re = sum(r, old.re, negative(wv.re));
    v->im = sum(r, old.im, negative(wv.im));
}

static size_t tape_of(ref_plans plans, size_t n, size_t products, size_t sums) {
    return products * ref_measure(n, plans.product.words, plans.product.len).tape + sums * ref_measure(n, plans.sum.words, plans.sum.len).tape;
}

static bool wrong_share_count(size_t n) {
    return n < REF_FEWEST_SHARES || n > REF_MOST_SHARES;
}

ref_answer ref_complex_product_shares(ref_plans plans, size_t n, const uint64_t *x, size_t x_len, const uint64_t *y, size_t y_len,
                                      uint64_t *result, size_t result_len, uint64_t *work, size_t work_len, const uint64_t *tape,
                                      size_t tape_len) {
    if (wrong_share_count(n)) return (ref_answer){.number = 1};
    if (x_len != 2 * n || y_len != 2 * n || result_len != 2 * n || work_len != REF_CELLS) return (ref_answer){.number = 4};
    if (tape_len < tape_of(plans, n, 4, 2)) return (ref_answer){.number = 6};
    row r = {plans, n, 0, tape, tape_len};
    put_at(n, 1, 0, result, complex_product(&r, number_at(n, 1, 0, x), number_at(n, 1, 0, y)));
    memset(work, 0, REF_CELLS * sizeof *work);
    return (ref_answer){.tape = r.used};
}

/* "A plain factor goes in as share 0 with zeros beside it." */
ref_answer ref_layer_shares(ref_plans plans, size_t n, size_t count, size_t distance, uint64_t *numbers, size_t numbers_len,
                            const uint64_t *factors, size_t factors_len, uint64_t *work, size_t work_len, const uint64_t *tape,
                            size_t tape_len) {
    if (wrong_share_count(n)) return (ref_answer){.number = 1};
    if (wrong_size(count, distance)) return (ref_answer){.number = 7};
    size_t blocks = count / (2 * distance);
    if (numbers_len != 2 * count * n || factors_len != 2 * blocks || work_len != REF_CELLS) return (ref_answer){.number = 4};
    if (tape_len < count / 2 * tape_of(plans, n, 4, 6)) return (ref_answer){.number = 6};
    row r = {plans, n, 0, tape, tape_len};
    for (size_t p = 0; p < count; p++) {
        if (!place_of_u(p, distance)) continue;
        size_t block = p / (2 * distance);
        shared_complex w = {{{factors[block]}}, {{factors[blocks + block]}}};
        shared_complex u = number_at(n, count, p, numbers), v = number_at(n, count, p + distance, numbers);
        butterfly(&r, w, &u, &v);
        put_at(n, count, p, numbers, u);
        put_at(n, count, p + distance, numbers, v);
    }
    memset(work, 0, REF_CELLS * sizeof *work);
    return (ref_answer){.tape = r.used};
}
