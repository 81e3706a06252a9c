/* The C baselines of the bench, written for speed by the same rules: what each is, METHOD.md says. */
#include "baseline.h"

#include <stdbool.h>
#include <string.h>

enum { CONST = 1, XOR, AND, NOT, SHL, SHR, SPREAD, ADD, RAND, HEAD };
enum { Y = 256, Z = 264, T = 272, U = 273, HELPERS = 288, CELLS = 512 };

static unsigned kind_of(uint32_t word) { return word >> 28; }
static unsigned d_of(uint32_t word) { return word >> 18 & 511; }
static unsigned a_of(uint32_t word) { return word >> 9 & 511; }
static unsigned b_of(uint32_t word) { return word & 511; }

static uint32_t word_of(unsigned kind, size_t d, size_t a, size_t b) {
    return (uint32_t)kind << 28 | (uint32_t)d << 18 | (uint32_t)a << 9 | (uint32_t)b;
}

static lubewon_answer done(size_t words, size_t tape) { return (lubewon_answer){0, 0, words, tape}; }
static lubewon_answer refused(uint32_t number, size_t place) { return (lubewon_answer){number, place, 0, 0}; }

/* ---- (a) Interpreter of share programs ---- */

/* Bits that must be zero in a good word, by kind, and the kinds that may stand there. */
typedef struct {
    uint32_t kinds, zero[16];
} rules;

static const rules share_rules = {0x2FE,
                                  {[CONST] = 0x08000000,
                                   [XOR] = 0x08000000,
                                   [AND] = 0x08000000,
                                   [NOT] = 0x080001FF,
                                   [SHL] = 0x080001C0,
                                   [SHR] = 0x080001C0,
                                   [SPREAD] = 0x080001FF,
                                   [RAND] = 0x0803FFFF}};
static const rules plan_rules = {0x1FE,
                                 {[CONST] = 0x0F800000,
                                  [XOR] = 0x0F83C1E0,
                                  [AND] = 0x0F83C1E0,
                                  [NOT] = 0x0F83C1FF,
                                  [SHL] = 0x0F83C1C0,
                                  [SHR] = 0x0F83C1C0,
                                  [SPREAD] = 0x0F83C1FF,
                                  [ADD] = 0x0F83C1E0}};

static bool good(const rules *r, uint32_t word) {
    return (r->kinds >> kind_of(word) & 1) && (word & r->zero[kind_of(word)]) == 0;
}

/* Checked words that are no head, one after another. A function of its own: its caller has too few registers left, and the loop, put into it,
 * would read from the stack for each word. */
__attribute__((noinline))
static void run_words(const uint32_t *words, size_t count, const uint64_t *next, uint64_t *cells) {
    for (size_t i = 0; i < count; i++) {
        uint32_t word = words[i];
        uint64_t a = cells[a_of(word)];
        switch (kind_of(word)) {
        case CONST: a = word & 0x3FFFF; break;
        case XOR: a ^= cells[b_of(word)]; break;
        case AND: a &= cells[b_of(word)]; break;
        case NOT: a = ~a; break;
        case SHL: a <<= b_of(word); break;
        case SHR: a >>= b_of(word); break;
        case SPREAD: a = -(a & 1); break;
        default: a = *next++; break;
        }
        cells[d_of(word)] = a;
    }
}

/* The head is looked at before the loops, and stepped over where it is one of the words to be done. */
lubewon_answer base_share_run(size_t n, const uint32_t *program, size_t program_len, size_t place, const uint64_t *tape, size_t tape_len,
                              size_t tape_place, size_t budget, uint64_t *cells, size_t cells_len) {
    if (n < 2 || n > 8) return refused(1, 0);
    if (program_len > 8257537) return refused(2, 0);
    if (program_len == 0 || program[0] != word_of(HEAD, n, 0, 0)) return refused(8, 0);
    for (size_t i = 1; i < program_len; i++)
        if (!good(&share_rules, program[i])) return refused(3, i);
    if (cells_len != CELLS) return refused(4, 0);
    if (place > program_len || tape_place > tape_len) return refused(5, 0);
    size_t left = program_len - place, count = budget < left ? budget : left, head = place == 0 && count > 0, rands = 0;
    const uint32_t *words = program + place;
    for (size_t i = head; i < count; i++) rands += kind_of(words[i]) == RAND;
    if (rands > tape_len - tape_place) return refused(6, 0);
    run_words(words + head, count - head, tape + tape_place, cells);
    return done(count, rands);
}

/* ---- (b) Gadgets on shares ---- */

/* Share i of a register or a helper is first[step * i]. */
typedef struct {
    uint64_t *first;
    size_t step;
} shared;

static shared reg(uint64_t *cells, unsigned r) { return (shared){cells + r, 32}; }
static shared helper(uint64_t *cells, unsigned h) { return (shared){cells + HELPERS + h, 8}; }

static void masked_xor(size_t n, shared d, shared a, shared b) {
    for (size_t i = 0; i < n; i++) d.first[d.step * i] = a.first[a.step * i] ^ b.first[b.step * i];
}

static void masked_shl(size_t n, shared d, shared a, unsigned k) {
    for (size_t i = 0; i < n; i++) d.first[d.step * i] = a.first[a.step * i] << k;
}

static void masked_shr(size_t n, shared d, shared a, unsigned k) {
    for (size_t i = 0; i < n; i++) d.first[d.step * i] = a.first[a.step * i] >> k;
}

static void masked_spread(size_t n, shared d, shared a) {
    for (size_t i = 0; i < n; i++) d.first[d.step * i] = -(a.first[a.step * i] & 1);
}

static void masked_const(size_t n, shared d, uint64_t k) {
    d.first[0] = k;
    for (size_t i = 1; i < n; i++) d.first[d.step * i] = 0;
}

static void masked_not(size_t n, shared d, shared a) {
    d.first[0] = ~a.first[0];
    for (size_t i = 1; i < n; i++) d.first[d.step * i] = a.first[a.step * i];
}

/* AND with one operand refreshed; its scratch cells are wiped. Left to itself the compiler wipes by two calls of memset, which cost more than
 * the stores of a short loop. */
__attribute__((optimize("no-tree-loop-distribute-patterns")))
static const uint64_t *masked_and(size_t n, uint64_t *cells, shared d, shared a, shared b, const uint64_t *tape) {
    uint64_t *y = cells + Y, *z = cells + Z;
    for (size_t i = 0; i < n; i++) y[i] = b.first[b.step * i];
    for (size_t i = 0; i < n; i++)
        for (size_t j = i + 1; j < n; j++) {
            uint64_t refresh = *tape++;
            y[i] ^= refresh;
            y[j] ^= refresh;
        }
    for (size_t i = 0; i < n; i++) z[i] = a.first[a.step * i] & y[i];
    for (size_t i = 0; i < n; i++)
        for (size_t j = i + 1; j < n; j++) {
            uint64_t t = *tape++;
            z[i] ^= t;
            t ^= a.first[a.step * i] & y[j];
            t ^= a.first[a.step * j] & y[i];
            z[j] ^= t;
        }
    for (size_t i = 0; i < n; i++) d.first[d.step * i] = z[i];
    for (size_t i = 0; i < n; i++) y[i] = z[i] = 0;
    cells[T] = 0;
    cells[U] = 0;
    return tape;
}

/* The Kogge-Stone adder: H the half sum, G generate, P propagate. */
static const uint64_t *masked_add(size_t n, uint64_t *cells, shared d, shared a, shared b, const uint64_t *tape) {
    shared half = helper(cells, 0), generate = helper(cells, 1), propagate = helper(cells, 2), carry = helper(cells, 3);
    masked_xor(n, half, a, b);
    tape = masked_and(n, cells, generate, a, b, tape);
    masked_shl(n, propagate, half, 0);
    for (unsigned k = 1; k <= 32; k *= 2) {
        masked_shl(n, carry, generate, k);
        tape = masked_and(n, cells, carry, propagate, carry, tape);
        masked_xor(n, generate, generate, carry);
        if (k == 32) break;
        masked_shl(n, carry, propagate, k);
        tape = masked_and(n, cells, propagate, propagate, carry, tape);
    }
    masked_shl(n, carry, generate, 1);
    masked_xor(n, d, half, carry);
    return tape;
}

size_t base_plan_on_shares(size_t n, const uint32_t *plan, size_t plan_len, const uint64_t *tape, uint64_t *cells) {
    const uint64_t *next = tape;
    for (size_t i = 0; i < plan_len; i++) {
        uint32_t word = plan[i];
        shared d = reg(cells, d_of(word)), a = reg(cells, a_of(word)), b = reg(cells, b_of(word));
        switch (kind_of(word)) {
        case CONST: masked_const(n, d, word & 0x3FFFF); break;
        case XOR: masked_xor(n, d, a, b); break;
        case AND: next = masked_and(n, cells, d, a, b, next); break;
        case NOT: masked_not(n, d, a); break;
        case SHL: masked_shl(n, d, a, b_of(word)); break;
        case SHR: masked_shr(n, d, a, b_of(word)); break;
        case SPREAD: masked_spread(n, d, a); break;
        default: next = masked_add(n, cells, d, a, b, next); break;
        }
    }
    return next - tape;
}

static size_t share_words(size_t n, uint32_t word) {
    return kind_of(word) == AND ? 5 * n * n + 2 : kind_of(word) == ADD ? 60 * n * n + 21 * n + 24 : n;
}

static size_t tape_words(size_t n, uint32_t word) {
    return kind_of(word) == AND ? n * (n - 1) : kind_of(word) == ADD ? 12 * n * (n - 1) : 0;
}

lubewon_answer base_operation(const uint32_t *plan, size_t plan_len, size_t units, const uint64_t *x, size_t n, const uint64_t *y,
                              uint64_t *result, uint64_t *work, const uint64_t *tape, size_t tape_len) {
    if (n < 2 || n > 8) return refused(1, 0);
    if (tape_len < units * n * (n - 1)) return refused(6, 0);
    memset(work, 0, CELLS * sizeof *work);
    for (size_t i = 0; i < n; i++) {
        work[32 * i] = x[i];
        if (y) work[32 * i + 1] = y[i];
    }
    size_t used = base_plan_on_shares(n, plan, plan_len, tape, work);
    for (size_t i = 0; i < n; i++) result[i] = work[32 * i + 2];
    memset(work, 0, CELLS * sizeof *work);
    return done(0, used);
}

/* ---- (c) Soft floats ---- */

static const uint64_t SIGN = UINT64_C(1) << 63, LEADING = UINT64_C(1) << 52, GREATEST = UINT64_C(2047) << 52;
static const uint64_t HALF = UINT64_C(1022) << 52, ONE = UINT64_C(1023) << 52;

static unsigned exponent_of(uint64_t x) { return x >> 52 & 2047; }
static uint64_t significand_of(uint64_t x) { return LEADING | (x & (LEADING - 1)); }

/* A significand of 53 bits with its leading bit, rounded up where asked; the carry runs into the exponent. */
static uint64_t packed(uint64_t sign, int exponent, uint64_t kept, bool up) {
    uint64_t bits = ((uint64_t)(exponent - 1) << 52) + kept + up;
    return sign | (bits < GREATEST ? bits : GREATEST);
}

uint64_t base_product(uint64_t a, uint64_t b) {
    uint64_t sign = (a ^ b) & SIGN;
    if (exponent_of(a) == 0 || exponent_of(b) == 0) return sign;
    unsigned __int128 p = (unsigned __int128)significand_of(a) * significand_of(b);
    int exponent = (int)(exponent_of(a) + exponent_of(b)) - 1023;
    if (p >> 105) exponent++;
    else p <<= 1;
    if (exponent < 1) return sign;
    uint64_t kept = (uint64_t)(p >> 53), rest = (uint64_t)p & (2 * LEADING - 1);
    return packed(sign, exponent, kept, rest > LEADING || (rest == LEADING && kept & 1));
}

uint64_t base_sum(uint64_t a, uint64_t b) {
    if (a << 1 < b << 1) {
        uint64_t other = a;
        a = b;
        b = other;
    }
    if (exponent_of(a) == 0) return a & b & SIGN;
    uint64_t big = significand_of(a) << 10, small = exponent_of(b) ? significand_of(b) << 10 : 0;
    unsigned distance = exponent_of(a) - exponent_of(b);
    if (distance > 63) small = small != 0;
    else if (distance) small = small >> distance | (small << (64 - distance) != 0);
    uint64_t z = (a ^ b) & SIGN ? big - small : big + small;
    if (z == 0) return 0;
    int zeros = __builtin_clzll(z), exponent = (int)exponent_of(a) + 1 - zeros;
    if (exponent < 1) return a & SIGN;
    z <<= zeros;
    uint64_t kept = z >> 11, rest = z & 2047;
    return packed(a & SIGN, exponent, kept, rest > 1024 || (rest == 1024 && kept & 1));
}

/* Below 1 what is negative and no zero (E > 0) becomes -1. */
uint64_t base_floor(uint64_t a) {
    unsigned exponent = exponent_of(a);
    if (exponent >= 1075) return a;
    if (exponent < 1023) return (a & SIGN) | (a >= (SIGN | LEADING) ? ONE : 0);
    uint64_t fraction = (UINT64_C(1) << (1075 - exponent)) - 1;
    return (a & SIGN ? a + fraction : a) & ~fraction;
}

uint64_t base_truncate(uint64_t a) {
    unsigned exponent = exponent_of(a);
    if (exponent >= 1075) return a;
    if (exponent < 1023) return a & SIGN;
    return a & UINT64_MAX << (1075 - exponent);
}

/* Below 1 only what is above 0.5 rounds up. From 1 on half a unit is added, less one where the whole part is even, and carries into it.
 * `unit` is the last bit of the whole part; for E = 1023 that is 1, and the lowest bit of E stands for it. */
uint64_t base_nearest(uint64_t a) {
    unsigned exponent = exponent_of(a);
    if (exponent >= 1075) return a;
    if (exponent < 1023) return (a & SIGN) | (a << 1 > HALF << 1 ? ONE : 0);
    uint64_t unit = UINT64_C(1) << (1075 - exponent);
    return (a + unit / 2 - !(a & unit)) & ~(unit - 1);
}

/* ---- (d) Translator ---- */

/* Share i of a register or a helper is cell first + step * i. */
typedef struct {
    size_t first, step;
} cells_of;

static size_t at(cells_of r, size_t i) { return r.first + r.step * i; }

static uint32_t *write_xor(uint32_t *out, size_t n, cells_of d, cells_of a, cells_of b) {
    for (size_t i = 0; i < n; i++) *out++ = word_of(XOR, at(d, i), at(a, i), at(b, i));
    return out;
}

static uint32_t *write_each(uint32_t *out, size_t n, unsigned kind, cells_of d, cells_of a, size_t b) {
    for (size_t i = 0; i < n; i++) *out++ = word_of(kind, at(d, i), at(a, i), b);
    return out;
}

static uint32_t *write_and(uint32_t *out, size_t n, cells_of d, cells_of a, cells_of b) {
    for (size_t i = 0; i < n; i++) *out++ = word_of(SHL, Y + i, at(b, i), 0);
    for (size_t i = 0; i < n; i++)
        for (size_t j = i + 1; j < n; j++) {
            *out++ = word_of(RAND, T, 0, 0);
            *out++ = word_of(XOR, Y + i, Y + i, T);
            *out++ = word_of(XOR, Y + j, Y + j, T);
        }
    for (size_t i = 0; i < n; i++) *out++ = word_of(AND, Z + i, at(a, i), Y + i);
    for (size_t i = 0; i < n; i++)
        for (size_t j = i + 1; j < n; j++) {
            *out++ = word_of(RAND, T, 0, 0);
            *out++ = word_of(XOR, Z + i, Z + i, T);
            *out++ = word_of(AND, U, at(a, i), Y + j);
            *out++ = word_of(XOR, T, T, U);
            *out++ = word_of(AND, U, at(a, j), Y + i);
            *out++ = word_of(XOR, T, T, U);
            *out++ = word_of(XOR, Z + j, Z + j, T);
        }
    for (size_t i = 0; i < n; i++) *out++ = word_of(SHL, at(d, i), Z + i, 0);
    for (size_t i = 0; i < n; i++) *out++ = word_of(CONST, Y + i, 0, 0);
    for (size_t i = 0; i < n; i++) *out++ = word_of(CONST, Z + i, 0, 0);
    *out++ = word_of(CONST, T, 0, 0);
    *out++ = word_of(CONST, U, 0, 0);
    return out;
}

static uint32_t *write_add(uint32_t *out, size_t n, cells_of d, cells_of a, cells_of b) {
    cells_of half = {HELPERS, 8}, generate = {HELPERS + 1, 8}, propagate = {HELPERS + 2, 8}, carry = {HELPERS + 3, 8};
    out = write_xor(out, n, half, a, b);
    out = write_and(out, n, generate, a, b);
    out = write_each(out, n, SHL, propagate, half, 0);
    for (unsigned k = 1; k <= 32; k *= 2) {
        out = write_each(out, n, SHL, carry, generate, k);
        out = write_and(out, n, carry, propagate, carry);
        out = write_xor(out, n, generate, generate, carry);
        if (k == 32) break;
        out = write_each(out, n, SHL, carry, propagate, k);
        out = write_and(out, n, propagate, propagate, carry);
    }
    out = write_each(out, n, SHL, carry, generate, 1);
    return write_xor(out, n, d, half, carry);
}

static uint32_t *write_const(uint32_t *out, size_t n, cells_of d, uint32_t k) {
    *out++ = word_of(CONST, at(d, 0), 0, k);
    for (size_t i = 1; i < n; i++) *out++ = word_of(CONST, at(d, i), 0, 0);
    return out;
}

static uint32_t *write_not(uint32_t *out, size_t n, cells_of d, cells_of a) {
    *out++ = word_of(NOT, at(d, 0), at(a, 0), 0);
    for (size_t i = 1; i < n; i++) *out++ = word_of(SHL, at(d, i), at(a, i), 0);
    return out;
}

lubewon_answer base_translate(size_t n, const uint32_t *plan, size_t plan_len, uint32_t *out, size_t out_len) {
    if (n < 2 || n > 8) return refused(1, 0);
    if (plan_len > 2048) return refused(2, 0);
    size_t words = 1, tape = 0;
    for (size_t i = 0; i < plan_len; i++) {
        if (!good(&plan_rules, plan[i])) return refused(3, i);
        words += share_words(n, plan[i]);
        tape += tape_words(n, plan[i]);
    }
    if (out_len < words) return refused(4, 0);
    *out++ = word_of(HEAD, n, 0, 0);
    for (size_t i = 0; i < plan_len; i++) {
        uint32_t word = plan[i];
        cells_of d = {d_of(word), 32}, a = {a_of(word), 32}, b = {b_of(word), 32};
        switch (kind_of(word)) {
        case CONST: out = write_const(out, n, d, word & 0x3FFFF); break;
        case XOR: out = write_xor(out, n, d, a, b); break;
        case AND: out = write_and(out, n, d, a, b); break;
        case NOT: out = write_not(out, n, d, a); break;
        case ADD: out = write_add(out, n, d, a, b); break;
        default: out = write_each(out, n, kind_of(word), d, a, b_of(word)); break;
        }
    }
    return done(words, tape);
}
