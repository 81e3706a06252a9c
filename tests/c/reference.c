/* The reference that the C test holds the library against: the documents once more, in plain C, with 128-bit integers for the numbers. */
#include "reference.h"

#include <stdlib.h>
#include <string.h>

/* ---- Answers ---- */

static ref_answer done(size_t words, size_t tape) {
    return (ref_answer){0, 0, words, tape};
}

static ref_answer refused(uint32_t number) {
    return (ref_answer){number, 0, 0, 0};
}

static ref_answer bad_word_at(size_t place) {
    return (ref_answer){3, place, 0, 0};
}

static bool share_count_ok(size_t n) {
    return n >= REF_FEWEST_SHARES && n <= REF_MOST_SHARES;
}

/* ---- Step words: bits 31..28 kind, 27 zero, 26..18 d, 17..9 a, 8..0 b ---- */

typedef struct {
    unsigned kind, d, a, b;
} fields;

static fields take_apart(uint32_t word) {
    return (fields){word >> 28, word >> 18 & 511, word >> 9 & 511, word & 511};
}

uint32_t ref_word(unsigned kind, unsigned d, unsigned a, unsigned b) {
    return (uint32_t)kind << 28 | (uint32_t)d << 18 | (uint32_t)a << 9 | (uint32_t)b;
}

uint32_t ref_head(size_t n) {
    return ref_word(REF_HEAD, (unsigned)n, 0, 0);
}

/* Whether every field is within the rules, with cells below `cells`; kinds 8 and 9 are judged by the callers, and so is a head. */
static bool fields_ok(uint32_t word, unsigned cells) {
    fields f = take_apart(word);
    if (word >> 27 & 1 || f.d >= cells) return false;
    switch (f.kind) {
    case REF_CONST: return true;
    case REF_XOR:
    case REF_AND:
    case REF_ADD: return f.a < cells && f.b < cells;
    case REF_NOT:
    case REF_SPREAD: return f.a < cells && f.b == 0;
    case REF_SHL:
    case REF_SHR: return f.a < cells && f.b <= 63;
    case REF_RAND: return f.a == 0 && f.b == 0;
    default: return false;
    }
}

bool ref_good_plan_word(uint32_t word) {
    return word >> 28 != REF_RAND && fields_ok(word, REF_REGISTERS);
}

bool ref_good_share_word(uint32_t word) {
    return word >> 28 != REF_ADD && fields_ok(word, REF_CELLS);
}

bool ref_good_step(uint32_t word) {
    for (size_t n = REF_FEWEST_SHARES; n <= REF_MOST_SHARES; n++)
        if (word == ref_head(n)) return true;
    return ref_good_share_word(word);
}

/* The place of the first word that is not good, or the length. */
static size_t first_bad(const uint32_t *words, size_t len, bool (*good)(uint32_t)) {
    size_t place = 0;
    while (place < len && good(words[place])) place++;
    return place;
}

/* ---- The machines ---- */

/* What cell d becomes; `tape_word` is used by RAND only. */
static uint64_t new_value(fields f, const uint64_t *cells, uint64_t tape_word) {
    switch (f.kind) {
    case REF_CONST: return 512 * (uint64_t)f.a + f.b;
    case REF_XOR: return cells[f.a] ^ cells[f.b];
    case REF_AND: return cells[f.a] & cells[f.b];
    case REF_NOT: return ~cells[f.a];
    case REF_SHL: return cells[f.a] << f.b;
    case REF_SHR: return cells[f.a] >> f.b;
    case REF_SPREAD: return cells[f.a] & 1 ? UINT64_MAX : 0;
    case REF_ADD: return cells[f.a] + cells[f.b];
    default: return tape_word;
    }
}

ref_answer ref_plain_run(const uint32_t *plan, size_t plan_len, uint64_t *cells, size_t cells_len) {
    if (plan_len > REF_PLAN_LIMIT) return refused(2);
    size_t bad = first_bad(plan, plan_len, ref_good_plan_word);
    if (bad < plan_len) return bad_word_at(bad);
    if (cells_len != REF_REGISTERS) return refused(4);
    for (size_t i = 0; i < plan_len; i++) {
        fields f = take_apart(plan[i]);
        cells[f.d] = new_value(f, cells, 0);
    }
    return done(0, 0);
}

size_t ref_run_words(const uint32_t *words, size_t count, const uint64_t *tape, uint64_t *cells) {
    size_t used = 0;
    for (size_t i = 0; i < count; i++) {
        fields f = take_apart(words[i]);
        if (f.kind == REF_HEAD) continue;
        uint64_t tape_word = f.kind == REF_RAND ? tape[used++] : 0;
        cells[f.d] = new_value(f, cells, tape_word);
    }
    return used;
}

static size_t count_rand(const uint32_t *words, size_t count) {
    size_t rands = 0;
    for (size_t i = 0; i < count; i++) rands += words[i] >> 28 == REF_RAND;
    return rands;
}

ref_answer ref_share_run(size_t n, const uint32_t *program, size_t program_len, size_t place, const uint64_t *tape, size_t tape_len,
                         size_t tape_place, size_t budget, uint64_t *cells, size_t cells_len) {
    if (!share_count_ok(n)) return refused(1);
    if (program_len > REF_PROGRAM_LIMIT) return refused(2);
    if (program_len == 0 || program[0] != ref_head(n)) return refused(8);
    size_t bad = 1 + first_bad(program + 1, program_len - 1, ref_good_share_word);
    if (bad < program_len) return bad_word_at(bad);
    if (cells_len != REF_CELLS) return refused(4);
    if (place > program_len || tape_place > tape_len) return refused(5);
    size_t left = program_len - place;
    size_t count = budget < left ? budget : left;
    if (count_rand(program + place, count) > tape_len - tape_place) return refused(6);
    return done(count, ref_run_words(program + place, count, tape + tape_place, cells));
}

ref_answer ref_one_share_step(uint32_t word, const uint64_t *tape, size_t tape_len, size_t tape_place, uint64_t *cells, size_t cells_len) {
    if (!ref_good_step(word)) return bad_word_at(0);
    if (cells_len != REF_CELLS) return refused(4);
    if (tape_place > tape_len) return refused(5);
    if (count_rand(&word, 1) > tape_len - tape_place) return refused(6);
    return done(1, ref_run_words(&word, 1, tape + tape_place, cells));
}

/* ---- Translation for n shares ---- */

/* Share i of a register is cell first + step * i: 32i + r for registers, 288 + 8i + h for the adder's helpers. */
typedef struct {
    unsigned first, step;
} shared;

typedef struct {
    unsigned n;
    uint32_t *next;
} emitter;

static unsigned share(shared r, unsigned i) {
    return r.first + r.step * i;
}

static shared reg(unsigned r) {
    return (shared){r, 32};
}

static shared helper(unsigned h) {
    return (shared){288 + h, 8};
}

static const shared Y = {256, 1}, Z = {264, 1};
static const unsigned T_CELL = 272, U_CELL = 273;

static void emit(emitter *e, unsigned kind, unsigned d, unsigned a, unsigned b) {
    *e->next++ = ref_word(kind, d, a, b);
}

static void emit_xor(emitter *e, shared d, shared a, shared b) {
    for (unsigned i = 0; i < e->n; i++) emit(e, REF_XOR, share(d, i), share(a, i), share(b, i));
}

/* SHL, SHR or SPREAD, with the same number b for every share. */
static void emit_each(emitter *e, unsigned kind, shared d, shared a, unsigned b) {
    for (unsigned i = 0; i < e->n; i++) emit(e, kind, share(d, i), share(a, i), b);
}

static void emit_copy(emitter *e, shared d, shared a) {
    emit_each(e, REF_SHL, d, a, 0);
}

static void emit_const(emitter *e, shared d, unsigned high, unsigned low) {
    for (unsigned i = 0; i < e->n; i++) emit(e, REF_CONST, share(d, i), i == 0 ? high : 0, i == 0 ? low : 0);
}

static void emit_not(emitter *e, shared d, shared a) {
    for (unsigned i = 0; i < e->n; i++) emit(e, i == 0 ? REF_NOT : REF_SHL, share(d, i), share(a, i), 0);
}

/* "c XOR e": the result goes to c. */
static void emit_into(emitter *e, unsigned c, unsigned other) {
    emit(e, REF_XOR, c, c, other);
}

static void emit_and(emitter *e, shared d, shared a, shared b) {
    emit_copy(e, Y, b);
    for (unsigned i = 0; i < e->n; i++)
        for (unsigned j = i + 1; j < e->n; j++) {
            emit(e, REF_RAND, T_CELL, 0, 0);
            emit_into(e, share(Y, i), T_CELL);
            emit_into(e, share(Y, j), T_CELL);
        }
    for (unsigned i = 0; i < e->n; i++) emit(e, REF_AND, share(Z, i), share(a, i), share(Y, i));
    for (unsigned i = 0; i < e->n; i++)
        for (unsigned j = i + 1; j < e->n; j++) {
            emit(e, REF_RAND, T_CELL, 0, 0);
            emit_into(e, share(Z, i), T_CELL);
            emit(e, REF_AND, U_CELL, share(a, i), share(Y, j));
            emit_into(e, T_CELL, U_CELL);
            emit(e, REF_AND, U_CELL, share(a, j), share(Y, i));
            emit_into(e, T_CELL, U_CELL);
            emit_into(e, share(Z, j), T_CELL);
        }
    emit_copy(e, d, Z);
    for (unsigned i = 0; i < e->n; i++) emit(e, REF_CONST, share(Y, i), 0, 0);
    for (unsigned i = 0; i < e->n; i++) emit(e, REF_CONST, share(Z, i), 0, 0);
    emit(e, REF_CONST, T_CELL, 0, 0);
    emit(e, REF_CONST, U_CELL, 0, 0);
}

static void emit_add(emitter *e, shared d, shared a, shared b) {
    shared H = helper(0), G = helper(1), P = helper(2), T = helper(3);
    emit_xor(e, H, a, b);
    emit_and(e, G, a, b);
    emit_copy(e, P, H);
    for (unsigned k = 1; k <= 32; k *= 2) {
        emit_each(e, REF_SHL, T, G, k);
        emit_and(e, T, P, T);
        emit_xor(e, G, G, T);
        if (k == 32) break;
        emit_each(e, REF_SHL, T, P, k);
        emit_and(e, P, P, T);
    }
    emit_each(e, REF_SHL, T, G, 1);
    emit_xor(e, d, H, T);
}

static void emit_plan_word(emitter *e, uint32_t word) {
    fields f = take_apart(word);
    switch (f.kind) {
    case REF_CONST: emit_const(e, reg(f.d), f.a, f.b); break;
    case REF_XOR: emit_xor(e, reg(f.d), reg(f.a), reg(f.b)); break;
    case REF_AND: emit_and(e, reg(f.d), reg(f.a), reg(f.b)); break;
    case REF_NOT: emit_not(e, reg(f.d), reg(f.a)); break;
    case REF_ADD: emit_add(e, reg(f.d), reg(f.a), reg(f.b)); break;
    default: emit_each(e, f.kind, reg(f.d), reg(f.a), f.b); break;
    }
}

ref_answer ref_measure(size_t n, const uint32_t *plan, size_t plan_len) {
    if (!share_count_ok(n)) return refused(1);
    if (plan_len > REF_PLAN_LIMIT) return refused(2);
    size_t bad = first_bad(plan, plan_len, ref_good_plan_word);
    if (bad < plan_len) return bad_word_at(bad);
    size_t words = 1, tape = 0, q = n * (n - 1) / 2; /* the head is a word */
    for (size_t i = 0; i < plan_len; i++) {
        unsigned kind = plan[i] >> 28;
        words += kind == REF_AND ? 5 * n * n + 2 : kind == REF_ADD ? 60 * n * n + 21 * n + 24 : n;
        tape += kind == REF_AND ? 2 * q : kind == REF_ADD ? 24 * q : 0;
    }
    return done(words, tape);
}

ref_answer ref_translate(size_t n, const uint32_t *plan, size_t plan_len, uint32_t *out, size_t out_len) {
    ref_answer measured = ref_measure(n, plan, plan_len);
    if (measured.number != 0) return measured;
    if (out_len < measured.words) return refused(4);
    emitter e = {(unsigned)n, out};
    emit(&e, REF_HEAD, (unsigned)n, 0, 0);
    for (size_t i = 0; i < plan_len; i++) emit_plan_word(&e, plan[i]);
    if ((size_t)(e.next - out) != measured.words) abort(); /* the document's lengths and its steps must agree */
    return measured;
}

ref_answer ref_add_head(size_t n, const uint32_t *stored, size_t stored_len, uint32_t *out, size_t out_len) {
    if (!share_count_ok(n)) return refused(1);
    if (stored_len > REF_STORED_LIMIT) return refused(2);
    size_t bad = first_bad(stored, stored_len, ref_good_share_word);
    if (bad < stored_len) return bad_word_at(bad);
    if (out_len < stored_len + 1) return refused(4);
    out[0] = ref_head(n);
    for (size_t i = 0; i < stored_len; i++) out[i + 1] = stored[i];
    return done(stored_len + 1, count_rand(stored, stored_len));
}

/* ---- Operations on shares, split, join ---- */

ref_answer ref_operation(const uint32_t *plan, size_t plan_len, const uint64_t *x, size_t x_len, const uint64_t *y, size_t y_len,
                         uint64_t *result, size_t result_len, uint64_t *work, size_t work_len, const uint64_t *tape, size_t tape_len) {
    size_t n = x_len;
    if (!share_count_ok(n)) return refused(1);
    if ((y && y_len != n) || result_len != n || work_len != REF_CELLS) return refused(4);
    ref_answer measured = ref_measure(n, plan, plan_len);
    if (tape_len < measured.tape) return refused(6);

    uint32_t *program = malloc(measured.words * sizeof *program);
    ref_translate(n, plan, plan_len, program, measured.words);
    memset(work, 0, REF_CELLS * sizeof *work);
    for (size_t i = 0; i < n; i++) {
        work[32 * i] = x[i];
        if (y) work[32 * i + 1] = y[i];
    }
    size_t used = ref_run_words(program, measured.words, tape, work);
    for (size_t i = 0; i < n; i++) result[i] = work[32 * i + 2];
    memset(work, 0, REF_CELLS * sizeof *work);
    free(program);
    return done(0, used);
}

ref_answer ref_split(uint64_t word, const uint64_t *tape, size_t tape_len, uint64_t *out, size_t out_len) {
    size_t n = out_len;
    if (!share_count_ok(n)) return refused(1);
    if (tape_len < n - 1) return refused(6);
    out[0] = word;
    for (size_t i = 1; i < n; i++) {
        out[i] = tape[i - 1];
        out[0] ^= tape[i - 1];
    }
    return done(0, 0);
}

ref_answer ref_join(const uint64_t *shares, size_t shares_len, uint64_t *word) {
    *word = 0;
    if (!share_count_ok(shares_len)) return refused(1);
    for (size_t i = 0; i < shares_len; i++) *word ^= shares[i];
    return done(0, 0);
}

/* ---- Numbers: exact magnitudes as whole multiples of 2^-2148 ---- */

enum { LIMBS = 66 }; /* 4,224 bits; the greatest product has 4,198 */

typedef struct {
    uint64_t limb[LIMBS];
} magnitude;

static unsigned sign_of(uint64_t x) {
    return x >> 63;
}

static unsigned exponent_of(uint64_t x) {
    return x >> 52 & 2047;
}

static uint64_t significand_of(uint64_t x) {
    return (UINT64_C(1) << 52) + (x & ((UINT64_C(1) << 52) - 1));
}

static uint64_t zero_of_sign(unsigned sign) {
    return (uint64_t)sign << 63;
}

/* whole * 2^shift multiples of 2^-2148. */
static magnitude multiples(unsigned __int128 whole, unsigned shift) {
    magnitude m = {{0}};
    for (unsigned bit = 0; bit < 128; bit++)
        if (whole >> bit & 1) m.limb[(shift + bit) / 64] |= UINT64_C(1) << (shift + bit) % 64;
    return m;
}

/* An operand's magnitude: (2^52 + F) * 2^(E - 1075), or zero where E = 0. */
static magnitude magnitude_of(uint64_t x) {
    unsigned exponent = exponent_of(x);
    return exponent == 0 ? (magnitude){{0}} : multiples(significand_of(x), exponent - 1075 + 2148);
}

static int compare(const magnitude *a, const magnitude *b) {
    for (int i = LIMBS - 1; i >= 0; i--)
        if (a->limb[i] != b->limb[i]) return a->limb[i] < b->limb[i] ? -1 : 1;
    return 0;
}

static magnitude add(const magnitude *a, const magnitude *b) {
    magnitude s;
    unsigned __int128 carry = 0;
    for (int i = 0; i < LIMBS; i++) {
        carry += (unsigned __int128)a->limb[i] + b->limb[i];
        s.limb[i] = (uint64_t)carry;
        carry >>= 64;
    }
    return s;
}

/* a - b where a is at least b. */
static magnitude subtract(const magnitude *a, const magnitude *b) {
    magnitude s;
    unsigned borrow = 0;
    for (int i = 0; i < LIMBS; i++) {
        unsigned __int128 taken = (unsigned __int128)b->limb[i] + borrow;
        s.limb[i] = (uint64_t)(a->limb[i] - taken);
        borrow = a->limb[i] < taken;
    }
    return s;
}

static unsigned bit_length(const magnitude *m) {
    for (unsigned i = LIMBS; i-- > 0;)
        if (m->limb[i]) {
            unsigned bits = 64 * i;
            for (uint64_t rest = m->limb[i]; rest; rest >>= 1) bits++;
            return bits;
        }
    return 0;
}

static unsigned bit_at(const magnitude *m, unsigned place) {
    return m->limb[place / 64] >> place % 64 & 1;
}

static bool any_bit_below(const magnitude *m, unsigned place) {
    for (unsigned i = 0; i < place / 64; i++)
        if (m->limb[i]) return true;
    return place % 64 != 0 && m->limb[place / 64] << (64 - place % 64) != 0;
}

/* A result that is not zero: to zero below 2^-1022, else rounded to 53 bits, nearest, ties to even, E at most 2047. */
static uint64_t round_exact(unsigned sign, const magnitude *m) {
    unsigned bits = bit_length(m);
    if (bits <= 2148 - 1022) return zero_of_sign(sign);
    unsigned dropped = bits - 53;
    uint64_t kept = 0;
    for (unsigned i = 53; i-- > 0;) kept = 2 * kept + bit_at(m, dropped + i);
    bool half = bit_at(m, dropped - 1), rest = any_bit_below(m, dropped - 1);
    if (half && (rest || kept % 2 == 1)) kept++;
    if (kept == UINT64_C(1) << 53) {
        kept /= 2;
        dropped++;
    }
    unsigned exponent = dropped - 2148 + 1075;
    if (exponent >= 2047) return zero_of_sign(sign) | UINT64_C(2047) << 52;
    return zero_of_sign(sign) | (uint64_t)exponent << 52 | (kept - (UINT64_C(1) << 52));
}

uint64_t ref_product(uint64_t a, uint64_t b) {
    unsigned sign = sign_of(a) ^ sign_of(b);
    if (exponent_of(a) == 0 || exponent_of(b) == 0) return zero_of_sign(sign);
    unsigned __int128 whole = (unsigned __int128)significand_of(a) * significand_of(b);
    magnitude exact = multiples(whole, exponent_of(a) + exponent_of(b) - 2 * 1075 + 2148);
    return round_exact(sign, &exact);
}

uint64_t ref_sum(uint64_t a, uint64_t b) {
    magnitude ma = magnitude_of(a), mb = magnitude_of(b), exact;
    if (exponent_of(a) == 0 && exponent_of(b) == 0) return zero_of_sign(sign_of(a) & sign_of(b));
    if (sign_of(a) == sign_of(b)) {
        exact = add(&ma, &mb);
        return round_exact(sign_of(a), &exact);
    }
    int order = compare(&ma, &mb);
    if (order == 0) return 0;
    exact = order > 0 ? subtract(&ma, &mb) : subtract(&mb, &ma);
    return round_exact(order > 0 ? sign_of(a) : sign_of(b), &exact);
}

/* A whole number of at most 53 bits, which no rounding changes. */
static uint64_t whole_number(unsigned sign, uint64_t whole) {
    magnitude exact = multiples(whole, 2148);
    return whole == 0 ? zero_of_sign(sign) : round_exact(sign, &exact);
}

/* "floor of any operand with E = 0 is the zero of its sign", "Other negatives above -1 still give -1". */
uint64_t ref_floor(uint64_t a) {
    unsigned exponent = exponent_of(a), sign = sign_of(a);
    if (exponent == 0) return zero_of_sign(sign);
    if (exponent >= 1075) return a;
    if (exponent < 1023) return sign ? UINT64_C(0xBFF0000000000000) : 0;
    unsigned below_point = 1075 - exponent;
    uint64_t whole = significand_of(a) >> below_point;
    if (sign && whole << below_point != significand_of(a)) whole++;
    return whole_number(sign, whole);
}

/* The 53 bits above the point: all that a magnitude below 2^53 has there. */
static uint64_t without_fraction(const magnitude *m) {
    uint64_t whole = 0;
    for (unsigned i = 53; i-- > 0;) whole = 2 * whole + bit_at(m, 2148 + i);
    return whole;
}

/* "Truncation drops the fraction", and keeps the sign: where E = 0 the magnitude is 0, and so is what is kept of it. */
uint64_t ref_truncate(uint64_t a) {
    if (exponent_of(a) >= 1075) return a;
    magnitude m = magnitude_of(a);
    return whole_number(sign_of(a), without_fraction(&m));
}

/* "nearest takes a tie to the even whole number", and keeps the sign likewise. */
uint64_t ref_nearest(uint64_t a) {
    if (exponent_of(a) >= 1075) return a;
    magnitude m = magnitude_of(a);
    uint64_t whole = without_fraction(&m);
    bool half = bit_at(&m, 2147), rest = any_bit_below(&m, 2147);
    if (half && (rest || whole % 2 == 1)) whole++;
    return whole_number(sign_of(a), whole);
}
