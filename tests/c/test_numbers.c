/* Groups: plain operations, plan copies. */
#include <fenv.h>
#include <math.h>
#include <stdio.h>
#include <string.h>

#include "calls.h"
#include "check.h"
#include "operands.h"
#include "tests.h"

/* ---- Plain operations, against the reference and native doubles ---- */

/* Operands that the documents and IEEE 754 read alike: normal numbers and true zeros. */
static bool ordinary(uint64_t x) {
    uint64_t exponent = x >> 52 & 2047;
    return (exponent >= 1 && exponent <= 2046) || x << 1 == 0;
}

static const uint64_t sign_bit = UINT64_C(1) << 63, least_normal = UINT64_C(1) << 52;

static uint64_t significand(uint64_t x) {
    return least_normal | (x & (least_normal - 1));
}

/* Whether the exact product of two normal numbers is below 2^-1022: their significands are multiples of 2^-52, so that the product of these,
 * below 2^106, is one of 2^-104. */
static bool product_below(uint64_t a, uint64_t b) {
    unsigned __int128 whole = (unsigned __int128)significand(a) * significand(b);
    unsigned top = whole >> 105 ? 105 : 104;
    return (a >> 52 & 2047) + (b >> 52 & 2047) + top < 1128;
}

/* Comparisons with native results; results that document 01 makes zeros, and those among them that natively come out at 2^-1022. */
static unsigned long natives, zeros, rounded_up;

static void try_native_product(uint64_t a, uint64_t b, uint64_t native) {
    uint64_t got = lubewon_product(a, b);
    if (a << 1 == 0 || b << 1 == 0 || !product_below(a, b)) {
        CHECK(got == native, "product of %016lX, %016lX differs from native %016lX", a, b, native);
        natives++;
        return;
    }
    CHECK(got == ((a ^ b) & sign_bit), "product of %016lX, %016lX below 2^-1022 is %016lX", a, b, got);
    zeros++;
    if ((native & ~sign_bit) == least_normal) rounded_up++;
}

/* A native sum below 2^-1022 is exact. */
static void try_native_sum(uint64_t a, uint64_t b, uint64_t native) {
    uint64_t got = lubewon_sum(a, b);
    if (native << 1 == 0 || (native & ~sign_bit) >= least_normal) {
        CHECK(got == native, "sum of %016lX, %016lX differs from native %016lX", a, b, native);
        natives++;
        return;
    }
    CHECK(got == (native & sign_bit), "sum of %016lX, %016lX below 2^-1022 is %016lX", a, b, got);
    zeros++;
}

/* The roundings to a whole number are native ones, for all ordinary operands. */
static void try_native_whole(uint64_t a) {
    static const struct {
        int operation;
        double (*native)(double);
    } roundings[] = {{FLOOR, floor}, {TRUNCATE, trunc}, {NEAREST, nearbyint}, {NEAREST, rint}};
    if (!ordinary(a)) return;
    for (size_t i = 0; i < COUNT(roundings); i++) {
        const operation *op = &operations[roundings[i].operation];
        uint64_t got = op->plain(a, 0), native = as_bits(roundings[i].native(as_double(a)));
        CHECK(got == native, "%s of %016lX is %016lX, natively %016lX", op->name, a, got, native);
        natives++;
    }
}

static void try_native(uint64_t a, uint64_t b) {
    volatile double x = as_double(a), y = as_double(b); /* no contraction, no folding */
    if (ordinary(a) && ordinary(b)) {
        try_native_product(a, b, as_bits(x * y));
        try_native_sum(a, b, as_bits(x + y));
    }
    try_native_whole(a);
}

static void try_pair(uint64_t a, uint64_t b) {
    for (size_t i = 0; i < COUNT(operations); i++) try_plain(&operations[i], a, b);
    CHECK(lubewon_sum(a, b) == lubewon_sum(b, a), "sum of %016lX, %016lX in the other order", a, b);
    CHECK(lubewon_product(a, b) == lubewon_product(b, a), "product of %016lX, %016lX in the other order", a, b);
    try_native(a, b);
}

static void exponent_distances(void) {
    for (unsigned distance = 0; distance <= 70; distance++)
        for (int round = 0; round < 1500; round++) {
            uint64_t exponent = distance + below(2048 - distance), sign = below(2);
            uint64_t a = pack(sign, exponent, random_fraction());
            uint64_t b = pack(round % 2 ? sign : !sign, exponent - distance, random_fraction());
            if (round % 4 < 2) try_pair(a, b);
            else try_pair(b, a);
        }
}

/* Products at 2^-1022, just above and just below: there alone a native product rounds up to it and document 01's is a zero. */
static void boundary(void) {
    for (int round = 0; round < 200000; round++) {
        uint64_t exponent = 1 + below(1022), x = significand(random_fraction());
        uint64_t y = (uint64_t)(((unsigned __int128)1 << 105) / x) + below(4) - 1;
        if (y < least_normal || y >= 2 * least_normal) continue;
        try_pair(pack(below(2), exponent, x - least_normal), pack(below(2), 1023 - exponent, y - least_normal));
    }
    try_pair(UINT64_C(0x0010000000000001), UINT64_C(0x3FEFFFFFFFFFFFFE)); /* just below */
    try_pair(UINT64_C(0x0010000000000001), UINT64_C(0x3FEFFFFFFFFFFFFF)); /* just above */
    try_pair(UINT64_C(0x0010000000000000), UINT64_C(0x3FF0000000000000)); /* at */
}

/* Whole numbers, numbers halfway between two of them, and the neighbours of both. */
static void whole_numbers_and_ties(void) {
    for (uint64_t exponent = 1015; exponent <= 1085; exponent++)
        for (int round = 0; round < 3000; round++) {
            unsigned cut = exponent < 1023 || exponent > 1075 ? 52 : 1075 - exponent;
            uint64_t whole = random_fraction() & UINT64_MAX << cut, half = round % 2 ? (UINT64_C(1) << cut) / 2 : 0;
            uint64_t a = pack(below(2), exponent, whole + half + below(3) - 1);
            for (int i = FLOOR; i <= NEAREST; i++) try_plain(&operations[i], a, 0);
            try_native_whole(a);
        }
}

void test_plain_operations(void) {
    uint64_t numbers[400], a, b;
    size_t count = edge_numbers(numbers);
    begin("plain operations");
    CHECK(fegetround() == FE_TONEAREST, "native arithmetic does not round to nearest");
    for (size_t i = 0; i < edges; i++) {
        uint64_t got = try_plain(&operations[edge_table[i].operation], edge_table[i].a, edge_table[i].b);
        CHECK(got == edge_table[i].result, "edge table, row %zu: %016lX", i, got);
    }
    for (size_t i = 0; i < count; i++)
        for (size_t j = 0; j < count; j++) try_pair(numbers[i], numbers[j]);
    exponent_distances();
    whole_numbers_and_ties();
    boundary();
    for (int round = 0; round < 1000000; round++) {
        random_pair(&a, &b);
        try_pair(a, b);
    }
    CHECK(natives > 2000000, "only %lu comparisons with native binary64", natives);
    CHECK(rounded_up > 10000, "only %lu products just below 2^-1022", rounded_up);
    printf("%-20s %lu results as native; %lu below 2^-1022, zeros here, of which natively %lu round up to it\n", "", natives, zeros, rounded_up);
    end("edge table, all pairs of edge operands, exponent distances 0..70, whole numbers and ties, around 2^-1022, random pairs; "
        "against reference and native doubles");
}

/* ---- Plan copies ---- */

static void copy_plan(operation *op) {
    lubewon_answer answer = op->copy(op->plan, REF_PLAN_LIMIT);
    CHECK(answer.number == 0 && answer.place == 0 && answer.tape == 0, "%s plan: answer", op->name);
    CHECK(answer.words >= 1 && answer.words <= REF_PLAN_LIMIT, "%s plan: %zu words", op->name, answer.words);
    op->plan_len = answer.words;
    for (size_t k = 0; k < op->plan_len; k++) CHECK(ref_good_plan_word(op->plan[k]), "%s plan: bad word at %zu", op->name, k);
}

static void copies_of_every_length(const operation *op) {
    static uint32_t out[REF_PLAN_LIMIT + 8], before[REF_PLAN_LIMIT + 8];
    for (size_t len = 0; len <= op->plan_len + 8 && len <= COUNT(out); len++) { /* every length up to past the end */
        bool fits = len >= op->plan_len;
        for (size_t k = 0; k < COUNT(out); k++) out[k] = before[k] = (uint32_t)random_word();
        lubewon_answer answer = op->copy(out, len);
        CHECK(answer.number == (fits ? 0 : 4) && answer.place == 0 && answer.words == (fits ? op->plan_len : 0) && answer.tape == 0,
              "%s plan into %zu words: number %u words %zu", op->name, len, answer.number, answer.words);
        size_t written = fits ? op->plan_len : 0;
        CHECK(memcmp(out, op->plan, written * sizeof *out) == 0, "%s plan into %zu words: other words", op->name, len);
        CHECK(memcmp(out + written, before + written, (COUNT(out) - written) * sizeof *out) == 0,
              "%s plan into %zu words: words changed past the end", op->name, len);
    }
}

static void plan_on_random_pairs(const operation *op) {
    uint64_t registers[REF_REGISTERS], a, b;
    for (int round = 0; round < 30000; round++) { /* other registers zero, or holding anything */
        random_pair(&a, &b);
        memset(registers, 0, sizeof registers);
        if (round % 2) fill(registers, REF_REGISTERS);
        registers[0] = a;
        registers[1] = b;
        CHECK(lubewon_plain_run(op->plan, op->plan_len, registers, REF_REGISTERS).number == 0, "%s plan: plain run", op->name);
        CHECK(registers[2] == op->reference(a, b), "%s plan of %016lX, %016lX gives %016lX", op->name, a, b, registers[2]);
    }
}

static void plans_on_the_edge_table(void) {
    for (size_t i = 0; i < edges; i++) {
        const operation *op = &operations[edge_table[i].operation];
        uint64_t registers[REF_REGISTERS] = {edge_table[i].a, edge_table[i].b};
        try_plain_run(0, op->plan, op->plan_len, registers, REF_REGISTERS);
        CHECK(registers[2] == edge_table[i].result, "%s plan: edge table, row %zu", op->name, i);
    }
}

/* Leaves each operation's plan in its row; the groups after this one read it there. */
void test_plan_copies(void) {
    begin("plan copies");
    for (size_t i = 0; i < COUNT(operations); i++) {
        copy_plan(&operations[i]);
        copies_of_every_length(&operations[i]);
        plan_on_random_pairs(&operations[i]);
    }
    plans_on_the_edge_table();
    end("turn-down 4 at every length, words good, result in register 2 against the reference");
}
