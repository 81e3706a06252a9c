/* Operands of the operations: see operands.h. */
#include "operands.h"

#include "calls.h"
#include "check.h"

uint64_t pack(uint64_t sign, uint64_t exponent, uint64_t fraction) {
    return sign << 63 | (exponent & 2047) << 52 | (fraction & ((UINT64_C(1) << 52) - 1));
}

uint64_t random_fraction(void) {
    switch (below(8)) {
    case 0: return 0;
    case 1: return UINT64_MAX;
    case 2: return UINT64_C(1) << below(52);
    case 3: return (UINT64_C(1) << below(53)) - 1;
    case 4: return UINT64_MAX << below(53);
    case 5: return (UINT64_C(1) << below(52)) + (UINT64_C(1) << below(52));
    default: return random_word();
    }
}

static uint64_t random_exponent(void) {
    switch (below(6)) {
    case 0: return below(4);
    case 1: return 2044 + below(4);
    case 2: return 1020 + below(60);
    case 3: return 953 + below(140);
    default: return below(2048);
    }
}

static uint64_t random_number(void) {
    return pack(below(2), random_exponent(), random_fraction());
}

void random_pair(uint64_t *a, uint64_t *b) {
    uint64_t exponent = random_exponent(), fraction = random_fraction(), sign = below(2);
    *a = pack(sign, exponent, fraction);
    switch (below(7)) {
    case 0: *b = pack(below(2), exponent - below(71), random_fraction()); break;       /* exponent distances */
    case 1: *b = pack(!sign, exponent, fraction) + below(9) - 4; break;                /* near cancellation */
    case 2: *b = pack(!sign, exponent - 1, random_fraction()); break;                  /* and across a power of two */
    case 3: *b = pack(below(2), 1023 - exponent + below(5), random_fraction()); break; /* products about 2^-1022 */
    case 4: *b = pack(below(2), 3070 - exponent - below(4), random_fraction()); break; /* products about 2^1024 */
    case 5: *b = below(2) ? random_word() : pack(below(2), random_exponent(), UINT64_C(1) << 51); break;
    default: *b = random_number(); break;
    }
    if (below(2)) {
        uint64_t other = *a;
        *a = *b;
        *b = other;
    }
}

/* What the roundings to a whole number give for one operand. */
#define WHOLE(a, floor, truncated, nearest) {FLOOR, a, 0, floor}, {TRUNCATE, a, 0, truncated}, {NEAREST, a, 0, nearest}

const edge edge_table[] = {
    /* document 01's table */
    {PRODUCT, 0x3FF8000000000000, 0x3FF8000000000000, 0x4002000000000000},
    {PRODUCT, 0x0010000000000000, 0x3FE0000000000000, 0},
    {PRODUCT, 0x001FFFFFFFFFFFFF, 0x3FE0000000000000, 0},
    {PRODUCT, 0x7FEFFFFFFFFFFFFF, 0x4000000000000000, 0x7FF0000000000000},
    {SUM, 0x3FF0000000000000, 0x3CA0000000000000, 0x3FF0000000000000},
    {SUM, 0x3FF0000000000001, 0x3CA0000000000000, 0x3FF0000000000002},
    {SUM, 0x8000000000000000, 0x8000000000000000, 0x8000000000000000},
    {SUM, 0x3FF0000000000000, 0xBFF0000000000000, 0},
    {SUM, 0x0000000000000001, 0x3FF0000000000000, 0x3FF0000000000000},
    {FLOOR, 0xBFF8000000000000, 0, 0xC000000000000000},
    {FLOOR, 0xC32FFFFFFFFFFFFF, 0, 0xC330000000000000},
    {FLOOR, 0x4330000000000001, 0, 0x4330000000000001},
    /* zeros, and E = 2047 as a number */
    {PRODUCT, 0x8000000000000000, 0x3FF0000000000000, 0x8000000000000000},
    {PRODUCT, 0x8000000000000000, 0x8000000000000001, 0},
    {PRODUCT, 0x000FFFFFFFFFFFFF, 0xFFF8000000000000, 0x8000000000000000},
    {PRODUCT, 0x7FF0000000000000, 0x3FE0000000000000, 0x7FE0000000000000},
    {SUM, 0x0000000000000000, 0x8000000000000000, 0},
    {SUM, 0x800FFFFFFFFFFFFF, 0x8000000000000001, 0x8000000000000000},
    {SUM, 0x7FF8000000000000, 0x0000000000000000, 0x7FF0000000000000},
    {SUM, 0x7FF0000000000000, 0xFFF0000000000000, 0},
    {SUM, 0x7FEFFFFFFFFFFFFF, 0x7C90000000000000, 0x7FF0000000000000},
    {SUM, 0x0010000000000001, 0x8010000000000000, 0},
    {SUM, 0x0010000000000000, 0x8010000000000001, 0x8000000000000000},
    /* floor, truncation and nearest of zeros, of E = 0 with F, of the least normal numbers, and on both sides of 0.5 and of 1 */
    WHOLE(0x0000000000000000, 0, 0, 0),
    WHOLE(0x8000000000000000, 0x8000000000000000, 0x8000000000000000, 0x8000000000000000),
    WHOLE(0x0000000000000001, 0, 0, 0),
    WHOLE(0x000FFFFFFFFFFFFF, 0, 0, 0),
    WHOLE(0x8000000000000001, 0x8000000000000000, 0x8000000000000000, 0x8000000000000000),
    WHOLE(0x800FFFFFFFFFFFFF, 0x8000000000000000, 0x8000000000000000, 0x8000000000000000),
    WHOLE(0x0010000000000000, 0, 0, 0),
    WHOLE(0x8010000000000000, 0xBFF0000000000000, 0x8000000000000000, 0x8000000000000000),
    WHOLE(0x3FDFFFFFFFFFFFFF, 0, 0, 0),
    WHOLE(0xBFDFFFFFFFFFFFFF, 0xBFF0000000000000, 0x8000000000000000, 0x8000000000000000),
    WHOLE(0x3FE0000000000000, 0, 0, 0),
    WHOLE(0xBFE0000000000000, 0xBFF0000000000000, 0x8000000000000000, 0x8000000000000000),
    WHOLE(0x3FE0000000000001, 0, 0, 0x3FF0000000000000),
    WHOLE(0xBFE0000000000001, 0xBFF0000000000000, 0x8000000000000000, 0xBFF0000000000000),
    WHOLE(0x3FEFFFFFFFFFFFFF, 0, 0, 0x3FF0000000000000),
    WHOLE(0xBFEFFFFFFFFFFFFF, 0xBFF0000000000000, 0x8000000000000000, 0xBFF0000000000000),
    WHOLE(0xBFF0000000000000, 0xBFF0000000000000, 0xBFF0000000000000, 0xBFF0000000000000),
    WHOLE(0x3FF0000000000001, 0x3FF0000000000000, 0x3FF0000000000000, 0x3FF0000000000000),
    WHOLE(0xBFF0000000000001, 0xC000000000000000, 0xBFF0000000000000, 0xBFF0000000000000),
    /* 1.5 and 2.5, and the same below zero */
    WHOLE(0x3FF8000000000000, 0x3FF0000000000000, 0x3FF0000000000000, 0x4000000000000000),
    WHOLE(0xBFF8000000000000, 0xC000000000000000, 0xBFF0000000000000, 0xC000000000000000),
    WHOLE(0x4004000000000000, 0x4000000000000000, 0x4000000000000000, 0x4000000000000000),
    WHOLE(0xC004000000000000, 0xC008000000000000, 0xC000000000000000, 0xC000000000000000),
    /* E = 1074: 2^51 + 0.5, 2^51 + 1.5 and 2^52 - 0.5; E = 1075; E = 2047 */
    WHOLE(0x4320000000000001, 0x4320000000000000, 0x4320000000000000, 0x4320000000000000),
    WHOLE(0xC320000000000001, 0xC320000000000002, 0xC320000000000000, 0xC320000000000000),
    WHOLE(0x4320000000000003, 0x4320000000000002, 0x4320000000000002, 0x4320000000000004),
    WHOLE(0x432FFFFFFFFFFFFF, 0x432FFFFFFFFFFFFE, 0x432FFFFFFFFFFFFE, 0x4330000000000000),
    WHOLE(0xC32FFFFFFFFFFFFF, 0xC330000000000000, 0xC32FFFFFFFFFFFFE, 0xC330000000000000),
    WHOLE(0x4330000000000001, 0x4330000000000001, 0x4330000000000001, 0x4330000000000001),
    WHOLE(0xC330000000000001, 0xC330000000000001, 0xC330000000000001, 0xC330000000000001),
    WHOLE(0x7FF8000000000001, 0x7FF8000000000001, 0x7FF8000000000001, 0x7FF8000000000001),
    WHOLE(0xFFF0000000000000, 0xFFF0000000000000, 0xFFF0000000000000, 0xFFF0000000000000),
    WHOLE(0xFFFFFFFFFFFFFFFF, 0xFFFFFFFFFFFFFFFF, 0xFFFFFFFFFFFFFFFF, 0xFFFFFFFFFFFFFFFF),
};

const size_t edges = COUNT(edge_table);

size_t edge_numbers(uint64_t *numbers) {
    static const uint64_t exponents[] = {0,    1,    2,    52,   53,   54,   511,  1021, 1022, 1023, 1024,
                                         1025, 1049, 1073, 1074, 1075, 1076, 1535, 2045, 2046, 2047};
    static const uint64_t fractions[] = {0, 1, 2, UINT64_C(1) << 51, (UINT64_C(1) << 51) + 1, UINT64_MAX - 1, UINT64_MAX};
    size_t count = 0;
    for (size_t e = 0; e < COUNT(exponents); e++)
        for (size_t f = 0; f < COUNT(fractions); f++)
            for (uint64_t sign = 0; sign < 2; sign++) numbers[count++] = pack(sign, exponents[e], fractions[f]);
    return count;
}
