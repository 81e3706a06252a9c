/* Random plans, programs, words and heads: see input.h. */
#include "input.h"

#include "check.h"
#include "reference.h"

/* Registers are drawn from a few, so that many steps have equal ones. */
static unsigned random_register(void) {
    return below(2) ? below(4) : below(32);
}

/* Registers that hold something: 0 to 7 at the start of a plan, which carry its input, and those written since. */
#define INPUT_REGISTERS UINT32_C(0xFF)

static unsigned register_of(uint32_t set) {
    for (;;) {
        unsigned r = random_register();
        if (set >> r & 1) return r;
    }
}

static uint32_t plan_word_over(unsigned kind, uint32_t set) {
    unsigned d = random_register(), a = register_of(set), b = below(3) ? register_of(set) : a;
    switch (kind) {
    case REF_CONST: return ref_word(kind, d, below(512), below(512));
    case REF_NOT:
    case REF_SPREAD: return ref_word(kind, d, a, 0);
    case REF_SHL:
    case REF_SHR: return ref_word(kind, d, a, below(64));
    default: return ref_word(kind, below(3) ? d : a, a, b);
    }
}

uint32_t plan_word_of(unsigned kind) {
    return plan_word_over(kind, INPUT_REGISTERS);
}

void random_plan(uint32_t *plan, size_t len) {
    uint32_t set = INPUT_REGISTERS;
    for (size_t i = 0; i < len; i++) {
        plan[i] = plan_word_over(1 + below(8), set);
        set |= UINT32_C(1) << (plan[i] >> 18 & 31);
    }
}

uint32_t random_share_word(void) {
    unsigned kind = 1 + below(8), d = below(512), a = below(512), b = below(512);
    if (kind == 8) return ref_word(REF_RAND, d, 0, 0);
    if (kind == REF_NOT || kind == REF_SPREAD) b = 0;
    if (kind == REF_SHL || kind == REF_SHR) b &= 63;
    return ref_word(kind, d, a, b);
}

void random_program(uint32_t *program, size_t len) {
    for (size_t i = 0; i < len; i++) program[i] = random_share_word();
}

uint32_t bad_plan_word(void) {
    switch (below(8)) {
    case 0: return 0x00080001;
    case 1: return ref_word(REF_RAND, below(32), 0, 0);
    case 2: return plan_word_of(1 + below(8)) | UINT32_C(1) << 27;
    case 3: return ref_word(REF_CONST, 32 + below(480), below(512), below(512));
    case 4: return ref_word(REF_ADD, below(32), 32 + below(480), below(32));
    case 5: return ref_word(REF_AND, below(32), below(32), 32 + below(480));
    case 6: return ref_word(below(2) ? REF_NOT : REF_SPREAD, below(32), below(32), 1 + below(511));
    default: return ref_word(below(2) ? REF_SHL : REF_SHR, below(32), below(32), 64 + below(448));
    }
}

uint32_t bad_share_word(void) {
    switch (below(8)) {
    case 0: return 0x00080001;
    case 1: return ref_word(REF_ADD, below(512), below(512), below(512));
    case 2: return random_share_word() | UINT32_C(1) << 27;
    case 3: return ref_word(REF_RAND, below(512), 1 + below(511), 0);
    case 4: return ref_word(REF_RAND, below(512), 0, 1 + below(511));
    case 5: return ref_word(10 + below(6), below(512), 1 + below(511), below(512));
    case 6: return ref_head(below(4) ? 9 + below(503) : below(2));
    default: return ref_word(below(2) ? REF_SHL : REF_SHR, below(512), below(512), 64 + below(448));
    }
}

uint32_t bad_behind_head(void) {
    return below(4) ? bad_share_word() : ref_head(2 + below(7));
}

static uint32_t any_first_word(size_t n) {
    switch (below(6)) {
    case 0: return ref_head(2 + below(7));
    case 1: return ref_head(below(512));
    case 2: return ref_head(n) | UINT32_C(1) << below(18);
    case 3: return ref_head(n) | UINT32_C(1) << 27;
    case 4: return random_share_word();
    default: return bad_share_word();
    }
}

uint32_t wrong_head(size_t n) {
    for (;;) {
        uint32_t word = any_first_word(n);
        if (word != ref_head(n)) return word;
    }
}

size_t plan_with(uint32_t *plan, bool too_long, bool bad) {
    size_t len = too_long ? REF_PLAN_LIMIT + 1 + below(3) : bad + below(60);
    random_plan(plan, len);
    for (size_t left = bad ? 1 + below(3) : 0; left > 0; left--) plan[below(len)] = bad_plan_word();
    return len;
}

static const size_t bad_share_counts[] = {0, 1, 9, 10, 64, 258, (size_t)1 << 32 | 2, SIZE_MAX};

size_t bad_share_count(void) {
    return bad_share_counts[below(COUNT(bad_share_counts))];
}

uint32_t first_that_applies(unsigned mask, const uint32_t *numbers, size_t count) {
    for (size_t i = 0; i < count; i++)
        if (mask >> i & 1) return numbers[i];
    return 0;
}
