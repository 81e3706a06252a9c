/* What the runs had in each slot, tallied by group for Welch's t: each bit, and the weight (number of ones), of the word that a step writes and
 * of the transition (that word exclusive-or the one that it replaces). Words are counted by their difference from the first run's, which leaves t
 * as it is and costs nothing where the word is the same in all runs; the others are live, and numbered from 1. The 64 bits of a word are counted
 * at once: plane k of a tally has the binary digit k of each bit's count. The runs of a group are tallied in batches of 15, since the sum of 15
 * bits has four digits, which stay in registers. Where a step writes 16 bytes, the two halves exclusive-or each other are counted too, as one
 * more word: two shares side by side give it away. */
#include "leak.h"
#include <math.h>
#include <stdlib.h>

enum { PLANES = 17, BATCH = 15, HALVES = KINDS, COUNTED = 2 * KINDS }; /* kind + HALVES: of two halves together */
typedef struct {
    uint64_t plane[PLANES];
    int32_t sum; /* of the weight's differences */
    uint32_t squares;
} tally;

static uint64_t first[COUNTED][SLOTS];
static uint32_t live[COUNTED][SLOTS], lives; /* number of a slot's word, 0 while it is the same in all runs */
static uint64_t *first_of, *batch[2][BATCH]; /* by number: the first run's word; each run's difference from it */
static tally *tallies[2];
static uint32_t runs[2], waiting[2];
static bool same_way = true, paired[SLOTS]; /* with the slot after it: 16 bytes written at once */
static size_t pairs;

static bool leads(size_t s) {
    return slots[s].kind == 'R' || slots[s].kind == 'M';
}

static void *zeros(size_t size) {
    void *lent = calloc(KINDS * (slots_used + pairs) + 1, size);
    if (!lent) fail("out of memory", 0);
    return lent;
}

static void find_pairs(void) {
    for (size_t s = 0; s < steps; s++) {
        for (size_t k = path[s].slot; k + 1 < path[s + 1].slot; k++) {
            const slot *low = &slots[k], *high = low + 1;
            paired[k] = high->kind == 'h' || (low->kind == 'm' && high->kind == 'm' && high->at == low->at + 8);
            pairs += paired[k];
        }
    }
}

void start_counts(void) {
    find_pairs();
    first_of = zeros(sizeof *first_of);
    for (int group = 0; group < 2; group++) {
        tallies[group] = zeros(sizeof **tallies);
        for (int k = 0; k < BATCH; k++) batch[group][k] = zeros(sizeof ***batch);
    }
    for (size_t s = 0; s < slots_used; s++) {
        uint64_t word = leads(s) ? before[s] : after[s] & slots[s].mask;
        first[WORDS][s] = word, first[TRANSITIONS][s] = word ^ (before[s] & slots[s].mask);
    }
    for (size_t s = 0; s + 1 < slots_used; s++)
        for (int kind = 0; kind < KINDS && paired[s]; kind++) first[kind + HALVES][s] = first[kind][s] ^ first[kind][s + 1];
}

/* Adds a number of four digits to each bit's count. */
static void add(tally *t, const uint64_t *digit) {
    uint64_t carry = 0;
    for (int k = 0; k < PLANES && (k < 4 || carry); k++) {
        uint64_t more = k < 4 ? digit[k] : 0, was = t->plane[k];
        t->plane[k] = was ^ more ^ carry, carry = (was & more) | (carry & (was ^ more));
    }
}

static void tally_batch(int group) {
    for (uint32_t i = 1; i <= lives; i++) {
        tally *t = &tallies[group][i];
        uint64_t digit[4] = {0, 0, 0, 0};
        int base = __builtin_popcountll(first_of[i]);
        for (uint32_t k = 0; k < waiting[group]; k++) {
            uint64_t word = batch[group][k][i], carry = word;
            int more = __builtin_popcountll(word ^ first_of[i]) - base;
            t->sum += more, t->squares += (uint32_t)(more * more);
            for (int d = 0; d < 4; d++) {
                uint64_t was = digit[d];
                digit[d] = was ^ carry, carry &= was;
            }
        }
        add(t, digit);
    }
    waiting[group] = 0;
}

static void put(size_t s, int kind, uint64_t word, uint64_t *row) {
    uint64_t difference = word ^ first[kind][s];
    if (!live[kind][s] && difference) live[kind][s] = ++lives, first_of[lives] = first[kind][s];
    if (live[kind][s]) row[live[kind][s]] = difference;
}

void count(int group) {
    uint64_t *row = batch[group][waiting[group]];
    if (++runs[group] >> PLANES) fail("too many runs", 0);
    for (size_t s = 0; s < slots_used; s++) {
        uint64_t word = after[s] & slots[s].mask, old = before[s] & slots[s].mask;
        if (leads(s)) same_way &= before[s] == first[WORDS][s];
        else put(s, WORDS, word, row), put(s, TRANSITIONS, word ^ old, row);
        if (!paired[s]) continue;
        uint64_t high = after[s + 1] & slots[s + 1].mask, high_old = before[s + 1] & slots[s + 1].mask;
        put(s, WORDS + HALVES, word ^ high, row), put(s, TRANSITIONS + HALVES, word ^ old ^ high ^ high_old, row);
    }
    if (++waiting[group] == BATCH) tally_batch(group);
}

bool end_counts(void) {
    tally_batch(0), tally_batch(1);
    return same_way;
}

static double variance(double sum, double squares, double n) {
    return (squares - sum * sum / n) / (n - 1) / n;
}

/* |t| between the groups, of sums and sums of squares. */
static double welch(double sum0, double squares0, double sum1, double squares1) {
    double apart = fabs(sum0 / runs[0] - sum1 / runs[1]), spread = variance(sum0, squares0, runs[0]) + variance(sum1, squares1, runs[1]);
    return apart == 0 ? 0 : spread > 0 ? apart / sqrt(spread) : INFINITY;
}

static uint32_t ones(const tally *t, int bit) {
    uint32_t sum = 0;
    for (int k = 0; k < PLANES; k++) sum |= (uint32_t)(t->plane[k] >> bit & 1) << k;
    return sum;
}

static double t_of_word(uint32_t i) {
    const tally *fixed = &tallies[0][i], *random = &tallies[1][i];
    double worst = welch(fixed->sum, fixed->squares, random->sum, random->squares);
    for (int bit = 0; bit < 64; bit++) {
        double a = ones(fixed, bit), b = ones(random, bit);
        worst = fmax(worst, welch(a, a, b, b));
    }
    return worst;
}

double t_of_step(size_t s, int kind) {
    double worst = 0;
    for (size_t k = path[s].slot; k < path[s + 1].slot; k++) {
        if (live[kind][k]) worst = fmax(worst, t_of_word(live[kind][k]));
        if (live[kind + HALVES][k]) worst = fmax(worst, t_of_word(live[kind + HALVES][k]));
    }
    return worst;
}

/* 65 tests of each kind for a slot and for a pair of halves: together one false alarm in 100,000 calls that tell nothing. */
double threshold(void) {
    double tests = 65.0 * KINDS * (double)(slots_used + pairs), bound = 5;
    while (tests * erfc(bound / sqrt(2)) > 1e-5) bound += 0.01;
    return bound;
}
