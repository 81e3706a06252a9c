/* Baseline (f): straight-line C for each operation on shares and each n, made by straight.py from the plan that the library ships, with
 * barriers at the masked sums. */
#ifndef STRAIGHT_H
#define STRAIGHT_H

#include "baseline.h"

/* The compiler takes x for an unknown word from here on. */
#define BAR(x) __asm__("" : "+r"(x))

/* What straight.py writes: an operation on a fixed number of shares, which gives the tape words used. y is not read where there is one operand. */
typedef size_t straight_body(const uint64_t *x, const uint64_t *y, uint64_t *result, const uint64_t *tape);

/* The operations on n shares, with checks and one wipe of work. */
base_call straight_product, straight_sum, straight_floor, straight_truncate, straight_nearest;

#endif
