/* The calls of baseline (f): checks, the straight-line body for n shares, one wipe of the work slice. */
#include "straight.h"

#include <string.h>

enum { CELLS = 512, PART = 64 };

/* By parts, and the length hidden: a longer run, or one of a length that the compiler knows, becomes a repeated store, which callgrind counts
 * once for each byte or word. The library clears the same way. */
static void wipe(uint64_t *work) {
    for (size_t at = 0; at < CELLS; at += PART) {
        size_t words = PART;
        BAR(words);
        memset(work + at, 0, words * sizeof *work);
    }
}

#define OPERATION(op, TAPE)                                                                                                         \
    straight_body straight_##op##_2, straight_##op##_3, straight_##op##_4, straight_##op##_5, straight_##op##_6, straight_##op##_7, \
        straight_##op##_8;                                                                                                          \
    lubewon_answer straight_##op(size_t n, const uint64_t *x, const uint64_t *y, uint64_t *result, uint64_t *work,                  \
                                 const uint64_t *tape, size_t tape_len) {                                                           \
        static straight_body *const bodies[] = {straight_##op##_2, straight_##op##_3, straight_##op##_4, straight_##op##_5,         \
                                                straight_##op##_6, straight_##op##_7, straight_##op##_8};                           \
        if (n < 2 || n > 8) return (lubewon_answer){1, 0, 0, 0};                                                                    \
        if (tape_len < TAPE(n)) return (lubewon_answer){6, 0, 0, 0};                                                                \
        size_t used = bodies[n - 2](x, y, result, tape);                                                                            \
        wipe(work);                                                                                                                 \
        return (lubewon_answer){0, 0, 0, used};                                                                                     \
    }

OPERATION(product, LUBEWON_PRODUCT_TAPE)
OPERATION(sum, LUBEWON_SUM_TAPE)
OPERATION(floor, LUBEWON_FLOOR_TAPE)
OPERATION(truncate, LUBEWON_TRUNCATE_TAPE)
OPERATION(nearest, LUBEWON_NEAREST_TAPE)
