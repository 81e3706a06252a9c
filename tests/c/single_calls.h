/* The complex product and the layer made of the library's own single calls on shares, one after another on a tape: what document 02, No. 5, says
 * their shares are. */
#ifndef SINGLE_CALLS_H
#define SINGLE_CALLS_H

#include <stddef.h>
#include <stdint.h>

#include "lubewon.h"

typedef uint64_t shares[LUBEWON_MOST_SHARES];

/* The share count, and the tape from where the calls so far have got to. */
typedef struct {
    size_t n;
    const uint64_t *tape;
    size_t left;
} row;

/* Number j among numbers of which each share has `width`: the real parts, and then the imaginary ones. */
void take_number(size_t n, size_t width, size_t j, const uint64_t *words, uint64_t *number);
void put_number(size_t n, size_t width, size_t j, uint64_t *words, const uint64_t *number);

void complex_by_single_calls(row *r, const uint64_t *x, const uint64_t *y, uint64_t *result);
void layer_by_single_calls(row *r, size_t count, size_t distance, uint64_t *numbers, const uint64_t *factors);

/* A layer as one layer over two numbers for each of its pairs. */
void layer_pair_by_pair(row *r, size_t count, size_t distance, uint64_t *numbers, const uint64_t *factors);

#endif
