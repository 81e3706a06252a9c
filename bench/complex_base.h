/* Baselines (e): complex product and one layer, on shares by a baseline's calls of product and sum, one after another along the tape; on plain
 * words by the soft floats. Slices have the lengths that they must have. */
#ifndef COMPLEX_BASE_H
#define COMPLEX_BASE_H

#include "baseline.h"

/* Whose products and sums. */
typedef struct {
    base_call *product, *sum;
} base_calls;

lubewon_answer base_complex_product_shares(const base_calls *calls, size_t n, const uint64_t *x, const uint64_t *y, uint64_t *result,
                                           uint64_t *work, const uint64_t *tape, size_t tape_len);
lubewon_answer base_layer_shares(const base_calls *calls, size_t n, size_t count, size_t distance, uint64_t *numbers, const uint64_t *factors,
                                 uint64_t *work, const uint64_t *tape, size_t tape_len);
lubewon_complex base_complex_product(uint64_t a, uint64_t b, uint64_t c, uint64_t d);
lubewon_answer base_layer(size_t count, size_t distance, uint64_t *numbers, const uint64_t *factors);

#endif
