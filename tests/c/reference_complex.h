/* An independent reading of document 02, No. 5: the complex product and one layer of the transform, on plain words and on shares, made of
 * reference.h's single operations. On shares those go by the plans of product and sum that the caller names. */
#ifndef REFERENCE_COMPLEX_H
#define REFERENCE_COMPLEX_H

#include "reference.h"

typedef struct {
    uint64_t re, im;
} ref_complex;

typedef struct {
    const uint32_t *words;
    size_t len;
} ref_plan;

typedef struct {
    ref_plan product, sum;
} ref_plans;

ref_complex ref_complex_product(uint64_t a, uint64_t b, uint64_t c, uint64_t d);
ref_answer ref_layer(size_t count, size_t distance, uint64_t *numbers, size_t numbers_len, const uint64_t *factors, size_t factors_len);

ref_answer ref_complex_product_shares(ref_plans plans, size_t n, const uint64_t *x, size_t x_len, const uint64_t *y, size_t y_len,
                                      uint64_t *result, size_t result_len, uint64_t *work, size_t work_len, const uint64_t *tape,
                                      size_t tape_len);
ref_answer ref_layer_shares(ref_plans plans, size_t n, size_t count, size_t distance, uint64_t *numbers, size_t numbers_len,
                            const uint64_t *factors, size_t factors_len, uint64_t *work, size_t work_len, const uint64_t *tape,
                            size_t tape_len);

#endif
