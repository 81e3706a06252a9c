/* Each call of lubewon.h beside the reference: the answers and all lent words must agree. `number` is the turn-down that the test itself
 * expects, or ANY. Written words come back to the caller's slices. */
#ifndef CALLS_H
#define CALLS_H

#include <stdbool.h>
#include <stddef.h>
#include <stdint.h>

#include "lubewon.h"
#include "reference.h"
#include "reference_complex.h"

enum { ANY = 99 };

lubewon_answer try_measure(uint32_t number, size_t n, const uint32_t *plan, size_t plan_len);
lubewon_answer try_translate(uint32_t number, size_t n, const uint32_t *plan, size_t plan_len, uint32_t *out, size_t out_len);
lubewon_answer try_add_head(uint32_t number, size_t n, const uint32_t *stored, size_t stored_len, uint32_t *out, size_t out_len);
lubewon_answer try_plain_run(uint32_t number, const uint32_t *plan, size_t plan_len, uint64_t *cells, size_t cells_len);
lubewon_answer try_share_run(uint32_t number, size_t n, const uint32_t *program, size_t program_len, size_t place, const uint64_t *tape,
                             size_t tape_len, size_t tape_place, size_t budget, uint64_t *cells, size_t cells_len);
lubewon_answer try_one_share_step(uint32_t number, uint32_t word, const uint64_t *tape, size_t tape_len, size_t tape_place, uint64_t *cells,
                                  size_t cells_len);
lubewon_answer try_split(uint32_t number, uint64_t word, const uint64_t *tape, size_t tape_len, uint64_t *out, size_t out_len);
uint64_t try_join(uint32_t number, const uint64_t *shares, size_t shares_len);

/* A word split over random tape words. */
void split_into(uint64_t word, uint64_t *out, size_t n);

/* ---- The operations, with the plans that the library copies out ---- */

enum { PRODUCT, SUM, FLOOR, TRUNCATE, NEAREST, OPERATIONS };

typedef struct {
    const char *name;
    lubewon_answer (*copy)(uint32_t *, size_t);
    lubewon_answer (*on_shares)(const uint64_t *, size_t, const uint64_t *, size_t, uint64_t *, size_t, uint64_t *, size_t,
                                const uint64_t *, size_t);
    lubewon_answer (*in_place)(uint64_t *, size_t, const uint64_t *, size_t, uint64_t *, size_t, const uint64_t *, size_t);
    uint64_t (*plain)(uint64_t, uint64_t);
    uint64_t (*reference)(uint64_t, uint64_t);
    bool two; /* operands; where there is one, the second is not read */
    uint32_t plan[REF_PLAN_LIMIT];
    size_t plan_len;
} operation;

extern operation operations[OPERATIONS];

lubewon_answer try_on_shares(uint32_t number, const operation *op, const uint64_t *x, size_t x_len, const uint64_t *y, size_t y_len,
                             uint64_t *result, size_t result_len, uint64_t *work, size_t work_len, const uint64_t *tape, size_t tape_len);
lubewon_answer try_in_place(uint32_t number, const operation *op, uint64_t *x, size_t x_len, const uint64_t *y, size_t y_len, uint64_t *work,
                            size_t work_len, const uint64_t *tape, size_t tape_len);
uint64_t try_plain(const operation *op, uint64_t a, uint64_t b);

/* ---- Complex numbers; on shares the reference goes by the operations' plans ---- */

lubewon_complex try_complex_product(uint64_t a, uint64_t b, uint64_t c, uint64_t d);
lubewon_answer try_layer(uint32_t number, size_t count, size_t distance, uint64_t *numbers, size_t numbers_len, const uint64_t *factors,
                         size_t factors_len);
lubewon_answer try_complex_product_shares(uint32_t number, size_t n, const uint64_t *x, size_t x_len, const uint64_t *y, size_t y_len,
                                          uint64_t *result, size_t result_len, uint64_t *work, size_t work_len, const uint64_t *tape,
                                          size_t tape_len);
lubewon_answer try_layer_shares(uint32_t number, size_t n, size_t count, size_t distance, uint64_t *numbers, size_t numbers_len,
                                const uint64_t *factors, size_t factors_len, uint64_t *work, size_t work_len, const uint64_t *tape,
                                size_t tape_len);

#endif
