/* C baselines for the bench: the same work as the library's calls, written as a C programmer would write it for speed. They take what the
 * calls of lubewon.h take and must give the same words; check.c compares them before anything is measured. */
#ifndef BASELINE_H
#define BASELINE_H

#include "lubewon.h"

/* (a) An interpreter of share programs: checks the head and the whole program, counts the RANDs of the run, runs. */
lubewon_answer base_share_run(size_t n, const uint32_t *program, size_t program_len, size_t place, const uint64_t *tape, size_t tape_len,
                              size_t tape_place, size_t budget, uint64_t *cells, size_t cells_len);

/* A baseline's operation on n shares: y is not read where there is one operand, work has 512 words and is zero afterwards. */
typedef lubewon_answer base_call(size_t n, const uint64_t *x, const uint64_t *y, uint64_t *result, uint64_t *work, const uint64_t *tape,
                                 size_t tape_len);

/* (b) A good plan straight on the shares in 512 cells, one gadget for each plan word, with no share words between; gives the tape words
 * used. And an operation by such a plan, told its tape words as units of n(n - 1): operands in registers 0 and 1 (only 0 where y is NULL), result
 * in 2, work zero afterwards. */
size_t base_plan_on_shares(size_t n, const uint32_t *plan, size_t plan_len, const uint64_t *tape, uint64_t *cells);
lubewon_answer base_operation(const uint32_t *plan, size_t plan_len, size_t units, const uint64_t *x, size_t n, const uint64_t *y,
                              uint64_t *result, uint64_t *work, const uint64_t *tape, size_t tape_len);

/* (c) Soft-float operations by the documents' rules. */
uint64_t base_product(uint64_t a, uint64_t b);
uint64_t base_sum(uint64_t a, uint64_t b);
uint64_t base_floor(uint64_t a);
uint64_t base_truncate(uint64_t a);
uint64_t base_nearest(uint64_t a);

/* (d) A translator: the head, then the words. */
lubewon_answer base_translate(size_t n, const uint32_t *plan, size_t plan_len, uint32_t *out, size_t out_len);

#endif
