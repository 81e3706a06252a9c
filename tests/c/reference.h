/* An independent reading of document 01 in plain C, and of document 02 for the roundings, the end of AND and the head: step words, the plain machine,
 * translation for n shares, the share machine, the operations on numbers, split and join. Written for the C test from the documents alone; it
 * shares nothing with the library and is slow and plain on purpose. Each call takes what the library's call takes, gives its answer and leaves
 * its lent words as the documents say. */
#ifndef REFERENCE_H
#define REFERENCE_H

#include <stdbool.h>
#include <stddef.h>
#include <stdint.h>

enum ref_kind { REF_CONST = 1, REF_XOR, REF_AND, REF_NOT, REF_SHL, REF_SHR, REF_SPREAD, REF_ADD, REF_RAND, REF_HEAD };

enum {
    REF_REGISTERS = 32,
    REF_CELLS = 512,
    REF_PLAN_LIMIT = 2048,
    REF_PROGRAM_LIMIT = 8257537,
    REF_STORED_LIMIT = 8257536, /* a stored program, without its head */
    REF_FEWEST_SHARES = 2,
    REF_MOST_SHARES = 8
};

/* The number (0 for done), the place of the first bad word, and the call's counts. */
typedef struct {
    uint32_t number;
    size_t place, words, tape;
} ref_answer;

/* A step word from its fields, none of them checked. */
uint32_t ref_word(unsigned kind, unsigned d, unsigned a, unsigned b);

/* The head of a program for n shares. */
uint32_t ref_head(size_t n);

/* Whether a word may stand in a plan, in a share program behind its head, or alone as one share step, which a head may do too. */
bool ref_good_plan_word(uint32_t word);
bool ref_good_share_word(uint32_t word);
bool ref_good_step(uint32_t word);

ref_answer ref_measure(size_t n, const uint32_t *plan, size_t plan_len);
ref_answer ref_translate(size_t n, const uint32_t *plan, size_t plan_len, uint32_t *out, size_t out_len);
ref_answer ref_add_head(size_t n, const uint32_t *stored, size_t stored_len, uint32_t *out, size_t out_len);
ref_answer ref_plain_run(const uint32_t *plan, size_t plan_len, uint64_t *cells, size_t cells_len);
ref_answer ref_share_run(size_t n, const uint32_t *program, size_t program_len, size_t place, const uint64_t *tape, size_t tape_len,
                         size_t tape_place, size_t budget, uint64_t *cells, size_t cells_len);
ref_answer ref_one_share_step(uint32_t word, const uint64_t *tape, size_t tape_len, size_t tape_place, uint64_t *cells, size_t cells_len);

/* Good words one after another on 512 cells, with a head or without; gives the tape words used. */
size_t ref_run_words(const uint32_t *words, size_t count, const uint64_t *tape, uint64_t *cells);

/* An operation on shares by a plan that the caller names: operands in registers 0 and 1, or only 0 where y is NULL; result in 2. */
ref_answer ref_operation(const uint32_t *plan, size_t plan_len, const uint64_t *x, size_t x_len, const uint64_t *y, size_t y_len,
                         uint64_t *result, size_t result_len, uint64_t *work, size_t work_len, const uint64_t *tape, size_t tape_len);

uint64_t ref_product(uint64_t a, uint64_t b);
uint64_t ref_sum(uint64_t a, uint64_t b);
uint64_t ref_floor(uint64_t a);
uint64_t ref_truncate(uint64_t a);
uint64_t ref_nearest(uint64_t a);

ref_answer ref_split(uint64_t word, const uint64_t *tape, size_t tape_len, uint64_t *out, size_t out_len);
ref_answer ref_join(const uint64_t *shares, size_t shares_len, uint64_t *word);

#endif
