/* What the files of the bench share: the operations, and the input of the cases, which set_up makes anew for a share count. */
#ifndef BENCH_H
#define BENCH_H

#include <stdbool.h>

#include "complex_base.h"
#include "straight.h"

enum { PLAN = 2048, PAIRS = 1024, PROGRAM = 200000, TAPE = 100000 };
enum { COUNT = 4, DISTANCE = 2 }; /* the layer on shares: two pairs, one factor */

typedef struct {
    const char *name;
    lubewon_answer (*copy)(uint32_t *, size_t), (*on_shares)(void);
    base_call *gadgets, *straight;
    uint64_t (*plain)(uint64_t, uint64_t), (*base)(uint64_t, uint64_t); /* where there is one operand, the second is not read */
    uint32_t plan[PLAN];
    size_t plan_len, units; /* tape words are units times n(n - 1) */
} operation;

enum { PRODUCT, SUM, FLOOR, TRUNCATE, NEAREST, OPERATIONS };
extern operation operations[OPERATIONS];

/* The baselines on shares: gadget loops and straight-line C. */
enum { GADGETS, STRAIGHT, BASELINES };
extern const base_calls baselines[BASELINES];

extern size_t n; /* shares */
extern uint64_t x[8], y[8], result[8], work[512], tape[TAPE];
extern uint64_t a[PAIRS], b[PAIRS], factors[PAIRS];
extern uint64_t complex_x[16], complex_y[16], complex_result[16];
extern uint32_t program[PROGRAM], written[PROGRAM];

uint64_t random_word(void);
uint64_t random_number(void);
void set_up(size_t shares);
void split_into(uint64_t word, uint64_t *to, size_t step);
void split_complex(size_t first);

/* The library's calls over this input. */
lubewon_answer complex_shares(void);
lubewon_answer layer_shares(void);

void check(void); /* ends the run where library and baselines differ */
void stack(void); /* prints the stack that calls take */

#endif
