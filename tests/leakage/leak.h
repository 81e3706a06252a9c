/* The parts of the leakage test: the table of instructions (table.c), runs by single steps (step.c) and by replay (replay.c), the tallies of what
 * they saw (counts.c), and the calls that are run (calls.c, sabotages.c). */
#ifndef LEAK_H
#define LEAK_H
#include <lubewon.h>
#include <stdbool.h>
#include <stdint.h>
#include <stdnoreturn.h>

/* For up to 8 shares; the longest is the layer. */
enum { STEPS = 2000000, SLOTS = 4000000, TAPE = LUBEWON_LAYER_TAPE(LUBEWON_MOST_SHARES, 2), PROGRAM = 8192, NUMBERS = 4 };

/* Says why on standard error and ends with status 1. */
noreturn void fail(const char *why, uint64_t at);

/* ---- The table: what an instruction writes (destinations.py has the letters) ---- */
typedef struct {
    char kind;
    int8_t size, reg, base, index, scale;
    int64_t disp;
} place;
typedef struct {
    char flow;
    uint8_t length, relative, places;
    place place[4];
} instruction;
void read_table(const char *file_name);
const instruction *instruction_at(uint64_t at); /* NULL outside the table */

/* ---- A path: its steps, and the slots of 8 bytes that they write, in order ---- */
typedef struct {
    uint64_t at;
    uint32_t slot; /* the step's first; the next step's first is its end */
} step;
typedef struct {
    char kind; /* r, R register; m, M memory; x, h low and high half of a vector register. R and M only lead the way */
    int8_t reg;
    uint64_t at, mask;
} slot;
extern step path[STEPS + 1];
extern slot slots[SLOTS];
extern size_t steps, slots_used;
extern uint64_t before[SLOTS], after[SLOTS]; /* what a run had in each slot, before and after its step */

/* ---- Runs ---- */
typedef void (*watched)(void);
void record(watched call); /* by single steps: path, slots, before, after */
void step_again(watched call); /* likewise; fails if path or slots differ */
void write_replay(void);   /* of the path that was recorded */
bool replay(void);         /* before, after; false if it left the path */
extern char enter_left, lent_stack, lent_stack_top;
extern uint64_t enter_at, enter_flags;
void enter(void);

/* ---- Tallies ---- */
enum { WORDS, TRANSITIONS, KINDS };
void start_counts(void); /* with before and after of one run as the words to differ from */
void count(int group);   /* a run more; group 0 fixed, 1 random */
bool end_counts(void);   /* false if a slot that leads the way differed from the first run's */
double threshold(void);
double t_of_step(size_t s, int kind); /* the largest |t| of its slots' bits and weights, and of two halves exclusive-or each other */

/* ---- Calls ---- */
typedef struct {
    const char *name;
    watched call;
    void (*plain)(const uint64_t *operand, uint64_t *wanted); /* what the results join to, or NULL */
    uint64_t *operand[NUMBERS], *result[NUMBERS];             /* share 0 of each, NULL after the last; */
    size_t stride;                                            /* the next share is so many words on */
} call_row;
extern size_t shares;
extern uint64_t x[16], y[16], result[16], numbers[32], work[LUBEWON_WORK], tape[TAPE];
extern lubewon_answer answer;
const call_row *call_named(const char *name);
void prepare(void); /* what a call needs once the number of shares is known */
uint64_t random_word(void);
void draw(const call_row *call, int group); /* operands, shares and tape of a run */
void reset(const call_row *call);           /* shares as drawn; all other lent words and the stack zeros */
bool right(const call_row *call);           /* done, and the results join to what they must */
void sabotage_joins(void), sabotage_and(void), sabotage_register(void), sabotage_vector(void), sabotage_memory(void), sabotage_push(void),
    sabotage_string(void), sabotage_exchange(void), sabotage_branch(void), sabotage_jump(void), sabotage_unknown(void), sabotage_outside(void),
    sabotage_wide(void);
void control(void);
#endif
