/* The stack that a call takes on 8 shares, and that of a plan's copy: each runs on a painted stack, less what a call of nothing takes. */
#include <stdio.h>
#include <string.h>
#include <ucontext.h>

#include "bench.h"

enum { PAINTED = 65536, PAINT = 0xA5 };
static unsigned char painted[PAINTED] __attribute__((aligned(64)));
static ucontext_t here, there;
static lubewon_answer (*measured)(void);
static const operation *copied;

static void nothing(void) {}
static void call(void) { measured(); }
static void copy(void) { copied->copy(program, PROGRAM); }

static size_t stack_of(void (*run)(void)) {
    memset(painted, PAINT, PAINTED);
    getcontext(&there);
    there.uc_stack.ss_sp = painted;
    there.uc_stack.ss_size = PAINTED;
    there.uc_link = &here;
    makecontext(&there, run, 0);
    swapcontext(&here, &there);
    size_t left = 0;
    while (painted[left] == PAINT) left++;
    return PAINTED - left;
}

static void print_stack(const char *name, const char *form, void (*run)(void)) {
    stack_of(run); /* the first call of memset looks its symbol up */
    printf("stack|%s|%s|%zu\n", name, form, stack_of(run) - stack_of(nothing));
}

void stack(void) {
    set_up(8);
    for (const operation *op = operations; op < operations + OPERATIONS; op++) {
        measured = op->on_shares, copied = op;
        print_stack(op->name, "on shares", call);
        print_stack(op->name, "plan copy", copy);
    }
    measured = complex_shares;
    print_stack("complex product", "on shares", call);
    measured = layer_shares;
    print_stack("layer", "on shares", call);
}
