/* A run by single steps (trap flag): before and after each instruction the handler reads every slot that the table says it writes. The handler has
 * a stack of its own, so that what a call finds below its stack is its own. */
#define _GNU_SOURCE
#include "leak.h"
#include <signal.h>
#include <string.h>
#include <ucontext.h>

step path[STEPS + 1];
slot slots[SLOTS];
size_t steps, slots_used;
uint64_t before[SLOTS], after[SLOTS];

static const int register_at[16] = {REG_RAX, REG_RCX, REG_RDX, REG_RBX, REG_RSP, REG_RBP, REG_RSI, REG_RDI,
                                    REG_R8,  REG_R9,  REG_R10, REG_R11, REG_R12, REG_R13, REG_R14, REG_R15};
static size_t now, slots_now; /* steps and slots of this run so far */
static bool recording, pending;

static uint64_t held(const slot *s, const ucontext_t *u) {
    uint64_t word[2] = {0, 0};
    if (s->kind == 'r' || s->kind == 'R') word[0] = (uint64_t)u->uc_mcontext.gregs[register_at[s->reg]];
    if (s->kind == 'm' || s->kind == 'M') memcpy(word, (const void *)s->at, 8);
    if (s->kind == 'x' || s->kind == 'h') memcpy(word, &u->uc_mcontext.fpregs->_xmm[s->reg], 16);
    return word[s->kind == 'h'] & s->mask;
}

static uint64_t address(const place *p, const greg_t *g) {
    uint64_t at = (uint64_t)p->disp;
    if (p->base >= 0) at += (uint64_t)g[register_at[p->base]];
    if (p->index >= 0) at += (uint64_t)g[register_at[p->index]] * (uint64_t)p->scale;
    return at;
}

static void put_slot(slot s, const ucontext_t *u) {
    if (slots_now == SLOTS) fail("too many slots", path[now].at);
    slot *known = &slots[slots_now];
    if (recording) *known = s;
    else if (slots_now >= slots_used || known->kind != s.kind || known->reg != s.reg || known->at != s.at || known->mask != s.mask)
        fail("runs write to different places", path[now].at);
    before[slots_now++] = held(&s, u);
}

static void put_place(const place *p, const ucontext_t *u) {
    bool memory = p->kind == 'm' || p->kind == 'M';
    slot s = {p->kind, p->reg, memory ? address(p, u->uc_mcontext.gregs) : 0, p->size < 8 ? (UINT64_C(1) << 8 * p->size) - 1 : UINT64_MAX};
    if (s.at >> 31) fail("a place that is written is not below 2 GB", path[now].at);
    put_slot(s, u);
    if (p->size < 16) return;
    if (memory) s.at += 8;
    else s.kind = 'h';
    put_slot(s, u);
}

static void begin_step(const ucontext_t *u) {
    const greg_t *g = u->uc_mcontext.gregs;
    uint64_t at = (uint64_t)g[REG_RIP];
    const instruction *i = instruction_at(at);
    if (!i) fail("code outside the table is executed", at);
    if (i->flow == '?') fail("an instruction whose destination is not known is executed", at);
    if (i->flow == 's' && g[REG_RCX] == 0) fail("a string instruction that does nothing is executed", at);
    if (now == STEPS) fail("too many steps", at);
    if (recording) path[now] = (step){at, (uint32_t)slots_now};
    else if (now >= steps || path[now].at != at) fail("the path is not the same in all runs; it differs", at);
    for (int k = 0; k < i->places; k++) put_place(&i->place[k], u);
}

static void end_step(const ucontext_t *u) {
    for (size_t s = path[now].slot; s < slots_now; s++) after[s] = held(&slots[s], u);
    now++;
}

static void trap(int signal, siginfo_t *info, void *context) {
    (void)signal, (void)info;
    ucontext_t *u = context;
    uint64_t at = (uint64_t)u->uc_mcontext.gregs[REG_RIP];
    if (pending) end_step(u);
    else if (at != enter_at) return; /* still on the way in */
    pending = at != (uint64_t)&enter_left;
    if (pending) begin_step(u);
    else u->uc_mcontext.gregs[REG_EFL] &= ~0x100;
}

static void run(watched call) {
    static char handler_stack[65536];
    stack_t lent = {.ss_sp = handler_stack, .ss_size = sizeof handler_stack};
    struct sigaction action = {.sa_sigaction = trap, .sa_flags = SA_SIGINFO | SA_ONSTACK};
    if (sigaltstack(&lent, NULL) || sigaction(SIGTRAP, &action, NULL)) fail("no handler for single steps", 0);
    now = slots_now = 0, pending = false;
    enter_at = (uint64_t)call, enter_flags = 0x100;
    enter();
    if (now == 0) fail("the trap flag does not step on this machine: nothing was tested", 0);
}

void record(watched call) {
    recording = true;
    run(call);
    steps = now, slots_used = slots_now;
    path[steps] = (step){(uint64_t)&enter_left, (uint32_t)slots_used};
    recording = false;
}

void step_again(watched call) {
    run(call);
    if (now != steps || slots_now != slots_used) fail("the path is not the same in all runs; its end differs", 0);
}
