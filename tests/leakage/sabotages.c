/* Calls with a slip each, for two shares, which the test has to find, and a control without one, in which it may find nothing. They stand in a
 * section of their own: a slip counts as found only if it is found there. The assembly keeps the compiler from mending or moving a slip. */
#include "leak.h"

#define SABOTAGE __attribute__((noinline, section("sabotage")))

/* tests/c/example.c's lines with floor, and with two shares joined in a register on the way. */
SABOTAGE void sabotage_joins(void) {
    uint64_t joined = x[0] ^ x[1];
    __asm__ volatile("" ::"r"(joined));
    answer = lubewon_floor_shares(x, shares, result, shares, work, LUBEWON_WORK, tape, TAPE);
}

/* Half a join: a bit of it is 0 where the secret's is 1, and either where it is 0. */
SABOTAGE void sabotage_and(void) {
    uint64_t joined = x[0] & x[1];
    __asm__ volatile("" ::"r"(joined));
}

/* A register that holds share 0 of a word takes its share 1. */
SABOTAGE void sabotage_register(void) {
    __asm__ volatile("mov x, %%rax\n\tmov x+8, %%rax" ::: "rax", "memory");
}

/* A vector register's lower half does. */
SABOTAGE void sabotage_vector(void) {
    __asm__ volatile("movq x, %%xmm1\n\tmovq x+8, %%xmm1" ::: "xmm1", "memory");
}

/* A memory cell does, one byte of it, from two registers. */
SABOTAGE void sabotage_memory(void) {
    __asm__ volatile("mov x, %%rax\n\tmov x+8, %%rcx\n\tmov %%al, result\n\tmov %%cl, result" ::: "rax", "rcx", "memory");
}

/* A cell of the stack does, by pushes. */
SABOTAGE void sabotage_push(void) {
    __asm__ volatile("pushq x\n\tlea 8(%%rsp), %%rsp\n\tpushq x+8\n\tlea 8(%%rsp), %%rsp" ::: "memory");
}

/* A memory cell does, by string instructions. */
SABOTAGE void sabotage_string(void) {
    __asm__ volatile("mov $x, %%esi\n\tmov $result, %%edi\n\tmov $1, %%ecx\n\trep movsq\n\t"
                     "mov $result, %%edi\n\tmov $1, %%ecx\n\trep movsq" ::: "rsi", "rdi", "rcx", "memory");
}

/* Two registers do, by an exchange. */
SABOTAGE void sabotage_exchange(void) {
    __asm__ volatile("mov x, %%rax\n\tmov x+8, %%rcx\n\txchg %%rax, %%rcx" ::: "rax", "rcx", "memory");
}

/* The path depends on a share. */
SABOTAGE void sabotage_branch(void) {
    __asm__ volatile("testb $1, x\n\tje 1f\n\tnop\n1:" ::: "cc", "memory");
}

/* So does it here, by a word that a jump goes by. */
SABOTAGE void sabotage_jump(void) {
    __asm__ volatile("mov x, %%rax\n\tand $1, %%eax\n\tlea 1f(%%rax), %%rax\n\tjmp *%%rax\n1:\tnop\n\tnop" ::: "rax", "cc", "memory");
}

/* Both shares of a word go into one vector register: each half is sound, and the register is the secret. */
SABOTAGE void sabotage_wide(void) {
    __asm__ volatile("movups x, %%xmm1" ::: "xmm1", "memory");
}

/* An instruction that the table does not know. */
SABOTAGE void sabotage_unknown(void) {
    __asm__ volatile("rdtsc" ::: "rax", "rdx");
}

/* Code of another library. */
SABOTAGE void sabotage_outside(void) {
    __asm__ volatile("call getpid" ::: "rax", "rcx", "rdx", "rsi", "rdi", "r8", "r9", "r10", "r11", "cc", "memory");
}

/* Both shares by the same ways, with a word between that tells nothing; and other ways to write than the ones above. */
SABOTAGE void control(void) {
    __asm__ volatile("mov x, %%rax\n\tmov %%rax, result\n\tpush %%rax\n\tpop %%rdx\n\tmovq %%rdx, %%xmm1\n\t"
                     "mul %%rdx\n\tcqto\n\txor %%eax, %%eax\n\txor %%edx, %%edx\n\t"
                     "pushq $0\n\tpop %%rcx\n\tpxor %%xmm1, %%xmm1\n\tmov %%rcx, result\n\t"
                     "mov x+8, %%rax\n\tmov %%rax, result\n\tpush %%rax\n\tpop %%rdx\n\tmovq %%rdx, %%xmm1\n\t"
                     "setc %%cl\n\tmov %%dx, result+8\n\txor %%eax, %%eax\n\txchg %%rax, %%rdx\n\tmovups %%xmm1, result+16\n\t"
                     "mov $3, %%ecx\n\tmov $work, %%edi\n\trep stosl" ::: "rax", "rcx", "rdx", "rdi", "xmm1", "cc", "memory");
}
