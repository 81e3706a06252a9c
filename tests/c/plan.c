/* A plan of one's own (docs/PLANS.md): the larger and the smaller of two numbers below 2^63, on three shares. Prints both. */
#include <lubewon.h>
#include <stdio.h>
#include <sys/random.h>

enum { N = 3, PROGRAM = 8192, TAPE = 1024 };

static const uint32_t plan[10] = {0x400C0200, 0x10100001, 0x800C0604, 0x800C0003, 0x6014063F,
                                  0x70140A00, 0x20180001, 0x30180C05, 0x20080006, 0x201C0206};
static uint32_t program[PROGRAM];
static uint64_t tape[TAPE], cells[LUBEWON_CELLS];

static void put(uint64_t word, const uint64_t *masks, size_t r) {
    uint64_t shares[N];
    lubewon_split(word, masks, LUBEWON_SPLIT_TAPE(N), shares, N);
    for (size_t i = 0; i < N; i++) cells[LUBEWON_CELL(i, r)] = shares[i];
}

static uint64_t get(size_t r) {
    uint64_t shares[N];
    for (size_t i = 0; i < N; i++) shares[i] = cells[LUBEWON_CELL(i, r)];
    return lubewon_join(shares, N).word;
}

int main(void) {
    lubewon_answer m = lubewon_measure(N, plan, 10);
    if (m.number != LUBEWON_DONE || m.words > PROGRAM || m.tape + 4 > TAPE) return 1;
    if (lubewon_translate(N, plan, 10, program, PROGRAM).number != LUBEWON_DONE) return 1;
    if (getrandom(tape, sizeof tape, 0) != (ssize_t)sizeof tape) return 1;
    put(1234, tape, 0);     /* tape words 0 and 1 */
    put(56789, tape + 2, 1); /* 2 and 3 */
    if (lubewon_share_run(N, program, m.words, 0, tape, TAPE, 4, m.words, cells, LUBEWON_CELLS).number != LUBEWON_DONE) return 1;
    printf("%llu %llu\n", (unsigned long long)get(2), (unsigned long long)get(7));
}
