/* Constant time, for valgrind's memcheck: shares, cells and tape words, and the operands of the plain operations, are marked undefined, so that
 * memcheck reports every branch and every address that depends on one. So are a layer's factors, which are no secret: nothing goes by them either.
 * The `number` of an answer is tested here, which memcheck would report too if it depended on one. */
#include <lubewon.h>
#include <stdio.h>
#include <stdlib.h>
#include <valgrind/memcheck.h>

enum { N = LUBEWON_MOST_SHARES, COUNT = 4, TAPE = LUBEWON_LAYER_TAPE(N, COUNT), PROGRAM = 65536 };

static uint64_t x[2 * N], y[2 * N], result[2 * N], numbers[2 * COUNT * N], factors[COUNT];
static uint64_t work[LUBEWON_WORK], cells[LUBEWON_CELLS], tape[TAPE];
static uint32_t program[PROGRAM];

/* CONST, XOR, AND, NOT, SHL, SHR, SPREAD and ADD, with distinct and with equal registers. */
static const uint32_t plan[] = {0x100C02BC, 0x20080001, 0x30100403, 0x40140800, 0x50180A07, 0x601C0C03,
                                0x70200E00, 0x80240001, 0x30040201, 0x80241209, 0x30281208, 0x20281409};
enum { PLAN = sizeof plan / sizeof *plan };

#define SECRET(array) VALGRIND_MAKE_MEM_UNDEFINED(array, sizeof(array))
#define SHOWN(array) VALGRIND_MAKE_MEM_DEFINED(array, sizeof(array))

static void all_secret(void) {
    SECRET(x), SECRET(y), SECRET(result), SECRET(numbers), SECRET(factors), SECRET(work), SECRET(cells), SECRET(tape);
}

static void done(const char *call, size_t n, lubewon_answer answer) {
    if (answer.number == LUBEWON_DONE) return;
    printf("%s, n = %zu: turned down with %u\n", call, n, (unsigned)answer.number);
    exit(1);
}

/* ---- The operations, with two operands and with one: on shares, in place, on plain words ---- */
static const struct {
    const char *name, *name_in_place;
    lubewon_answer (*shares)(const uint64_t *, size_t, const uint64_t *, size_t, uint64_t *, size_t, uint64_t *, size_t, const uint64_t *, size_t);
    lubewon_answer (*in_place)(uint64_t *, size_t, const uint64_t *, size_t, uint64_t *, size_t, const uint64_t *, size_t);
    uint64_t (*plain)(uint64_t, uint64_t);
} with_two[] = {
    {"product", "product in place", lubewon_product_shares, lubewon_product_in_place, lubewon_product},
    {"sum", "sum in place", lubewon_sum_shares, lubewon_sum_in_place, lubewon_sum},
};

static const struct {
    const char *name, *name_in_place;
    lubewon_answer (*shares)(const uint64_t *, size_t, uint64_t *, size_t, uint64_t *, size_t, const uint64_t *, size_t);
    lubewon_answer (*in_place)(uint64_t *, size_t, uint64_t *, size_t, const uint64_t *, size_t);
    uint64_t (*plain)(uint64_t);
} with_one[] = {
    {"floor", "floor in place", lubewon_floor_shares, lubewon_floor_in_place, lubewon_floor},
    {"truncate", "truncate in place", lubewon_truncate_shares, lubewon_truncate_in_place, lubewon_truncate},
    {"nearest", "nearest in place", lubewon_nearest_shares, lubewon_nearest_in_place, lubewon_nearest},
};

enum { WITH_TWO = sizeof with_two / sizeof *with_two, WITH_ONE = sizeof with_one / sizeof *with_one };

static void operations(size_t n) {
    for (size_t k = 0; k < WITH_TWO; k++) {
        all_secret();
        done(with_two[k].name, n, with_two[k].shares(x, n, y, n, result, n, work, LUBEWON_WORK, tape, TAPE));
        all_secret();
        done(with_two[k].name_in_place, n, with_two[k].in_place(x, n, y, n, work, LUBEWON_WORK, tape, TAPE));
    }
    for (size_t k = 0; k < WITH_ONE; k++) {
        all_secret();
        done(with_one[k].name, n, with_one[k].shares(x, n, result, n, work, LUBEWON_WORK, tape, TAPE));
        all_secret();
        done(with_one[k].name_in_place, n, with_one[k].in_place(x, n, work, LUBEWON_WORK, tape, TAPE));
    }
}

/* The complex product, and layers of four numbers at both distances. */
static void complex_calls(size_t n) {
    all_secret();
    done("complex product", n,
         lubewon_complex_product_shares(n, x, 2 * n, y, 2 * n, result, 2 * n, work, LUBEWON_WORK, tape, TAPE));
    for (size_t distance = 1; distance < COUNT; distance *= 2) {
        all_secret();
        done("layer", n,
             lubewon_layer_shares(n, COUNT, distance, numbers, 2 * COUNT * n, factors, COUNT / distance, work, LUBEWON_WORK, tape, TAPE));
    }
}

/* In a go, in pieces, and step by step, the head among the words. Programs are no secret, nor what puts a head before one. */
static void share_runs(size_t n) {
    lubewon_answer m = lubewon_translate(n, plan, PLAN, program, PROGRAM);
    done("translate", n, m);
    all_secret();
    done("share run", n, lubewon_share_run(n, program, m.words, 0, tape, TAPE, 0, m.words, cells, LUBEWON_CELLS));
    all_secret();
    for (size_t at = 0, tape_at = 0; at < m.words;) {
        lubewon_answer part = lubewon_share_run(n, program, m.words, at, tape, TAPE, tape_at, 501, cells, LUBEWON_CELLS);
        done("share run", n, part);
        at += part.words, tape_at += part.tape;
    }
    all_secret();
    for (size_t at = 0, tape_at = 0; at < m.words; at++) {
        lubewon_answer step = lubewon_one_share_step(program[at], tape, TAPE, tape_at, cells, LUBEWON_CELLS);
        done("one share step", n, step);
        tape_at += step.tape;
    }
}

static void split_and_join(size_t n) {
    all_secret();
    uint64_t word = 1;
    VALGRIND_MAKE_MEM_UNDEFINED(&word, sizeof word);
    done("split", n, lubewon_split(word, tape, N, x, n));
    done("join", n, lubewon_join(x, n).answer);
}

/* Every bit of an operand is undefined, so that one call stands for all operands: a path that a branch on one would choose is reported at it. */
static void plain_calls(void) {
    uint64_t a = 1, b = 2;
    VALGRIND_MAKE_MEM_UNDEFINED(&a, sizeof a);
    VALGRIND_MAKE_MEM_UNDEFINED(&b, sizeof b);
    for (size_t k = 0; k < WITH_TWO; k++) result[k] = with_two[k].plain(a, b);
    for (size_t k = 0; k < WITH_ONE; k++) result[WITH_TWO + k] = with_one[k].plain(a);
    all_secret();
    lubewon_complex z = lubewon_complex_product(x[0], x[1], y[0], y[1]);
    result[0] = z.re, result[1] = z.im;
    for (size_t distance = 1; distance < COUNT; distance *= 2) {
        all_secret();
        done("plain layer", 1, lubewon_layer(COUNT, distance, numbers, 2 * COUNT, factors, COUNT / distance));
    }
    all_secret();
    done("plain run", 1, lubewon_plain_run(plan, PLAN, cells, LUBEWON_REGISTERS));
}

int main(int argc, char **argv) {
    (void)argv;
    for (size_t n = LUBEWON_LEAST_SHARES; n <= LUBEWON_MOST_SHARES; n++) {
        operations(n);
        complex_calls(n);
        share_runs(n);
        split_and_join(n);
    }
    plain_calls();
    all_secret();
    if (argc > 1) { /* sabotage, which must be found: a branch on a share, and an address by one */
        if (x[0] & 1) puts("");
        volatile uint64_t got = work[x[1] & 7];
        (void)got;
    }
    SHOWN(x);
    return 0;
}
