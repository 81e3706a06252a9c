/* Groups: share run, one share step. What there is to say of heads is in test_heads.c. */
#include <stdlib.h>

#include "calls.h"
#include "check.h"
#include "input.h"
#include "tests.h"

static const size_t wrong[] = {0, 32, 511, 513}; /* lengths of the cells */

/* ---- Share run: over one random program, one word too long as a whole, and one tape ---- */

enum { TAPE = 600 };

/* The conditions, in the order in which they are looked at. */
enum { BAD_COUNT = 1, TOO_LONG = 2, WRONG_HEAD = 4, BAD_WORD = 8, WRONG_CELLS = 16, PAST_END = 32, TAPE_SHORT = 64, ALL = 127 };
static const uint32_t numbers[] = {1, 2, 8, 3, 4, 5, 6};

/* A head takes the first word's place; gives the word that was there. */
static uint32_t put_head(uint32_t *words, size_t n) {
    uint32_t before = words[0];
    words[0] = ref_head(n);
    return before;
}

/* Where, over how much tape and how far: by the conditions. */
static void run_with(unsigned mask, size_t n, const uint32_t *words, size_t len, const uint64_t *tape) {
    uint64_t cells[REF_CELLS + 1];
    size_t place = 0, tape_len = mask & TAPE_SHORT ? 0 : below(2) ? 220 : TAPE, tape_place = 0, budget = below(mask & TOO_LONG ? 500 : len + 9);
    if (mask & TAPE_SHORT) place = below(2), budget = 2 + below(9); /* the second word is a RAND */
    if (mask & PAST_END && below(2)) place = below(2) ? len + 1 : SIZE_MAX;
    else if (mask & PAST_END) tape_place = below(2) ? tape_len + 1 : SIZE_MAX;
    fill(cells, COUNT(cells));
    try_share_run(first_that_applies(mask, numbers, COUNT(numbers)), n, words, len, place, tape, tape_len, tape_place, budget, cells,
                  mask & WRONG_CELLS ? wrong[below(COUNT(wrong))] : REF_CELLS);
}

/* The count that is told, and the program: by the conditions. An empty one has no further word that could be bad. */
static void share_run_by(unsigned mask, uint32_t *program, const uint64_t *tape) {
    size_t n = mask & BAD_COUNT ? bad_share_count() : 2 + below(7);
    size_t len = mask & TOO_LONG ? REF_PROGRAM_LIMIT + 1 : 2 + below(200), start = mask & TOO_LONG ? 0 : below(1000);
    uint32_t *words = program + start, *spoilt = words + 1 + below(len - 1), good = *spoilt, first = words[0], second = words[1];
    words[0] = mask & WRONG_HEAD ? wrong_head(n % 512) : ref_head(n % 512);
    if (mask & TAPE_SHORT) words[1] = ref_word(REF_RAND, below(512), 0, 0);
    if (mask & BAD_WORD) *spoilt = bad_behind_head();
    if (mask & WRONG_HEAD && !(mask & (TOO_LONG | BAD_WORD | TAPE_SHORT)) && below(4) == 0) len = 0;
    run_with(mask, n, words, len, tape);
    *spoilt = good, words[0] = first, words[1] = second;
}

static void share_run_turn_downs(uint32_t *program, const uint64_t *tape) {
    for (unsigned mask = 0; mask <= ALL; mask++)
        for (int round = 0; round < (mask & TOO_LONG ? 1 : 60); round++) share_run_by(mask, program, tape);
}

static void random_share_runs(uint32_t *program, const uint64_t *tape) {
    uint64_t cells[REF_CELLS];
    for (int round = 0; round < 6000; round++) { /* any place, tape and budget; 6 just where the tape is too short */
        size_t len = below(150), place = below(len + 2), tape_len = below(40), tape_place = below(tape_len + 2), n = 2 + below(7);
        size_t budget = below(8) == 0 ? SIZE_MAX : below(8) == 0 ? 0 : below(len + 2), told = below(16) ? n : below(10);
        uint32_t *words = program + below(100000), before = put_head(words, n);
        fill(cells, REF_CELLS);
        try_share_run(ANY, told, words, len, place, tape, tape_len, tape_place, budget, cells, REF_CELLS);
        words[0] = before;
    }
}

/* The tape just long enough, and one word short. */
static void share_runs_to_the_tapes_end(uint32_t *program, const uint64_t *tape, uint64_t *cells) {
    for (int round = 0; round < 400; round++) {
        size_t len = 20 + below(100), budget = 1 + below(len), rands = 0, tape_place = below(9), n = 2 + below(7);
        uint32_t *words = program + below(100000), before = put_head(words, n);
        for (size_t i = 0; i < budget; i++) rands += words[i] >> 28 == REF_RAND;
        fill(cells, REF_CELLS);
        lubewon_answer a = try_share_run(0, n, words, len, 0, tape, tape_place + rands, tape_place, budget, cells, REF_CELLS);
        CHECK(a.words == budget && a.tape == rands, "share run: counts");
        if (rands) try_share_run(6, n, words, len, 0, tape, tape_place + rands - 1, tape_place, budget, cells, REF_CELLS);
        words[0] = before;
    }
}

static void share_runs_by_hand(const uint64_t *tape, uint64_t *cells) {
    const uint32_t program[2] = {0xA0080000, 0x90000000}; /* the head of two shares, RAND 0 */
    fill(cells, REF_CELLS);
    try_share_run(6, 2, program, 2, 0, tape, 0, 0, 2, cells, REF_CELLS);
    try_share_run(6, 2, program, 2, 1, tape, 0, 0, 1, cells, REF_CELLS);
    lubewon_answer a = try_share_run(0, 2, program, 2, 1, tape, 0, 0, 0, cells, REF_CELLS);
    CHECK(a.words == 0 && a.tape == 0, "share run: budget 0 does nothing, even over an empty tape");
    a = try_share_run(0, 2, program, 2, 2, tape, 3, 3, 9, cells, REF_CELLS);
    CHECK(a.words == 0 && a.tape == 0, "share run: places equal to the lengths");
    try_share_run(5, 2, program, 2, 3, tape, 0, 0, 1, cells, REF_CELLS);
    a = try_share_run(0, 2, program, 2, 0, tape, 1, 0, 2, cells, REF_CELLS);
    CHECK(a.words == 2 && a.tape == 1 && cells[0] == tape[0], "share run: a head and a RAND");
}

/* At the limit, and one word above it. */
static void longest_share_runs(uint32_t *program, const uint64_t *tape, uint64_t *cells) {
    const size_t most = REF_PROGRAM_LIMIT;
    put_head(program, 5);
    fill(cells, REF_CELLS);
    lubewon_answer a = try_share_run(0, 5, program, most, most - 50, tape, TAPE, 0, 99, cells, REF_CELLS);
    CHECK(a.words == 50, "share run: the end of the longest program");
    try_share_run(2, 5, program, most + 1, most - 50, tape, TAPE, 0, 99, cells, REF_CELLS);
    try_share_run(8, 4, program, most, most - 50, tape, TAPE, 0, 99, cells, REF_CELLS);
    program[most - 1] = bad_behind_head();
    a = try_share_run(3, 5, program, most, 0, tape, TAPE, 0, 0, cells, REF_CELLS);
    CHECK(a.place == most - 1, "share run: the whole program is checked first");
}

void test_share_run(void) {
    uint32_t *program = grab((REF_PROGRAM_LIMIT + 1) * sizeof *program);
    uint64_t tape[TAPE], cells[REF_CELLS];
    begin("share run");
    random_program(program, REF_PROGRAM_LIMIT + 1);
    fill(tape, TAPE);
    share_run_turn_downs(program, tape);
    random_share_runs(program, tape);
    share_runs_to_the_tapes_end(program, tape, cells);
    share_runs_by_hand(tape, cells);
    longest_share_runs(program, tape, cells);
    free(program);
    end("1, 2, 8, 3 to 6 in all combinations, random programs, places, tapes and budgets, tape one word short, the longest program");
}

/* ---- One share step ---- */

static uint32_t random_step(void) {
    return below(8) ? random_share_word() : ref_head(2 + below(7));
}

void test_one_share_step(void) {
    static const uint32_t step_numbers[] = {3, 4, 5, 6};
    uint64_t cells[REF_CELLS + 1], tape[8];
    begin("one share step");
    fill(tape, COUNT(tape));
    for (unsigned mask = 0; mask < 16; mask++)
        for (int round = 0; round < 200; round++) {
            size_t tape_len = below(7), tape_place = below(tape_len + 1);
            uint32_t word = mask & 8 ? ref_word(REF_RAND, below(512), 0, 0) : random_step();
            if (mask & 8) tape_place = tape_len;
            else if (tape_place == tape_len) tape_len++;
            if (mask & 4) tape_place = below(2) ? tape_len + 1 : SIZE_MAX;
            if (mask & 1) word = bad_share_word();
            fill(cells, COUNT(cells));
            try_one_share_step(first_that_applies(mask, step_numbers, 4), word, tape, tape_len, tape_place, cells,
                               mask & 2 ? wrong[below(COUNT(wrong))] : REF_CELLS);
        }
    for (int round = 0; round < 2000; round++) { /* the end of the tape is a place for every word but RAND */
        uint32_t word = random_step();
        size_t tape_len = below(8);
        fill(cells, REF_CELLS);
        lubewon_answer a = try_one_share_step(word >> 28 == REF_RAND ? 6 : 0, word, tape, tape_len, tape_len, cells, REF_CELLS);
        CHECK(a.words == (a.number == 0) && a.tape == 0, "one share step: counts");
    }
    end("3 to 6 in all combinations, random words, heads among them");
}
