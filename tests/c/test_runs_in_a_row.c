/* Group: share runs in a row, over long enough and over short tapes, with runs told another count in between. */
#include <stdbool.h>
#include <stdlib.h>
#include <string.h>

#include "calls.h"
#include "check.h"
#include "input.h"
#include "tests.h"

/* What a plan is run with for n shares: its counts as measured, its share program, a tape, and the cells at the start. */
typedef struct {
    size_t n, words, tape_words, tape_len;
    uint32_t *program;
    uint64_t *tape, start[REF_CELLS];
} job;

static job prepare(size_t n, const uint32_t *plan, size_t plan_len, size_t tape_len) {
    ref_answer measured = ref_measure(n, plan, plan_len);
    job j = {.n = n, .words = measured.words, .tape_words = measured.tape, .tape_len = tape_len};
    j.program = grab(j.words * sizeof *j.program);
    j.tape = grab(tape_len * sizeof *j.tape);
    CHECK(lubewon_translate(n, plan, plan_len, j.program, j.words).number == 0, "translate");
    fill(j.tape, tape_len);
    fill(j.start, REF_CELLS);
    return j;
}

static void put_away(job *j) {
    free(j->program);
    free(j->tape);
}

static void join_registers(size_t n, const uint64_t *cells, uint64_t *registers) {
    for (size_t r = 0; r < REF_REGISTERS; r++) {
        registers[r] = 0;
        for (size_t i = 0; i < n; i++) registers[r] ^= cells[32 * i + r];
    }
}

/* AND's scratch cells for n shares that are not zero: y and z of each share, t and u. */
static size_t scratch_left(size_t n, const uint64_t *cells) {
    size_t left = (cells[272] != 0) + (cells[273] != 0);
    for (size_t i = 0; i < n; i++) left += (cells[256 + i] != 0) + (cells[264 + i] != 0);
    return left;
}

static size_t random_budget(size_t words) {
    switch (below(6)) {
    case 0: return below(3) ? below(4) : 0;
    case 1: return below(words + 2) | 1;
    case 2: return below(9) ? 1 + below(40) : SIZE_MAX;
    default: return (words / (1 + below(24)) + below(3)) | 1;
    }
}

/* A run told another count than n: turned down, by 1 or 8, and it moves nothing. */
static void told_another(const job *j, size_t place, size_t tape_place, size_t budget, uint64_t *cells) {
    uint64_t before[REF_CELLS];
    size_t told = below(3) ? 2 + below(7) : bad_share_count();
    if (told == j->n) told = j->n == 8 ? 2 : j->n + 1;
    memcpy(before, cells, sizeof before);
    lubewon_answer a = try_share_run(told < 2 || told > 8 ? 1 : 8, told, j->program, j->words, place, j->tape, j->tape_len, tape_place, budget,
                                     cells, REF_CELLS);
    CHECK(a.words == 0 && a.tape == 0 && memcmp(cells, before, sizeof before) == 0, "runs in a row: one told %zu instead of %zu", told, j->n);
}

/* One run in a go leaves `whole`; the other ways must leave the same cells. */
static void in_a_go(const job *j, size_t tape_place, uint64_t *whole) {
    memcpy(whole, j->start, sizeof j->start);
    lubewon_answer a = try_share_run(0, j->n, j->program, j->words, 0, j->tape, j->tape_len, tape_place, SIZE_MAX, whole, REF_CELLS);
    CHECK(a.words == j->words && a.tape == j->tape_words, "one run in a go: %zu words and %zu tape words, measured %zu and %zu", a.words,
          a.tape, j->words, j->tape_words);
}

static void in_pieces(const job *j, size_t tape_place, const uint64_t *whole) {
    uint64_t row[REF_CELLS];
    size_t place = 0, used = 0;
    memcpy(row, j->start, sizeof row);
    for (int run = 0; place < j->words; run++) {
        size_t budget = run < 60 ? random_budget(j->words) : SIZE_MAX, left = j->words - place;
        if (below(3) == 0) told_another(j, place, tape_place + used, budget, row);
        lubewon_answer a = try_share_run(0, j->n, j->program, j->words, place, j->tape, j->tape_len, tape_place + used, budget, row, REF_CELLS);
        CHECK(a.words == (budget < left ? budget : left), "runs in a row: words done");
        place += a.words;
        used += a.tape;
    }
    told_another(j, place, tape_place + used, 1, row);
    CHECK(used == j->tape_words, "runs in a row: tape words");
    CHECK(memcmp(row, whole, sizeof row) == 0, "runs in a row and one run in a go leave different cells");
}

static void step_by_step(const job *j, size_t tape_place, const uint64_t *whole) {
    uint64_t steps[REF_CELLS];
    size_t used = 0;
    memcpy(steps, j->start, sizeof steps);
    for (size_t i = 0; i < j->words; i++) {
        lubewon_answer a = lubewon_one_share_step(j->program[i], j->tape, j->tape_len, tape_place + used, steps, REF_CELLS);
        CHECK(a.number == 0 && a.words == 1, "one share step in a row");
        used += a.tape;
    }
    CHECK(used == j->tape_words && memcmp(steps, whole, sizeof steps) == 0, "one step at a time and one run in a go");
}

/* Runs in a row over a long enough tape against one run in a go, one step at a time, the reference and the plain run. */
static void runs_in_a_row(size_t n, const uint32_t *plan, size_t plan_len) {
    size_t tape_place = below(5), tape_len = tape_place + ref_measure(n, plan, plan_len).tape + below(3);
    job j = prepare(n, plan, plan_len, tape_len);
    uint64_t whole[REF_CELLS], joined[REF_REGISTERS], registers[REF_REGISTERS];
    in_a_go(&j, tape_place, whole);
    in_pieces(&j, tape_place, whole);
    step_by_step(&j, tape_place, whole);
    join_registers(n, j.start, registers);
    join_registers(n, whole, joined);
    CHECK(lubewon_plain_run(plan, plan_len, registers, REF_REGISTERS).number == 0, "plain run");
    CHECK(memcmp(joined, registers, sizeof joined) == 0, "the shares do not join to the plain run's registers, n = %zu", n);
    put_away(&j);
}

/* After each plan word the registers join to the plain run so far, the tape words used are those foretold, and from the first AND or ADD on
 * AND's scratch cells are zero. The head is done first, by itself. */
static void word_by_word(size_t n, const uint32_t *plan, size_t plan_len) {
    job j = prepare(n, plan, plan_len, ref_measure(n, plan, plan_len).tape);
    uint64_t *cells = j.start, joined[REF_REGISTERS], registers[REF_REGISTERS];
    size_t place = try_share_run(0, n, j.program, j.words, 0, j.tape, j.tape_len, 0, 1, cells, REF_CELLS).words, used = 0;
    bool wiped = false;
    CHECK(place == 1, "word by word: the head");
    join_registers(n, cells, registers);
    for (size_t k = 0; k < plan_len; k++) {
        lubewon_answer block = lubewon_measure(n, plan + k, 1); /* with a head of its own */
        lubewon_answer a = try_share_run(0, n, j.program, j.words, place, j.tape, j.tape_len, used, block.words - 1, cells, REF_CELLS);
        CHECK(a.words == block.words - 1 && a.tape == block.tape, "word by word: counts of plan word %08X for n = %zu", plan[k], n);
        place += a.words;
        used += a.tape;
        try_plain_run(0, plan + k, 1, registers, REF_REGISTERS);
        join_registers(n, cells, joined);
        CHECK(memcmp(joined, registers, sizeof joined) == 0, "word by word: plan word %08X for n = %zu joins wrongly", plan[k], n);
        wiped |= plan[k] >> 28 == REF_AND || plan[k] >> 28 == REF_ADD;
        CHECK(!wiped || scratch_left(n, cells) == 0, "word by word: scratch left after plan word %08X for n = %zu", plan[k], n);
    }
    CHECK(place == j.words && used == j.tape_words, "word by word: the whole program");
    put_away(&j);
}

/* Over a tape that is too short: a refused run moves nothing, and smaller budgets go on up to the RAND without a tape word. */
static void runs_to_the_tapes_end(size_t n, const uint32_t *plan, size_t plan_len) {
    size_t need = ref_measure(n, plan, plan_len).tape, place = 0, used = 0, last = 0;
    if (need == 0) return;
    job j = prepare(n, plan, plan_len, below(need));
    uint64_t *cells = j.start;
    for (size_t rands = 0; rands <= j.tape_len; last++) rands += j.program[last] >> 28 == REF_RAND;
    last--; /* the place of the first RAND without a tape word */
    try_share_run(6, n, j.program, j.words, 0, j.tape, j.tape_len, 0, SIZE_MAX, cells, REF_CELLS);
    for (int run = 0; place < last; run++) {
        size_t budget = run < 20 ? random_budget(j.words) : last - place;
        uint32_t number = budget > last - place ? 6 : 0;
        if (below(3) == 0) told_another(&j, place, used, budget, cells);
        lubewon_answer a = try_share_run(number, n, j.program, j.words, place, j.tape, j.tape_len, used, budget, cells, REF_CELLS);
        place += a.words;
        used += a.tape;
    }
    CHECK(place == last && used == j.tape_len, "runs to the tape's end: stopped at %zu of %zu", place, last);
    try_share_run(6, n, j.program, j.words, place, j.tape, j.tape_len, used, 1, cells, REF_CELLS);
    told_another(&j, place, used, 1, cells);
    put_away(&j);
}

void test_runs_in_a_row(void) {
    uint32_t plan[64];
    begin("share runs in a row");
    for (size_t n = 2; n <= 8; n++) {
        runs_in_a_row(n, plan, 0);
        for (int round = 0; round < 20; round++) {
            size_t len = 1 + below(n < 5 ? 24 : 10);
            random_plan(plan, len);
            runs_in_a_row(n, plan, len);
            runs_to_the_tapes_end(n, plan, len);
        }
        for (unsigned kind = 1; kind <= 8; kind++)
            for (int round = 0; round < 10; round++) {
                plan[0] = plan_word_of(kind);
                word_by_word(n, plan, 1);
                runs_in_a_row(n, plan, 1);
            }
        plan[0] = ref_word(REF_AND, 1, 1, 1), plan[1] = ref_word(REF_ADD, 1, 1, 1), plan[2] = ref_word(REF_XOR, 1, 1, 1);
        plan[3] = ref_word(REF_NOT, 1, 1, 0);
        word_by_word(n, plan, 4);
        for (int round = 0; round < 6; round++) {
            size_t len = 1 + below(16);
            random_plan(plan, len);
            word_by_word(n, plan, len);
        }
    }
    end("random plans for n = 2..8: in pieces, in a go, step by step, joined against plain run, scratch wiped, short tapes, other counts in between");
}
