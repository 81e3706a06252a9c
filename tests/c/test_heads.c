/* Group: heads. A run's first word, heads at every other place, what a head does in a run and alone, and the count that a run is told. */
#include <string.h>

#include "calls.h"
#include "check.h"
#include "input.h"
#include "tests.h"

enum { LEN = 12, TAPE = 16 };

/* The count that the reader keeps, a program of good words behind its head, a tape, and the cells at the start and now. */
typedef struct {
    size_t n;
    uint32_t program[LEN];
    uint64_t tape[TAPE], start[REF_CELLS], cells[REF_CELLS];
} job;

static job prepare(size_t n) {
    job j = {.n = n};
    random_program(j.program, LEN);
    j.program[0] = ref_head(n);
    fill(j.tape, TAPE);
    fill(j.start, REF_CELLS);
    memcpy(j.cells, j.start, sizeof j.cells);
    return j;
}

static lubewon_answer run(uint32_t number, job *j, size_t told, size_t len, size_t place, size_t budget) {
    return try_share_run(number, told, j->program, len, place, j->tape, TAPE, 0, budget, j->cells, REF_CELLS);
}

static void unmoved(const job *j, const char *what) {
    CHECK(memcmp(j->cells, j->start, sizeof j->cells) == 0, "heads: cells changed by %s, n = %zu", what, j->n);
}

/* ---- A run's first word ---- */

/* From the start, from later places and from the end, with no budget too: the first word decides. */
static void try_first_word(job *j, uint32_t word) {
    const uint32_t number = word == UINT32_C(0xA0000000) + (uint32_t)j->n * 0x40000 ? 0 : 8;
    j->program[0] = word;
    memcpy(j->cells, j->start, sizeof j->cells);
    run(number, j, j->n, LEN, 0, 0);
    run(number, j, j->n, LEN, LEN, 9);
    run(number, j, j->n, 1, 0, 9);
    unmoved(j, "a run that does at most the head");
    run(number, j, j->n, LEN, 0, LEN);
    run(number, j, j->n, LEN, 1 + below(LEN - 1), 1 + below(LEN));
    if (number != 0) unmoved(j, "a run with another first word");
    j->program[0] = ref_head(j->n);
}

static void first_words(job *j) {
    for (size_t count = 0; count < 512; count++) try_first_word(j, ref_head(count));
    for (unsigned bit = 0; bit < 32; bit++) try_first_word(j, ref_head(j->n) ^ UINT32_C(1) << bit);
    for (unsigned kind = 0; kind < 16; kind++) try_first_word(j, ref_word(kind, (unsigned)j->n, 0, 0));
    for (int round = 0; round < 100; round++) try_first_word(j, wrong_head(j->n));
    try_first_word(j, 0x20080001);
}

/* Without a word there is no head: 8, whatever else is wrong behind it. */
static void no_program(job *j) {
    memcpy(j->cells, j->start, sizeof j->cells);
    run(8, j, j->n, 0, 0, 0);
    run(8, j, j->n, 0, 0, 9);
    run(8, j, j->n, 0, 1, 9);
    try_share_run(8, j->n, j->program, 0, SIZE_MAX, j->tape, TAPE, SIZE_MAX, 9, j->cells, REF_CELLS - 1);
    run(1, j, 0, 0, 0, 9);
    unmoved(j, "a run of no program");
}

/* A translation for n shares goes where the reader keeps n, and nowhere else. */
static void told_counts(job *j) {
    static const size_t others[] = {0, 1, 9, 10, 16, 511, 512, 514, 520, (size_t)1 << 32 | 3, SIZE_MAX};
    uint32_t plan[4], program[2048];
    for (size_t i = 0; i < COUNT(plan); i++) plan[i] = plan_word_of(below(2) ? REF_XOR : REF_AND);
    size_t words = ref_measure(j->n, plan, COUNT(plan)).words;
    uint64_t tape[256];
    fill(tape, COUNT(tape));
    try_translate(0, j->n, plan, COUNT(plan), program, COUNT(program));
    memcpy(j->cells, j->start, sizeof j->cells);
    for (size_t i = 0; i < COUNT(others); i++)
        try_share_run(1, others[i], program, words, 0, tape, COUNT(tape), 0, words, j->cells, REF_CELLS);
    for (size_t told = 2; told <= 8; told++) {
        if (told == j->n) continue;
        try_share_run(8, told, program, words, 0, tape, COUNT(tape), 0, words, j->cells, REF_CELLS);
        try_share_run(8, told, program, words, words, tape, COUNT(tape), 0, words, j->cells, REF_CELLS);
    }
    unmoved(j, "a run told another count");
    try_share_run(0, j->n, program, words, 0, tape, COUNT(tape), 0, words, j->cells, REF_CELLS);
}

/* ---- Heads at other places ---- */

static void heads_behind_the_first(job *j) {
    memcpy(j->cells, j->start, sizeof j->cells);
    for (size_t place = 1; place < LEN; place++)
        for (size_t count = 0; count <= 9; count++) {
            uint32_t before = j->program[place];
            j->program[place] = ref_head(count);
            CHECK(run(3, j, j->n, LEN, 0, LEN).place == place, "heads: place of a head behind the first");
            CHECK(run(3, j, j->n, LEN, place, 1).place == place, "heads: a run from a head behind the first");
            CHECK(run(3, j, j->n, LEN, LEN, 0).place == place, "heads: a run behind it");
            run(0, j, j->n, place, place, 1); /* the program in front of it is good */
            j->program[0] = wrong_head(j->n);
            run(8, j, j->n, LEN, 0, LEN);
            j->program[0] = ref_head(j->n), j->program[place] = before;
        }
    unmoved(j, "a head behind the first");
}

static void heads_in_plans(size_t n) {
    uint32_t plan[LEN], out[64];
    uint64_t registers[REF_REGISTERS];
    memset(out, 0, sizeof out);
    fill(registers, REF_REGISTERS);
    for (size_t place = 0; place < LEN; place++) {
        random_plan(plan, LEN);
        plan[place] = ref_head(n);
        CHECK(try_measure(3, n, plan, LEN).place == place, "heads: a plan with a head is measured");
        CHECK(try_translate(3, n, plan, LEN, out, COUNT(out)).place == place, "heads: a plan with a head is translated");
        CHECK(try_plain_run(3, plan, LEN, registers, REF_REGISTERS).place == place, "heads: a plan with a head is run");
    }
}

/* ---- What a head does ---- */

static void budgets_at_the_head(job *j) {
    memcpy(j->cells, j->start, sizeof j->cells);
    j->program[1] = ref_word(REF_RAND, below(512), 0, 0);
    CHECK(run(0, j, j->n, LEN, 0, 0).words == 0, "heads: budget 0");
    lubewon_answer a = run(0, j, j->n, LEN, 0, 1);
    CHECK(a.words == 1 && a.tape == 0, "heads: budget 1 does the head");
    a = try_share_run(0, j->n, j->program, LEN, 0, j->tape, 0, 0, 1, j->cells, REF_CELLS);
    CHECK(a.words == 1 && a.tape == 0, "heads: the head needs no tape");
    a = run(0, j, j->n, 1, 0, SIZE_MAX);
    CHECK(a.words == 1 && a.tape == 0, "heads: the head alone");
    CHECK(run(0, j, j->n, 1, 1, SIZE_MAX).words == 0, "heads: behind the head alone");
    run(5, j, j->n, 1, 2, 0);
    try_share_run(6, j->n, j->program, LEN, 0, j->tape, 0, 0, 2, j->cells, REF_CELLS);
    unmoved(j, "a run that does at most the head");
    a = run(0, j, j->n, LEN, 0, 2);
    CHECK(a.words == 2 && a.tape == 1 && j->cells[j->program[1] >> 18 & 511] == j->tape[0], "heads: budget 2 does the RAND behind it");
}

/* From each place the words behind it, as the reference runs them without a head. */
static void later_places(job *j) {
    for (size_t place = 0; place <= LEN; place++)
        for (size_t budget = 0; budget <= LEN + 1; budget++) {
            size_t count = budget < LEN - place ? budget : LEN - place, from = place ? place : 1, skipped = place == 0 && count > 0;
            uint64_t headless[REF_CELLS];
            memcpy(headless, j->start, sizeof headless), memcpy(j->cells, j->start, sizeof j->cells);
            size_t used = ref_run_words(j->program + from, count - skipped, j->tape, headless);
            lubewon_answer a = run(0, j, j->n, LEN, place, budget);
            CHECK(a.words == count && a.tape == used, "heads: counts from place %zu", place);
            CHECK(memcmp(j->cells, headless, sizeof headless) == 0, "heads: cells from place %zu", place);
        }
}

/* One share step of a word that is a head or nearly one: with no tape word left too. */
static void try_step(job *j, uint32_t word, uint32_t number) {
    lubewon_answer a = try_one_share_step(number, word, j->tape, TAPE, below(TAPE + 1), j->cells, REF_CELLS);
    CHECK(a.place == 0 && a.words == (number == 0) && a.tape == 0, "heads: counts of one share step, word %08X", word);
    try_one_share_step(number, word, j->tape, 0, 0, j->cells, REF_CELLS);
    try_one_share_step(number ? 3 : 4, word, j->tape, TAPE, 0, j->cells, REF_CELLS - 1);
    try_one_share_step(number ? 3 : 4, word, j->tape, TAPE, TAPE + 1, j->cells, 0);
    try_one_share_step(number ? 3 : 5, word, j->tape, TAPE, TAPE + 1, j->cells, REF_CELLS);
}

/* Just the seven heads are done, and change no cell. */
static void heads_alone(job *j) {
    static const unsigned fields[] = {0, 1, 2, 256, 511};
    memcpy(j->cells, j->start, sizeof j->cells);
    for (unsigned count = 0; count < 512; count++)
        for (size_t a = 0; a < COUNT(fields); a++)
            for (size_t b = 0; b < COUNT(fields); b++)
                for (uint32_t spare = 0; spare < 2; spare++) {
                    bool head = count >= 2 && count <= 8 && fields[a] == 0 && fields[b] == 0 && spare == 0;
                    try_step(j, ref_word(REF_HEAD, count, fields[a], fields[b]) | spare << 27, head ? 0 : 3);
                }
    unmoved(j, "a head alone");
}

void test_heads(void) {
    begin("heads");
    for (size_t n = 2; n <= 8; n++) {
        job j = prepare(n);
        first_words(&j);
        no_program(&j);
        told_counts(&j);
        heads_behind_the_first(&j);
        heads_in_plans(n);
        budgets_at_the_head(&j);
        later_places(&j);
    }
    job j = prepare(2);
    heads_alone(&j);
    end("every first word of a run, told counts, heads behind the first and in plans, budgets 0 to 2, later places, one share step of any count");
}
