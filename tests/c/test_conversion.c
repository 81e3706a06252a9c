/* Group: add head, the conversion of stored programs that have none. */
#include <stdlib.h>
#include <string.h>

#include "calls.h"
#include "check.h"
#include "input.h"
#include "tests.h"

enum { SMALL = 200, ROOM = REF_STORED_LIMIT + 16 }; /* a stored program's usual length; words of the two long slices */

/* ---- Turn-downs: over one random program, one word too long as a whole ---- */

enum { BAD_COUNT = 1, TOO_LONG = 2, BAD_WORD = 4, SHORT = 8 };

static void convert_by(unsigned mask, uint32_t *stored, uint32_t *out) {
    static const uint32_t numbers[] = {1, 2, 3, 4};
    size_t n = mask & BAD_COUNT ? bad_share_count() : 2 + below(7);
    size_t len = mask & TOO_LONG ? REF_STORED_LIMIT + 1 : (mask & BAD_WORD) / BAD_WORD + below(SMALL), at = len ? below(len) : 0;
    size_t out_len = mask & SHORT ? (below(2) ? len : below(len + 1)) : len + 1 + below(5);
    uint32_t good = stored[at];
    if (mask & BAD_WORD) stored[at] = bad_behind_head();
    for (size_t i = 0; i < out_len && i < 2 * SMALL; i++) out[i] = (uint32_t)random_word();
    lubewon_answer a = try_add_head(first_that_applies(mask, numbers, COUNT(numbers)), n, stored, len, out, out_len);
    CHECK(a.place == (a.number == 3 ? at : 0), "add head: place of the bad word");
    stored[at] = good;
}

static void turn_downs(uint32_t *stored, uint32_t *out) {
    for (unsigned mask = 0; mask < 16; mask++)
        for (int round = 0; round < (mask & TOO_LONG ? 1 : 120); round++) convert_by(mask, stored, out);
}

/* The first of several bad words; heads of every count at every place, the first one included. */
static void places(uint32_t *out) {
    uint32_t stored[40];
    for (size_t place = 0; place < COUNT(stored); place++) {
        random_program(stored, COUNT(stored));
        stored[COUNT(stored) - 1] = bad_behind_head();
        stored[place] = bad_behind_head();
        CHECK(try_add_head(3, 2 + below(7), stored, COUNT(stored), out, COUNT(stored) + 1).place == place, "add head: the first bad word");
        for (size_t n = 2; n <= 8; n++)
            for (size_t count = 0; count <= 9; count++) {
                stored[place] = ref_head(count);
                CHECK(try_add_head(3, n, stored, COUNT(stored), out, COUNT(stored) + 1).place == place, "add head: a head in a stored program");
            }
    }
}

/* ---- By hand ---- */

static void example(void) {
    const uint32_t stored[3] = {0x20080001, 0x20884021, 0x80080001}; /* XOR 2 0 1 on two shares, and an ADD */
    uint32_t out[5] = {1, 2, 3, 4, 5};
    lubewon_answer a = try_add_head(0, 2, stored, 2, out, 5);
    CHECK(a.words == 3 && a.tape == 0, "add head: the example's counts");
    CHECK(out[0] == 0xA0080000 && out[1] == stored[0] && out[2] == stored[1] && out[3] == 4 && out[4] == 5, "add head: the example");
    try_add_head(0, 2, stored, 2, out, 3);
    try_add_head(4, 2, stored, 2, out, 2);
    CHECK(try_add_head(3, 2, stored, 3, out, 5).place == 2, "add head: ADD is no share word");
    CHECK(try_add_head(3, 2, out, 3, (uint32_t[4]){0}, 4).place == 0, "add head: a program that has its head already");
}

static void nothing_stored(void) {
    for (size_t n = 2; n <= 8; n++) {
        uint32_t none = 0, out[2] = {7, 7};
        try_add_head(4, n, &none, 0, out, 0);
        lubewon_answer a = try_add_head(0, n, &none, 0, out, 1);
        CHECK(a.words == 1 && a.tape == 0, "add head: counts of an empty program");
        CHECK(out[0] == UINT32_C(0xA0000000) + n * 0x40000 && out[1] == 7, "add head: an empty program, n = %zu", n);
        out[0] = 7;
        try_add_head(0, n, &none, 0, out, 2);
        CHECK(out[1] == 7, "add head: past the head");
    }
}

static void every_length(void) {
    uint32_t stored[9], out[16];
    random_program(stored, COUNT(stored));
    for (size_t n = 2; n <= 8; n++)
        for (size_t len = 0; len <= COUNT(stored); len++)
            for (size_t out_len = 0; out_len <= COUNT(out); out_len++) {
                for (size_t i = 0; i < COUNT(out); i++) out[i] = (uint32_t)random_word();
                try_add_head(out_len > len ? 0 : 4, n, stored, len, out, out_len);
            }
}

/* ---- Conversions that are run ---- */

/* The run of the converted program, in a go or in two, leaves what the reference makes of the stored words. */
static void run_converted(size_t n, const uint32_t *stored, size_t len, const uint32_t *out) {
    size_t rands = 0, cut = below(len + 2);
    for (size_t i = 0; i < len; i++) rands += stored[i] >> 28 == REF_RAND;
    uint64_t *tape = grab(rands * sizeof *tape), headless[REF_CELLS], whole[REF_CELLS], parts[REF_CELLS];
    fill(tape, rands);
    fill(headless, REF_CELLS);
    memcpy(whole, headless, sizeof whole), memcpy(parts, headless, sizeof parts);
    CHECK(ref_run_words(stored, len, tape, headless) == rands, "add head: tape words of the reference");
    lubewon_answer a = try_share_run(0, n, out, len + 1, 0, tape, rands, 0, SIZE_MAX, whole, REF_CELLS);
    CHECK(a.words == len + 1 && a.tape == rands, "add head: counts of a run");
    CHECK(memcmp(whole, headless, sizeof whole) == 0, "add head: the run of a converted program, n = %zu", n);
    a = try_share_run(0, n, out, len + 1, 0, tape, rands, 0, cut, parts, REF_CELLS);
    a = try_share_run(0, n, out, len + 1, a.words, tape, rands, a.tape, SIZE_MAX, parts, REF_CELLS);
    CHECK(memcmp(parts, headless, sizeof parts) == 0, "add head: two runs of a converted program, n = %zu", n);
    try_share_run(8, n == 8 ? 2 : n + 1, out, len + 1, 0, tape, rands, 0, SIZE_MAX, parts, REF_CELLS);
    if (len) try_share_run(8, n, stored, len, 0, tape, rands, 0, SIZE_MAX, parts, REF_CELLS);
    free(tape);
}

/* The words behind a translation's head give the translation back; with another count nothing but the head differs. */
static void translations(uint32_t *program, uint32_t *out) {
    uint32_t plan[24];
    for (size_t n = 2; n <= 8; n++)
        for (int round = 0; round < 40; round++) {
            size_t plan_len = below(n < 5 ? 24 : 10), other = 2 + below(7);
            random_plan(plan, plan_len);
            ref_answer measured = ref_measure(n, plan, plan_len);
            CHECK(lubewon_translate(n, plan, plan_len, program, measured.words).words == measured.words, "add head: translate");
            lubewon_answer a = try_add_head(0, n, program + 1, measured.words - 1, out, measured.words);
            CHECK(a.words == measured.words && a.tape == measured.tape, "add head: counts of a translation");
            CHECK(memcmp(out, program, measured.words * sizeof *out) == 0, "add head: a translation's words, n = %zu", n);
            run_converted(n, program + 1, measured.words - 1, out);
            try_add_head(3, n, program, measured.words, out, measured.words + 1);
            try_add_head(0, other, program + 1, measured.words - 1, out, measured.words);
            CHECK(out[0] == ref_head(other), "add head: another count");
            CHECK(memcmp(out + 1, program + 1, (measured.words - 1) * sizeof *out) == 0, "add head: another count's words");
        }
}

/* AND as it was stored before its cells were wiped: without its last 2n + 2 words. */
static void unwiped(uint32_t *program, uint32_t *out) {
    for (size_t n = 2; n <= 8; n++) {
        uint32_t plan = plan_word_of(REF_AND);
        size_t words = 5 * n * n + 2 - (2 * n + 2);
        ref_translate(n, &plan, 1, program, 5 * n * n + 3);
        lubewon_answer a = try_add_head(0, n, program + 1, words, out, words + 1);
        CHECK(a.words == words + 1 && a.tape == n * (n - 1), "add head: counts of an AND that wipes nothing");
        run_converted(n, program + 1, words, out);
    }
}

static void random_programs(const uint32_t *stored, uint32_t *out) {
    for (int round = 0; round < 400; round++) {
        size_t n = 2 + below(7), len = below(SMALL);
        const uint32_t *words = stored + below(100000);
        try_add_head(0, n, words, len, out, len + 1 + below(3));
        run_converted(n, words, len, out);
    }
}

/* At the limit, where the program is the longest that runs, and one word above it. */
static void longest(const uint32_t *stored, uint32_t *out) {
    uint64_t cells[REF_CELLS], tape[64];
    const size_t most = REF_STORED_LIMIT;
    fill(cells, REF_CELLS);
    fill(tape, COUNT(tape));
    memset(out, 0, ROOM * sizeof *out);
    try_add_head(2, 7, stored, most + 1, out, ROOM);
    try_add_head(4, 7, stored, most, out, most);
    CHECK(try_add_head(0, 7, stored, most, out, ROOM).words == REF_PROGRAM_LIMIT, "add head: the longest program");
    try_share_run(0, 7, out, most + 1, most - 20, tape, COUNT(tape), 0, 99, cells, REF_CELLS);
}

void test_add_head(void) {
    uint32_t *stored = grab(ROOM * sizeof *stored), *out = grab(ROOM * sizeof *out);
    begin("add head");
    random_program(stored, ROOM);
    turn_downs(stored, out);
    places(out);
    example();
    nothing_stored();
    every_length();
    random_programs(stored, out);
    longest(stored, out);
    translations(stored, out);
    unwiped(stored, out);
    free(stored);
    free(out);
    end("1 to 4 in all combinations, places, heads in stored programs, every output length, translations back for n = 2..8, runs, the longest");
}
