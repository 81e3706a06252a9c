/* Groups: step words, measure, translate, plain run. */
#include <stdlib.h>
#include <string.h>

#include "calls.h"
#include "check.h"
#include "input.h"
#include "tests.h"

/* ---- Step words ---- */

static void words_by_hand(void) {
    static const struct {
        uint32_t word;
        bool plan, share; /* in a plan; in a share program behind its head, and alone */
    } by_hand[] = {
        {0x00080001, false, false}, {0x10000000, true, true},   {0x1003FFFF, true, true},   {0x107FFFFF, true, true},
        {0x10800000, false, true},  {0x18000000, false, false}, {0x20080001, true, true},   {0x20884021, false, true},
        {0x3004021F, true, true},   {0x30040220, false, true},  {0x40040200, true, true},   {0x40040201, false, false},
        {0x5000003F, true, true},   {0x50000040, false, false}, {0x6000003F, true, true},   {0x60000040, false, false},
        {0x70040200, true, true},   {0x70040201, false, false}, {0x80040201, true, false},  {0x90000000, false, true},
        {0x97FC0000, false, true},  {0x90000001, false, false}, {0x90000200, false, false}, {0xA0040000, false, false},
        {0xA0240000, false, false}, {0xA8080000, false, false}, {0xA0080001, false, false}, {0xA0080200, false, false},
        {0xB0080000, false, false}, {0xF0000000, false, false}, {0x00000000, false, false}, {0xFFFFFFFF, false, false},
    };
    uint64_t tape[1], cells[REF_CELLS], registers[REF_REGISTERS];
    for (size_t i = 0; i < COUNT(by_hand); i++) {
        fill(cells, REF_CELLS);
        fill(registers, REF_REGISTERS);
        fill(tape, 1);
        uint32_t program[2] = {0xA0080000, by_hand[i].word};
        try_measure(by_hand[i].plan ? 0 : 3, 2, &by_hand[i].word, 1);
        try_plain_run(by_hand[i].plan ? 0 : 3, &by_hand[i].word, 1, registers, REF_REGISTERS);
        try_share_run(by_hand[i].share ? 0 : 3, 2, program, 2, 0, tape, 1, 0, 2, cells, REF_CELLS);
        try_one_share_step(by_hand[i].share ? 0 : 3, by_hand[i].word, tape, 1, 0, cells, REF_CELLS);
    }
}

static void try_word(uint32_t word) {
    uint64_t tape[1], cells[REF_CELLS], registers[REF_REGISTERS];
    fill(cells, REF_CELLS);
    fill(registers, REF_REGISTERS);
    fill(tape, 1);
    try_measure(ref_good_plan_word(word) ? 0 : 3, 2, &word, 1);
    try_plain_run(ref_good_plan_word(word) ? 0 : 3, &word, 1, registers, REF_REGISTERS);
    try_one_share_step(ref_good_step(word) ? 0 : 3, word, tape, 1, 0, cells, REF_CELLS);
}

static void words_of_edge_fields(void) {
    static const unsigned edges[] = {0, 1, 31, 32, 63, 64, 255, 256, 511};
    for (unsigned kind = 0; kind < 16; kind++)
        for (size_t d = 0; d < COUNT(edges); d++)
            for (size_t a = 0; a < COUNT(edges); a++)
                for (size_t b = 0; b < COUNT(edges); b++)
                    for (uint32_t spare = 0; spare < 2; spare++)
                        try_word(ref_word(kind, edges[d], edges[a], edges[b]) | spare << 27);
}

static void random_words(void) {
    uint64_t tape[1], cells[REF_CELLS], registers[REF_REGISTERS];
    for (int round = 0; round < 40000; round++) {
        uint32_t word = below(2) ? (uint32_t)random_word() : random_share_word();
        fill(cells, REF_CELLS);
        fill(tape, 1);
        try_one_share_step(ANY, word, tape, 1, 0, cells, REF_CELLS);
        word &= below(2) ? UINT32_C(0xFFFFFFFF) : UINT32_C(0xF07C3E1F);
        fill(registers, REF_REGISTERS);
        try_plain_run(ANY, &word, 1, registers, REF_REGISTERS);
    }
}

void test_words(void) {
    begin("step words");
    words_by_hand();
    words_of_edge_fields();
    random_words();
    end("each kind with edge and random fields, good and bad, alone");
}

/* ---- Measure ---- */

static void measure_turn_downs(void) {
    static const uint32_t numbers[] = {1, 2, 3};
    uint32_t plan[REF_PLAN_LIMIT + 4];
    for (unsigned mask = 0; mask < 8; mask++)
        for (int round = 0; round < 60; round++) {
            size_t n = mask & 1 ? bad_share_count() : 2 + below(7);
            size_t len = plan_with(plan, mask & 2, mask & 4);
            try_measure(first_that_applies(mask, numbers, 3), n, plan, len);
        }
    for (size_t n = 2; n <= 8; n++)
        for (size_t place = 0; place < 40; place++) { /* the first of several bad words */
            random_plan(plan, 40);
            plan[39] = bad_plan_word();
            plan[place] = bad_plan_word();
            CHECK(try_measure(3, n, plan, 40).place == place, "measure: place of the first bad word");
        }
}

static void measure_figures(void) {
    static const struct {
        size_t n, and_words, and_tape, add_words, add_tape;
    } figures[] = {{2, 22, 2, 306, 24}, {8, 322, 56, 4032, 672}}; /* words behind the head */
    for (size_t i = 0; i < COUNT(figures); i++) {
        uint32_t and_word = ref_word(REF_AND, 1, 1, 1), add_word = ref_word(REF_ADD, 1, 2, 3);
        lubewon_answer a = try_measure(0, figures[i].n, &and_word, 1);
        CHECK(a.words == 1 + figures[i].and_words && a.tape == figures[i].and_tape, "measure: AND for %zu shares", figures[i].n);
        a = try_measure(0, figures[i].n, &add_word, 1);
        CHECK(a.words == 1 + figures[i].add_words && a.tape == figures[i].add_tape, "measure: ADD for %zu shares", figures[i].n);
    }
    for (size_t n = 2; n <= 8; n++) CHECK(try_measure(0, n, &(uint32_t){0}, 0).words == 1, "measure: an empty plan has the head, n = %zu", n);
}

void test_measure(void) {
    uint32_t plan[REF_PLAN_LIMIT];
    begin("measure");
    measure_turn_downs();
    measure_figures();
    for (size_t n = 2; n <= 8; n++)
        for (int round = 0; round < 300; round++) {
            size_t len = round == 0 ? REF_PLAN_LIMIT : below(200);
            random_plan(plan, len);
            try_measure(0, n, plan, len);
        }
    for (size_t i = 0; i < REF_PLAN_LIMIT; i++) plan[i] = ref_word(REF_ADD, 7, 7, 7);
    CHECK(try_measure(0, 8, plan, REF_PLAN_LIMIT).words == REF_PROGRAM_LIMIT, "measure: the longest share program");
    end("1 to 3 in all combinations, places, the documents' figures, random plans for n = 2..8");
}

/* ---- Translate: `out` has room for the longest share program and 64 words more ---- */

static void translate_turn_downs(uint32_t *out) {
    static const uint32_t numbers[] = {1, 2, 3, 4};
    uint32_t plan[REF_PLAN_LIMIT + 4];
    for (unsigned mask = 0; mask < 16; mask++)
        for (int round = 0; round < 30; round++) {
            size_t n = mask & 1 ? bad_share_count() : 2 + below(7);
            size_t len = plan_with(plan, mask & 2, mask & 4);
            size_t words = ref_measure(n, plan, len).words; /* 0 where the plan is turned down, else the head at least */
            size_t out_len = mask & 8 ? (words && below(2) ? words - 1 : words ? below(words) : 0) : words + below(9);
            for (size_t i = 0; i < out_len; i++) out[i] = (uint32_t)random_word();
            try_translate(first_that_applies(mask, numbers, 4), n, plan, len, out, out_len);
        }
}

static void translate_each_kind(uint32_t *out) {
    uint32_t listed = 0x20080001, small[3] = {0, 0, 0};
    try_translate(0, 2, &listed, 1, small, 3);
    CHECK(small[0] == 0xA0080000 && small[1] == 0x20080001 && small[2] == 0x20884021, "translate: the documents' listed translation");
    for (size_t n = 2; n <= 8; n++) { /* an empty plan */
        out[0] = out[1] = 0;
        try_translate(4, n, &listed, 0, out, 0);
        try_translate(0, n, &listed, 0, out, 2);
        CHECK(out[0] == 0xA0000000 + n * 0x40000 && out[1] == 0, "translate: the head alone, n = %zu", n);
    }
    for (size_t n = 2; n <= 8; n++)
        for (unsigned kind = 1; kind <= 8; kind++)
            for (int round = 0; round < 25; round++) { /* each kind alone, with equal and different registers */
                uint32_t word = plan_word_of(kind);
                size_t words = ref_measure(n, &word, 1).words;
                for (size_t i = 0; i < words + 5; i++) out[i] = (uint32_t)random_word();
                try_translate(0, n, &word, 1, out, words + (round % 2 ? 5 : 0));
            }
}

static void translate_in_parts(uint32_t *out) {
    uint32_t plan[40], *part = grab(400000 * sizeof *part);
    for (size_t n = 2; n <= 8; n++)
        for (int round = 0; round < 30; round++) {
            size_t len = below(40), cut = below(len + 1);
            random_plan(plan, len);
            size_t words = ref_measure(n, plan, len).words, first = ref_measure(n, plan, cut).words;
            try_translate(0, n, plan, len, out, words);
            try_translate(0, n, plan, cut, part, first);
            uint32_t last = part[first - 1]; /* the second part's head goes over it */
            try_translate(0, n, plan + cut, len - cut, part + first - 1, words - first + 1);
            CHECK(part[first - 1] == ref_head(n), "translate: the second part's head");
            part[first - 1] = last;
            CHECK(memcmp(out, part, words * sizeof *out) == 0, "translate: the parts of a plan, one after the other");
            for (size_t i = 1; i < words; i++) CHECK(ref_good_share_word(out[i]), "translate: a bad share word at %zu", i);
        }
    free(part);
}

static void translate_the_longest(uint32_t *out) {
    uint32_t plan[REF_PLAN_LIMIT];
    for (size_t i = 0; i < REF_PLAN_LIMIT; i++) plan[i] = ref_word(REF_ADD, i % 32, i / 32 % 8, i * 7 % 8);
    memset(out, 0, (REF_PROGRAM_LIMIT + 64) * sizeof *out);
    try_translate(4, 8, plan, REF_PLAN_LIMIT, out, REF_PROGRAM_LIMIT - 1);
    try_translate(0, 8, plan, REF_PLAN_LIMIT, out, REF_PROGRAM_LIMIT + 64);
}

void test_translate(void) {
    uint32_t *out = grab((REF_PROGRAM_LIMIT + 64) * sizeof *out);
    begin("translate");
    translate_turn_downs(out);
    translate_each_kind(out);
    translate_in_parts(out);
    translate_the_longest(out);
    free(out);
    end("1 to 4 in all combinations, each kind for n = 2..8, random plans whole and in parts, the longest program");
}

/* ---- Plain run ---- */

static void plain_run_turn_downs(void) {
    static const uint32_t numbers[] = {2, 3, 4};
    static const size_t wrong[] = {0, 1, 31, 33, 64, 512};
    uint32_t plan[REF_PLAN_LIMIT + 4];
    uint64_t cells[REF_CELLS];
    for (unsigned mask = 0; mask < 8; mask++)
        for (int round = 0; round < 100; round++) {
            size_t len = plan_with(plan, mask & 1, mask & 2);
            fill(cells, REF_CELLS);
            try_plain_run(first_that_applies(mask, numbers, 3), plan, len, cells, mask & 4 ? wrong[below(COUNT(wrong))] : REF_REGISTERS);
        }
    for (size_t place = 0; place < 64; place++) {
        random_plan(plan, 64);
        plan[63] = bad_plan_word();
        plan[place] = bad_plan_word();
        CHECK(try_plain_run(3, plan, 64, cells, REF_REGISTERS).place == place, "plain run: place of the first bad word");
    }
}

void test_plain_run(void) {
    uint32_t plan[REF_PLAN_LIMIT];
    uint64_t cells[REF_REGISTERS];
    begin("plain run");
    plain_run_turn_downs();
    for (int round = 0; round < 4000; round++) {
        size_t len = round < 4 ? REF_PLAN_LIMIT : below(120);
        random_plan(plan, len);
        fill(cells, REF_REGISTERS);
        try_plain_run(0, plan, len, cells, REF_REGISTERS);
    }
    plan[0] = ref_word(REF_ADD, 0, 1, 2);
    cells[1] = UINT64_MAX, cells[2] = 2;
    try_plain_run(0, plan, 1, cells, REF_REGISTERS);
    CHECK(cells[0] == 1, "plain run: ADD wraps");
    end("2 to 4 in all combinations, places, random plans");
}
