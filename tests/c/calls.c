/* Each call of lubewon.h beside the reference, and the operations: see calls.h. */
#include "calls.h"

#include "check.h"

static void agree(const char *call, uint32_t number, lubewon_answer got, ref_answer want) {
    CHECK(got.number == want.number && got.place == want.place && got.words == want.words && got.tape == want.tape,
          "%s: number %u place %zu words %zu tape %zu, reference %u %zu %zu %zu", call, got.number, got.place, got.words, got.tape,
          want.number, want.place, want.words, want.tape);
    if (number != ANY) CHECK(got.number == number, "%s: number %u, expected %u", call, got.number, number);
}

lubewon_answer try_measure(uint32_t number, size_t n, const uint32_t *plan, size_t plan_len) {
    lent p = lend32(plan, plan_len);
    lubewon_answer got = lubewon_measure(n, ours(p), plan_len);
    agree("measure", number, got, ref_measure(n, theirs(p), plan_len));
    take_back("measure", "plan", p, NULL);
    return got;
}

lubewon_answer try_translate(uint32_t number, size_t n, const uint32_t *plan, size_t plan_len, uint32_t *out, size_t out_len) {
    lent p = lend32(plan, plan_len), o = lend32(out, out_len);
    lubewon_answer got = lubewon_translate(n, ours(p), plan_len, ours(o), out_len);
    agree("translate", number, got, ref_translate(n, theirs(p), plan_len, theirs(o), out_len));
    take_back("translate", "plan", p, NULL);
    take_back("translate", "out", o, out);
    return got;
}

lubewon_answer try_add_head(uint32_t number, size_t n, const uint32_t *stored, size_t stored_len, uint32_t *out, size_t out_len) {
    lent s = lend32(stored, stored_len), o = lend32(out, out_len);
    lubewon_answer got = lubewon_add_head(n, ours(s), stored_len, ours(o), out_len);
    agree("add head", number, got, ref_add_head(n, theirs(s), stored_len, theirs(o), out_len));
    take_back("add head", "stored", s, NULL);
    take_back("add head", "out", o, out);
    return got;
}

lubewon_answer try_plain_run(uint32_t number, const uint32_t *plan, size_t plan_len, uint64_t *cells, size_t cells_len) {
    lent p = lend32(plan, plan_len), c = lend64(cells, cells_len);
    lubewon_answer got = lubewon_plain_run(ours(p), plan_len, ours(c), cells_len);
    agree("plain run", number, got, ref_plain_run(theirs(p), plan_len, theirs(c), cells_len));
    take_back("plain run", "plan", p, NULL);
    take_back("plain run", "cells", c, cells);
    return got;
}

lubewon_answer try_share_run(uint32_t number, size_t n, const uint32_t *program, size_t program_len, size_t place, const uint64_t *tape,
                             size_t tape_len, size_t tape_place, size_t budget, uint64_t *cells, size_t cells_len) {
    lent p = lend32(program, program_len), t = lend64(tape, tape_len), c = lend64(cells, cells_len);
    lubewon_answer got = lubewon_share_run(n, ours(p), program_len, place, ours(t), tape_len, tape_place, budget, ours(c), cells_len);
    agree("share run", number, got,
          ref_share_run(n, theirs(p), program_len, place, theirs(t), tape_len, tape_place, budget, theirs(c), cells_len));
    take_back("share run", "program", p, NULL);
    take_back("share run", "tape", t, NULL);
    take_back("share run", "cells", c, cells);
    return got;
}

lubewon_answer try_one_share_step(uint32_t number, uint32_t word, const uint64_t *tape, size_t tape_len, size_t tape_place, uint64_t *cells,
                                  size_t cells_len) {
    lent t = lend64(tape, tape_len), c = lend64(cells, cells_len);
    lubewon_answer got = lubewon_one_share_step(word, ours(t), tape_len, tape_place, ours(c), cells_len);
    agree("one share step", number, got, ref_one_share_step(word, theirs(t), tape_len, tape_place, theirs(c), cells_len));
    take_back("one share step", "tape", t, NULL);
    take_back("one share step", "cells", c, cells);
    return got;
}

lubewon_answer try_split(uint32_t number, uint64_t word, const uint64_t *tape, size_t tape_len, uint64_t *out, size_t out_len) {
    lent t = lend64(tape, tape_len), o = lend64(out, out_len);
    lubewon_answer got = lubewon_split(word, ours(t), tape_len, ours(o), out_len);
    agree("split", number, got, ref_split(word, theirs(t), tape_len, theirs(o), out_len));
    take_back("split", "tape", t, NULL);
    take_back("split", "out", o, out);
    return got;
}

uint64_t try_join(uint32_t number, const uint64_t *shares, size_t shares_len) {
    lent s = lend64(shares, shares_len);
    uint64_t want;
    lubewon_joined got = lubewon_join(ours(s), shares_len);
    agree("join", number, got.answer, ref_join(theirs(s), shares_len, &want));
    CHECK(got.word == want, "join: %016lX, reference %016lX", got.word, want);
    take_back("join", "shares", s, NULL);
    return got.word;
}

void split_into(uint64_t word, uint64_t *out, size_t n) {
    uint64_t tape[8];
    fill(tape, n - 1);
    CHECK(lubewon_split(word, tape, n - 1, out, n).number == 0, "split");
}

/* ---- The operations ---- */

/* Calls with one operand, in the form of those with two. */
#define ONE_OPERAND(name)                                                                                                                    \
    static lubewon_answer name##_shares(const uint64_t *x, size_t x_len, const uint64_t *y, size_t y_len, uint64_t *result, size_t r_len,    \
                                        uint64_t *work, size_t work_len, const uint64_t *tape, size_t tape_len) {                            \
        (void)y, (void)y_len;                                                                                                                \
        return lubewon_##name##_shares(x, x_len, result, r_len, work, work_len, tape, tape_len);                                             \
    }                                                                                                                                        \
    static lubewon_answer name##_in_place(uint64_t *x, size_t x_len, const uint64_t *y, size_t y_len, uint64_t *work, size_t work_len,       \
                                          const uint64_t *tape, size_t tape_len) {                                                           \
        (void)y, (void)y_len;                                                                                                                \
        return lubewon_##name##_in_place(x, x_len, work, work_len, tape, tape_len);                                                          \
    }                                                                                                                                        \
    static uint64_t name##_plain(uint64_t a, uint64_t b) { return (void)b, lubewon_##name(a); }                                              \
    static uint64_t name##_reference(uint64_t a, uint64_t b) { return (void)b, ref_##name(a); }

ONE_OPERAND(floor)
ONE_OPERAND(truncate)
ONE_OPERAND(nearest)

operation operations[OPERATIONS] = {
    [PRODUCT] = {"product", lubewon_copy_product_plan, lubewon_product_shares, lubewon_product_in_place, lubewon_product, ref_product, true, {0}, 0},
    [SUM] = {"sum", lubewon_copy_sum_plan, lubewon_sum_shares, lubewon_sum_in_place, lubewon_sum, ref_sum, true, {0}, 0},
    [FLOOR] = {"floor", lubewon_copy_floor_plan, floor_shares, floor_in_place, floor_plain, floor_reference, false, {0}, 0},
    [TRUNCATE] = {"truncate", lubewon_copy_truncate_plan, truncate_shares, truncate_in_place, truncate_plain, truncate_reference, false, {0}, 0},
    [NEAREST] = {"nearest", lubewon_copy_nearest_plan, nearest_shares, nearest_in_place, nearest_plain, nearest_reference, false, {0}, 0},
};

lubewon_answer try_on_shares(uint32_t number, const operation *op, const uint64_t *x, size_t x_len, const uint64_t *y, size_t y_len,
                             uint64_t *result, size_t result_len, uint64_t *work, size_t work_len, const uint64_t *tape, size_t tape_len) {
    lent lx = lend64(x, x_len), ly = lend64(y, y_len), r = lend64(result, result_len), w = lend64(work, work_len);
    lent t = lend64(tape, tape_len);
    lubewon_answer got = op->on_shares(ours(lx), x_len, ours(ly), y_len, ours(r), result_len, ours(w), work_len, ours(t), tape_len);
    agree(op->name, number, got,
          ref_operation(op->plan, op->plan_len, theirs(lx), x_len, op->two ? theirs(ly) : NULL, y_len, theirs(r), result_len, theirs(w),
                        work_len, theirs(t), tape_len));
    take_back(op->name, "x", lx, NULL);
    take_back(op->name, "y", ly, NULL);
    take_back(op->name, "result", r, result);
    take_back(op->name, "work", w, work);
    take_back(op->name, "tape", t, NULL);
    return got;
}

/* The reference reads the caller's own x and has a copy of it as its result. */
lubewon_answer try_in_place(uint32_t number, const operation *op, uint64_t *x, size_t x_len, const uint64_t *y, size_t y_len, uint64_t *work,
                            size_t work_len, const uint64_t *tape, size_t tape_len) {
    lent lx = lend64(x, x_len), ly = lend64(y, y_len), w = lend64(work, work_len), t = lend64(tape, tape_len);
    lubewon_answer got = op->in_place(ours(lx), x_len, ours(ly), y_len, ours(w), work_len, ours(t), tape_len);
    agree(op->name, number, got,
          ref_operation(op->plan, op->plan_len, x, x_len, op->two ? theirs(ly) : NULL, y_len, theirs(lx), x_len, theirs(w), work_len,
                        theirs(t), tape_len));
    take_back(op->name, "x in place", lx, x);
    take_back(op->name, "y", ly, NULL);
    take_back(op->name, "work", w, work);
    take_back(op->name, "tape", t, NULL);
    return got;
}

uint64_t try_plain(const operation *op, uint64_t a, uint64_t b) {
    uint64_t got = op->plain(a, b), want = op->reference(a, b);
    CHECK(got == want, "%s of %016lX, %016lX is %016lX, reference %016lX", op->name, a, b, got, want);
    return got;
}

/* ---- Complex numbers ---- */

static ref_plans plans(void) {
    const operation *product = &operations[PRODUCT], *sum = &operations[SUM];
    return (ref_plans){{product->plan, product->plan_len}, {sum->plan, sum->plan_len}};
}

lubewon_complex try_complex_product(uint64_t a, uint64_t b, uint64_t c, uint64_t d) {
    lubewon_complex got = lubewon_complex_product(a, b, c, d);
    ref_complex want = ref_complex_product(a, b, c, d);
    CHECK(got.re == want.re && got.im == want.im,
          "complex product of %016lX + %016lX i, %016lX + %016lX i is %016lX + %016lX i, reference %016lX + %016lX i", a, b, c, d, got.re,
          got.im, want.re, want.im);
    return got;
}

lubewon_answer try_layer(uint32_t number, size_t count, size_t distance, uint64_t *numbers, size_t numbers_len, const uint64_t *factors,
                         size_t factors_len) {
    lent z = lend64(numbers, numbers_len), f = lend64(factors, factors_len);
    lubewon_answer got = lubewon_layer(count, distance, ours(z), numbers_len, ours(f), factors_len);
    agree("layer", number, got, ref_layer(count, distance, theirs(z), numbers_len, theirs(f), factors_len));
    take_back("layer", "numbers", z, numbers);
    take_back("layer", "factors", f, NULL);
    return got;
}

lubewon_answer try_complex_product_shares(uint32_t number, size_t n, const uint64_t *x, size_t x_len, const uint64_t *y, size_t y_len,
                                          uint64_t *result, size_t result_len, uint64_t *work, size_t work_len, const uint64_t *tape,
                                          size_t tape_len) {
    static const char call[] = "complex product on shares";
    lent lx = lend64(x, x_len), ly = lend64(y, y_len), r = lend64(result, result_len), w = lend64(work, work_len);
    lent t = lend64(tape, tape_len);
    lubewon_answer got =
        lubewon_complex_product_shares(n, ours(lx), x_len, ours(ly), y_len, ours(r), result_len, ours(w), work_len, ours(t), tape_len);
    agree(call, number, got,
          ref_complex_product_shares(plans(), n, theirs(lx), x_len, theirs(ly), y_len, theirs(r), result_len, theirs(w), work_len, theirs(t),
                                     tape_len));
    take_back(call, "x", lx, NULL);
    take_back(call, "y", ly, NULL);
    take_back(call, "result", r, result);
    take_back(call, "work", w, work);
    take_back(call, "tape", t, NULL);
    return got;
}

lubewon_answer try_layer_shares(uint32_t number, size_t n, size_t count, size_t distance, uint64_t *numbers, size_t numbers_len,
                                const uint64_t *factors, size_t factors_len, uint64_t *work, size_t work_len, const uint64_t *tape,
                                size_t tape_len) {
    static const char call[] = "layer on shares";
    lent z = lend64(numbers, numbers_len), f = lend64(factors, factors_len), w = lend64(work, work_len), t = lend64(tape, tape_len);
    lubewon_answer got =
        lubewon_layer_shares(n, count, distance, ours(z), numbers_len, ours(f), factors_len, ours(w), work_len, ours(t), tape_len);
    agree(call, number, got,
          ref_layer_shares(plans(), n, count, distance, theirs(z), numbers_len, theirs(f), factors_len, theirs(w), work_len, theirs(t),
                           tape_len));
    take_back(call, "numbers", z, numbers);
    take_back(call, "factors", f, NULL);
    take_back(call, "work", w, work);
    take_back(call, "tape", t, NULL);
    return got;
}
