/* The C test: every call of lubewon.h on good and on bad input, against the reference in reference.c and reference_complex.c.
 *
 * Each call gets its slices as copies with guard words on both sides; the reference works on a second copy, and afterwards both are
 * compared whole. So a check of a call covers the answer, the written words, the words that must stay, and the words beyond the ends.
 * Turn-downs are tried in every combination of their conditions: the first that applies must win, by number but for 7, which comes right
 * after 1, and 8, which comes right after 2. The random numbers have a fixed seed. Prints a line for each group and leaves with 1 at the
 * first failure. */
#include <stdio.h>

#include "check.h"
#include "tests.h"

int main(void) {
    test_words();
    test_measure();
    test_translate();
    test_plain_run();
    test_share_run();
    test_one_share_step();
    test_heads();
    test_add_head();
    test_runs_in_a_row();
    test_plain_operations();
    test_plan_copies();
    test_split_and_join();
    test_operations_on_shares();
    test_operations_in_place();
    test_accumulator();
    test_complex_product();
    test_layer();
    test_complex_product_on_shares();
    test_layer_on_shares();
    test_header();
    printf("all passed: %lu checks\n", all_checks);
    return 0;
}
