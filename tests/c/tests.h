/* The groups of the test, in the order in which test.c runs them. */
#ifndef TESTS_H
#define TESTS_H

/* test_plans.c */
void test_words(void);
void test_measure(void);
void test_translate(void);
void test_plain_run(void);

/* test_shares.c */
void test_share_run(void);
void test_one_share_step(void);

/* test_heads.c */
void test_heads(void);

/* test_conversion.c */
void test_add_head(void);

/* test_runs_in_a_row.c */
void test_runs_in_a_row(void);

/* test_numbers.c */
void test_plain_operations(void);
void test_plan_copies(void);

/* test_operations.c */
void test_split_and_join(void);
void test_operations_on_shares(void);

/* test_in_place.c */
void test_operations_in_place(void);
void test_accumulator(void);

/* test_transform.c */
void test_complex_product(void);
void test_layer(void);
void test_complex_product_on_shares(void);
void test_layer_on_shares(void);

/* test_header.c */
void test_header(void);

#endif
