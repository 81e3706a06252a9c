/* The words of the built-in plans as the library copies them out, for straight.py: a line for each operation, its name, how many operands it
 * has, then its words in hexadecimal digits. */
#include <stdio.h>

#include "lubewon.h"

static const struct {
    const char *name;
    int operands;
    lubewon_answer (*copy)(uint32_t *, size_t);
} operations[] = {
    {"product", 2, lubewon_copy_product_plan},   {"sum", 2, lubewon_copy_sum_plan},
    {"floor", 1, lubewon_copy_floor_plan},       {"truncate", 1, lubewon_copy_truncate_plan},
    {"nearest", 1, lubewon_copy_nearest_plan},
};

int main(void) {
    for (size_t k = 0; k < sizeof operations / sizeof *operations; k++) {
        uint32_t words[LUBEWON_PLAN_MAX];
        lubewon_answer copied = operations[k].copy(words, LUBEWON_PLAN_MAX);
        if (copied.number != LUBEWON_DONE) return 1;
        printf("%s %d", operations[k].name, operations[k].operands);
        for (size_t i = 0; i < copied.words; i++) printf(" %08X", (unsigned)words[i]);
        printf("\n");
    }
    return 0;
}
