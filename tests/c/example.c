/* A first program: the product of 1.5 and 1.5 on three shares. Prints 2.25. */
#include <lubewon.h>
#include <stdio.h>
#include <string.h>
#include <sys/random.h>

int main(void) {
    static uint64_t tape[8192];                            /* fresh random words: a product on three shares takes 456 */
    uint64_t x[3], y[3], result[3], work[512];
    if (getrandom(tape, sizeof tape, 0) != (ssize_t)sizeof tape) return 1;
    lubewon_split(0x3FF8000000000000, tape, 2, x, 3);      /* 1.5 in three shares, */
    lubewon_split(0x3FF8000000000000, tape + 2, 2, y, 3);  /* and again */
    if (lubewon_product_shares(x, 3, y, 3, result, 3, work, 512, tape + 4, 8188).number != 0) return 1;
    uint64_t bits = lubewon_join(result, 3).word;          /* 2.25 */
    double product;
    memcpy(&product, &bits, sizeof product);
    printf("%g\n", product);
}
