/* FALCON's pre-image vector on two and on three shares, timed: `preimage [products]`, 512 of them without a number.
 *
 * Document 000, Algorithm 2, line 3: t = (-FFT(c)/q * FFT(F), FFT(c)/q * FFT(f)), number by number. In FALCON-512 the transform of a polynomial has
 * 256 complex numbers, so that t takes 512 complex products. F and f are of the key and stand on shares; c is the hash of the message, so that
 * FFT(c)/q and its negative are plain words, and go in as share 0 with zeros beside it. The numbers here are random ones, some of the key's size and
 * some of c's. Each product must join to lubewon_complex_product's bit by bit.
 *
 * Prints a line for each share count: processor time for all products, the least of some rounds, on plain words and on shares. Document 000's
 * Table 3 has the time of whole signings, so that the microseconds more are what may stand beside it. The tapes are fresh for each round, from the
 * tests' generator, and drawn before the clock starts, as document 000's random words were. */
#define _POSIX_C_SOURCE 199309L /* clock_gettime */
#include <stdio.h>
#include <stdlib.h>
#include <time.h>

#include "check.h"
#include "lubewon.h"

enum { MOST_SHARES = 3, ROUNDS = 15 };

typedef struct {
    size_t products, n;
    lubewon_complex *factors, *key, *plain; /* FFT(c)/q with its sign, FFT(F) and FFT(f), and their products */
    uint64_t *x, *y, *t;                    /* the same on shares, 2n words for each number */
    uint64_t *tape, work[LUBEWON_WORK];
} job;

static double microseconds(void) {
    struct timespec now;
    clock_gettime(CLOCK_PROCESS_CPUTIME_ID, &now);
    return 1e6 * (double)now.tv_sec + 1e-3 * (double)now.tv_nsec;
}

/* A number of either sign and of this size at most. */
static uint64_t number_up_to(double size) {
    return as_bits(size * ((double)(random_word() >> 11) / (1 << 30) / (1 << 22) - 1));
}

static void split_to(uint64_t word, size_t n, uint64_t *words) {
    uint64_t masks[MOST_SHARES], shares[MOST_SHARES];
    fill(masks, LUBEWON_SPLIT_TAPE(n));
    lubewon_split(word, masks, LUBEWON_SPLIT_TAPE(n), shares, n);
    for (size_t i = 0; i < n; i++) words[2 * i] = shares[i];
}

static job set_up(size_t products, size_t n) {
    job j = {.products = products, .n = n};
    size_t words = 2 * n * products * sizeof(uint64_t), numbers = products * sizeof(lubewon_complex);
    j.factors = grab(numbers), j.key = grab(numbers), j.plain = grab(numbers);
    j.x = grab(words), j.y = grab(words), j.t = grab(words);
    j.tape = grab(products * LUBEWON_COMPLEX_TAPE(n) * sizeof *j.tape);
    lubewon_complex c = {0, 0}; /* one number of FFT(c)/q: its negative meets F, itself f */
    for (size_t k = 0; k < products; k++) {
        uint64_t *x = j.x + 2 * n * k, *y = j.y + 2 * n * k, sign = k % 2 == 0 ? (uint64_t)1 << 63 : 0;
        if (k % 2 == 0) c = (lubewon_complex){number_up_to(32), number_up_to(32)};
        j.factors[k] = (lubewon_complex){c.re ^ sign, c.im ^ sign};
        j.key[k] = (lubewon_complex){number_up_to(1024), number_up_to(1024)};
        for (size_t i = 0; i < 2 * n; i++) x[i] = 0;
        x[0] = j.factors[k].re, x[1] = j.factors[k].im;
        split_to(j.key[k].re, n, y);
        split_to(j.key[k].im, n, y + 1);
    }
    return j;
}

static double time_on_plain_words(job *j) {
    double start = microseconds();
    for (size_t k = 0; k < j->products; k++)
        j->plain[k] = lubewon_complex_product(j->factors[k].re, j->factors[k].im, j->key[k].re, j->key[k].im);
    return microseconds() - start;
}

static double time_on_shares(job *j) {
    size_t n = j->n, words = 2 * n, tape_len = j->products * LUBEWON_COMPLEX_TAPE(n), at = 0, done = 0;
    fill(j->tape, tape_len);
    double start = microseconds();
    for (size_t k = 0; k < j->products; k++) {
        lubewon_answer answer = lubewon_complex_product_shares(n, j->x + words * k, words, j->y + words * k, words, j->t + words * k, words,
                                                               j->work, LUBEWON_WORK, j->tape + at, tape_len - at);
        done += answer.number == LUBEWON_DONE;
        at += answer.tape;
    }
    double time = microseconds() - start;
    CHECK(done == j->products && at == tape_len, "%zu of %zu products done with %zu tape words", done, j->products, at);
    return time;
}

static void compare(const job *j) {
    for (size_t k = 0; k < j->products; k++) {
        lubewon_complex joined = {0, 0};
        for (size_t i = 0; i < j->n; i++) {
            joined.re ^= j->t[2 * (j->n * k + i)];
            joined.im ^= j->t[2 * (j->n * k + i) + 1];
        }
        CHECK(joined.re == j->plain[k].re && joined.im == j->plain[k].im, "product %zu on %zu shares joins to %a + %a i, plain %a + %a i", k, j->n,
              as_double(joined.re), as_double(joined.im), as_double(j->plain[k].re), as_double(j->plain[k].im));
    }
}

static void put_away(job *j) {
    free(j->factors), free(j->key), free(j->plain), free(j->x), free(j->y), free(j->t), free(j->tape);
}

int main(int arguments, char **argument) {
    size_t products = arguments > 1 ? strtoul(argument[1], NULL, 10) : 512;
    begin("preimage");
    if (products < 1 || products > 100000) fail("products are 1 to 100,000");
    for (size_t n = 2; n <= MOST_SHARES; n++) {
        double plain = 1e30, on_shares = 1e30;
        job j = set_up(products, n);
        for (int round = 0; round < ROUNDS; round++) {
            double time = time_on_plain_words(&j);
            if (time < plain) plain = time;
            time = time_on_shares(&j);
            if (time < on_shares) on_shares = time;
            compare(&j);
        }
        put_away(&j);
        printf("preimage: %zu complex products, plain %.1f us, on %zu shares %.0f us: %.0f us more, %.0f times as long\n", products, plain, n,
               on_shares, on_shares - plain, on_shares / plain);
    }
}
