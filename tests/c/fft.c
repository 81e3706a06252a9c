/* FALCON's Fourier transform on two and on three shares: `fft [N]`, over N complex numbers; without N over 256, as FALCON-512 has them.
 *
 * A real polynomial f modulo x^2N + 1 is fixed by its values at the N roots of x^N = i, since the other roots of x^2N + 1 are their conjugates.
 * At those f is the sum of (f_j + i f_(N+j)) x^j over j below N: these are the complex numbers, and f's coefficients in order are the lent words.
 * A block of 2h numbers is f modulo some x^2h - r; at first there is one block, and r = i. With w a square root of r the layer at distance h gives
 * f modulo x^h - w, which is u + w v, and modulo x^h + w, u - w v. So distances fall from N/2 to 1, and then f(r) stands in the place of each r.
 *
 * After each layer the shares must join to the same layers on plain words bit by bit, and at the end these must be near the sums f(r) in doubles. */
#include <math.h>
#include <stdio.h>
#include <stdlib.h>
#include <string.h>

#include "check.h"
#include "lubewon.h"

enum { MOST = LUBEWON_LAYER_MOST, FEWEST_SHARES = 2, MOST_SHARES = 3 };

static uint64_t coefficients[2 * MOST], plain[2 * MOST], factors[MOST], work[LUBEWON_WORK];
static uint64_t on_shares[MOST_SHARES + 1][2 * MOST * MOST_SHARES]; /* by the share count */

/* The angle of each block's r, a whole number of 4N parts of the circle. */
static size_t angles[MOST];

static double part(double (*function)(double), size_t count, size_t angle) {
    return function(acos(-1) / 2 / (double)count * (double)angle);
}

/* Each block's w, at half the angle: cosines and then sines. */
static void set_factors(size_t count, size_t blocks) {
    for (size_t b = 0; b < blocks; b++) {
        factors[b] = as_bits(part(cos, count, angles[b] / 2));
        factors[blocks + b] = as_bits(part(sin, count, angles[b] / 2));
    }
}

/* Each r gives w and -w: the half angle, and that with half a circle more. From the last block on, since two come in place of one. */
static void halve_angles(size_t count, size_t blocks) {
    for (size_t b = blocks; b-- > 0;) {
        size_t half = angles[b] / 2;
        angles[2 * b] = half;
        angles[2 * b + 1] = half + 2 * count;
    }
}

/* Small whole numbers, as a key's polynomials have. Masks here and tapes below come from the tests' generator, which has a fixed seed: a device
 * needs a true source of random words. */
static void set_up(size_t count) {
    for (size_t j = 0; j < 2 * count; j++) coefficients[j] = as_bits((double)below(255) - 127);
    memcpy(plain, coefficients, sizeof plain);
    for (size_t n = FEWEST_SHARES; n <= MOST_SHARES; n++)
        for (size_t j = 0; j < 2 * count; j++) {
            uint64_t masks[MOST_SHARES], shares[MOST_SHARES];
            fill(masks, LUBEWON_SPLIT_TAPE(n));
            lubewon_split(coefficients[j], masks, LUBEWON_SPLIT_TAPE(n), shares, n);
            for (size_t i = 0; i < n; i++) on_shares[n][2 * count * i + j] = shares[i];
        }
}

static void layer_on_shares(size_t n, size_t count, size_t distance) {
    size_t tape_len = LUBEWON_LAYER_TAPE(n, count);
    uint64_t *tape = grab(tape_len * sizeof *tape), *numbers = on_shares[n];
    fill(tape, tape_len);
    lubewon_answer answer = lubewon_layer_shares(n, count, distance, numbers, 2 * count * n, factors, count / distance, work, LUBEWON_WORK, tape,
                                                 tape_len);
    CHECK(answer.number == LUBEWON_DONE, "the layer at %zu on %zu shares is turned down with %u", distance, n, answer.number);
    for (size_t j = 0; j < 2 * count; j++) {
        uint64_t joined = 0;
        for (size_t i = 0; i < n; i++) joined ^= numbers[2 * count * i + j];
        CHECK(joined == plain[j], "after the layer at %zu on %zu shares word %zu joins to %a, plain %a", distance, n, j, as_double(joined),
              as_double(plain[j]));
    }
    free(tape);
}

static void transform(size_t count) {
    angles[0] = count; /* i is a fourth of the circle */
    for (size_t distance = count / 2, blocks = 1; distance >= 1; distance /= 2, blocks *= 2) {
        set_factors(count, blocks);
        CHECK(lubewon_layer(count, distance, plain, 2 * count, factors, 2 * blocks).number == LUBEWON_DONE, "the layer at %zu", distance);
        for (size_t n = FEWEST_SHARES; n <= MOST_SHARES; n++) layer_on_shares(n, count, distance);
        halve_angles(count, blocks);
    }
}

/* How far value k is from the sum of all terms at its root. */
static double difference(size_t count, size_t k) {
    double re = 0, im = 0;
    for (size_t j = 0; j < count; j++) {
        double c = part(cos, count, j * angles[k] % (4 * count)), s = part(sin, count, j * angles[k] % (4 * count));
        double f_re = as_double(coefficients[j]), f_im = as_double(coefficients[count + j]);
        re += f_re * c - f_im * s;
        im += f_re * s + f_im * c;
    }
    return hypot(as_double(plain[k]) - re, as_double(plain[count + k]) - im);
}

int main(int arguments, char **argument) {
    size_t count = arguments > 1 ? strtoul(argument[1], NULL, 10) : 256, layers = 0;
    double most = 0;
    begin("fft");
    if (count < 2 || count > MOST || count & (count - 1)) fail("N is a power of two from 2 to %d", MOST);
    set_up(count);
    transform(count);
    for (size_t k = 0; k < count; k++) most = fmax(most, difference(count, k));
    CHECK(most < 1e-13 * 127 * (double)count, "a value is %g from the direct sum", most);
    for (size_t distance = 1; distance < count; distance *= 2) layers++;
    printf("fft: %zu complex numbers, %zu layers on 2 and on 3 shares as on plain words bit by bit; at most %.1e from the direct sum\n", count,
           layers, most);
}
