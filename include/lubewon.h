/* Lubewon: masked FALCON arithmetic, proved. These are the C declarations of crate `lubewon`; nothing but
 * the C test holds them to it.
 *
 * NUMBERS AND SHARES. A number is 64 bits, IEEE 754 binary64's sign, exponent E and fraction F; see
 * lubewon_product for how it is read. It is split into n shares, 2 to 8 words whose exclusive-or is the
 * number. All but one of them are random. Which word is share i is its place in the slice. Shares come
 * from lubewon_split or from a call on shares; lubewon_join alone puts them together.
 *
 * ANSWERS. Every call answers every input whose slices are as SLICES below asks: nothing turns a NULL
 * pointer or an overlap down. `number` is 0 for done, else that of the turn-down, the first of these,
 * from the top, that applies. (7 and 8 stand where they are looked at.)
 *
 *   1  LUBEWON_SHARE_COUNT   share count not 2..8
 *   7  LUBEWON_WRONG_SIZE    a layer's count or distance is not a power of two,
 *                            its count not 2..1,024, or its distance not below the count
 *   2  LUBEWON_TOO_LONG      plan longer than 2,048 words, share program longer than 8,257,537,
 *                            or stored program without its head longer than 8,257,536
 *   8  LUBEWON_WRONG_HEAD    a run's program is empty, or its first word is no head with the reader's count
 *   3  LUBEWON_BAD_WORD      a bad word; `place` is the first one's, from 0
 *   4  LUBEWON_WRONG_LENGTH  a slice of wrong length
 *   5  LUBEWON_PAST_END      place past the end of program or tape (equal to its length is not past it)
 *   6  LUBEWON_TAPE_SHORT    tape too short
 *
 * Each call below names those it can give. `place` is 0 for every other number. `words` and `tape` are
 * the call's counts: zero when it is turned down, and zero where the call names no such count. A call
 * that is turned down changes no lent memory.
 *
 * SLICES. A slice is a pointer and its length in elements. The pointer has its type's usual alignment and
 * must not be NULL, not even where the length is 0. A slice that is written must not overlap any other
 * slice of the call. A result that is also an operand, or a work slice that overlaps one, is undefined,
 * and nothing turns it down. A result that shall replace an operand has calls of its own,
 * lubewon_product_in_place and those beside it. Slices that are only read may overlap.
 *
 * COPIES. Copy a number's shares one word at a time. A loop over volatile words is enough:
 *
 *   for (size_t i = 0; i < n; i++) ((volatile uint64_t *)to)[i] = ((const volatile uint64_t *)from)[i];
 *
 * Never copy them by memcpy or by assigning a struct that holds them. Compilers copy both through vector
 * registers (gcc -O2 by movdqu), which then hold two shares of one number at once. On 2 shares a register
 * that takes share 1 where share 0 was tells their change all the same. Copy something else in between,
 * or use 3 or more.
 *
 * TAPE. The caller lends random words, used in order from the start (share runs: from tape_place on).
 * They must be uniform, fresh for every call, and never used twice, not by two calls and not by split and
 * a call. Two masks that are equal give the secret away. The answer's `tape` says how many an operation
 * or a share run used: the next call begins behind them. Split counts nothing in its answer and uses
 * LUBEWON_SPLIT_TAPE(n) words: step over them. What is proved of secrecy is proved of each call by
 * itself.
 *
 * THREADS AND TIME. Calls keep no state and allocate nothing: they may run at once in several threads on
 * slices of their own. They wipe neither stack (some 1 KB) nor registers. No branch and no address
 * depends on shares, cells, tape words or the operands of the plain operations. That is tested on the
 * x86-64 code of this build (tests/constant_time), not proved.
 *
 * Shifts and multiplications of secret words take part in the plain operations. They also do in floor,
 * truncation and nearest on shares, where a byte of each share is multiplied by 0x0101010101010101. Where
 * a processor's multiplication takes time by its operands, that tells of a share. For what a register's
 * change may tell on 2 shares see docs/LEAKAGE.md: prefer 3 or more.
 *
 * STEP WORDS. Bits 31..28 kind, bit 27 zero, bits 26..18 d, 17..9 a, 8..0 b. Each but HEAD sets cell d:
 *
 *   1 CONST   512 a + b, a number here            6 SHR     a shifted right by b, likewise
 *   2 XOR     a exclusive-or b                    7 SPREAD  64 copies of a's lowest bit; b = 0
 *   3 AND     a and b                             8 ADD     a + b modulo 2^64
 *   4 NOT     all bits of a inverted; b = 0       9 RAND    the next tape word; a = b = 0
 *   5 SHL     a shifted left by b,               10 HEAD    a share program's first word: d is its
 *             b a number 0..63                              share count, a = b = 0; sets no cell
 *
 * The plan 20080001, XOR 2 0 1, is on two shares the program A0080000, 20080001, 20884021.
 *
 * A plan has words of kinds 1 to 8 on registers 0..31. A share program for n shares is the word
 * LUBEWON_HEAD(n), and behind it words of kinds 1 to 7 and 9 on cells 0..511. Every other word is bad, and
 * so is a head behind the first place. A run answers a wrong first word with 8, never with 3. Share i of
 * register r is cell 32 i + r. Cells from 256 on are the translation's own. For n shares AND works in
 * 256 + i, 264 + i, 272 and 273, and leaves them zero. ADD has helpers in 288 + 8 i + h, h = 0..3, and
 * leaves shares there. docs/PLANS.md shows how to write a plan.
 */
#ifndef LUBEWON_H
#define LUBEWON_H

#include <stddef.h>
#include <stdint.h>

#ifdef __cplusplus
extern "C" {
#endif

/* The number grows by one with every change of the calls. */
#define LUBEWON_VERSION "0.15"
#define LUBEWON_VERSION_NUMBER 15

/* Turn-downs. */
enum {
    LUBEWON_DONE = 0,
    LUBEWON_SHARE_COUNT = 1,
    LUBEWON_TOO_LONG = 2,
    LUBEWON_BAD_WORD = 3,
    LUBEWON_WRONG_LENGTH = 4,
    LUBEWON_PAST_END = 5,
    LUBEWON_TAPE_SHORT = 6,
    LUBEWON_WRONG_SIZE = 7,
    LUBEWON_WRONG_HEAD = 8
};

/* Limits and sizes. */
#define LUBEWON_LEAST_SHARES 2
#define LUBEWON_MOST_SHARES 8
#define LUBEWON_REGISTERS 32
#define LUBEWON_CELLS 512
#define LUBEWON_WORK 512
#define LUBEWON_PLAN_MAX 2048
#define LUBEWON_PROGRAM_MAX 8257537 /* a share program, its head included */
#define LUBEWON_STORED_MAX 8257536  /* a stored program without its head */
#define LUBEWON_LAYER_MOST 1024

/* The cell of share i of register r. */
#define LUBEWON_CELL(i, r) (32 * (i) + (r))

/* The head of a share program for n shares. */
#define LUBEWON_HEAD(n) (0xA0000000u | (uint32_t)(n) << 18)

/* The words of the built-in plans, and the tape words that an operation takes on n shares. Later versions
 * may change these figures. Product, sum and floor stay within 1,000, 600 and 400 times n(n - 1). */
#define LUBEWON_PRODUCT_PLAN 948
#define LUBEWON_SUM_PLAN 738
#define LUBEWON_FLOOR_PLAN 297
#define LUBEWON_TRUNCATE_PLAN 169
#define LUBEWON_NEAREST_PLAN 301
#define LUBEWON_PRODUCT_TAPE(n) (76 * (n) * ((n) - 1))
#define LUBEWON_SUM_TAPE(n) (53 * (n) * ((n) - 1))
#define LUBEWON_FLOOR_TAPE(n) (12 * (n) * ((n) - 1))
#define LUBEWON_TRUNCATE_TAPE(n) (5 * (n) * ((n) - 1))
#define LUBEWON_NEAREST_TAPE(n) (14 * (n) * ((n) - 1))
/* The complex product is four products and two sums. A layer over count numbers is, for each of its count
 * / 2 pairs, a complex product and four sums. */
#define LUBEWON_COMPLEX_TAPE(n) (410 * (n) * ((n) - 1))
#define LUBEWON_LAYER_TAPE(n, count) ((count) / 2 * 622 * (n) * ((n) - 1))
/* Split: n - 1. */
#define LUBEWON_SPLIT_TAPE(n) ((n) - 1)

typedef struct {
    uint32_t number;
    size_t place;
    size_t words;
    size_t tape;
} lubewon_answer;

typedef struct {
    lubewon_answer answer;
    uint64_t word;
} lubewon_joined;

/* A complex number on plain words: real and imaginary part. */
typedef struct {
    uint64_t re;
    uint64_t im;
} lubewon_complex;

/* Share words and tape words of a plan for n shares. The head is one of the words, the only one of an
 * empty plan. Turn-downs 1, 2, 3. */
lubewon_answer lubewon_measure(size_t n, const uint32_t *plan, size_t plan_len);

/* The share program of a plan for n shares, its head first, at the front of out; out stays as it is past
 * the program's end. Turn-downs 1 to 4: 4 where out is shorter than measured. Counts are Measure's. */
lubewon_answer lubewon_translate(size_t n, const uint32_t *plan, size_t plan_len, uint32_t *out,
                                 size_t out_len);

/* A stored program that has no head, with the head of n shares put before it. Versions before 0.15 wrote
 * programs without one, and a run turns those down with 8. This one is for two shares:
 *
 *   const uint32_t stored[2] = {0x20080001, 0x20884021};
 *   uint32_t out[3];
 *   lubewon_answer a = lubewon_add_head(2, stored, 2, out, 3);
 *
 * Now out is A0080000, 20080001, 20884021. words is stored_len + 1, here 3, and tape the number of RANDs.
 * out stays as it is past the program's end, and must not overlap stored. n is the count that the program
 * was translated for. You have to know it: nothing in the stored words is compared with it. Turn-downs:
 * 1; 2 where stored is longer than LUBEWON_STORED_MAX; 3; 4 where out is shorter than stored_len + 1.
 * `place` is that in stored, where a head is bad too, the first word included.
 *
 * The words themselves stay as they are. A program from before 0.12 still leaves AND's cells unwiped:
 * translate its plan anew. What is proved of results and secrecy holds of a converted program where it is
 * what lubewon_translate writes for n. */
lubewon_answer lubewon_add_head(size_t n, const uint32_t *stored, size_t stored_len, uint32_t *out,
                                size_t out_len);

/* A plan on exactly 32 plain cells, its registers. Turn-downs 2, 3, 4. No counts. */
lubewon_answer lubewon_plain_run(const uint32_t *plan, size_t plan_len, uint64_t *cells, size_t cells_len);

/* A share program from place on, over a tape from tape_place on, on exactly 512 cells.
 *
 * n IS NEW, from version 0.15 on, and the first parameter: the share count that the reader keeps. A
 * program for three shares is turned down with 8 where the reader keeps four. So is a stored program from
 * before 0.15, which has no head: lubewon_add_head puts it there.
 *
 * A run does the smaller of budget and words left. words counts the words done, tape the tape words used:
 * go on from place + words and tape_place + tape. The head is the word at place 0: done there it counts as
 * one word, uses no tape and changes no cell. Turn-downs 1, 2, 8 and 3 to 6, looked at in this order: 6
 * where those words hold more RAND than tape remains. The head and the whole program are checked first,
 * each time, from whatever place the run goes. The cells keep shares afterwards, and inside an AND or ADD
 * masks too: wipe all 512 when done, or when a run is given up. */
lubewon_answer lubewon_share_run(size_t n, const uint32_t *program, size_t program_len, size_t place,
                                 const uint64_t *tape, size_t tape_len, size_t tape_place, size_t budget,
                                 uint64_t *cells, size_t cells_len);

/* One word of a share program, likewise. No count is told: a head with any count from 2 to 8 is no bad
 * word. Done, it counts words 1 and tape 0 and changes no cell. Turn-downs 3 to 6. */
lubewon_answer lubewon_one_share_step(uint32_t word, const uint64_t *tape, size_t tape_len, size_t tape_place,
                                      uint64_t *cells, size_t cells_len);

/* Product, sum, floor, truncation and nearest on n shares, n the first operand's length: y and result
 * have n words, work 512. Turn-downs 1, 4, 6. tape counts the tape words used, as the macros above have
 * them. The results join to what the plain operations below give for the joined operands. What work holds
 * at the start changes neither result nor answer; it is zeros when the call is done. It is not cleared
 * before shares are written there. Where other code than these calls has left secret words in it, clear
 * it first. */
lubewon_answer lubewon_product_shares(const uint64_t *x, size_t x_len, const uint64_t *y, size_t y_len,
                                      uint64_t *result, size_t result_len, uint64_t *work, size_t work_len,
                                      const uint64_t *tape, size_t tape_len);
lubewon_answer lubewon_sum_shares(const uint64_t *x, size_t x_len, const uint64_t *y, size_t y_len,
                                  uint64_t *result, size_t result_len, uint64_t *work, size_t work_len,
                                  const uint64_t *tape, size_t tape_len);
lubewon_answer lubewon_floor_shares(const uint64_t *x, size_t x_len, uint64_t *result, size_t result_len,
                                    uint64_t *work, size_t work_len, const uint64_t *tape, size_t tape_len);
lubewon_answer lubewon_truncate_shares(const uint64_t *x, size_t x_len, uint64_t *result, size_t result_len,
                                       uint64_t *work, size_t work_len, const uint64_t *tape,
                                       size_t tape_len);
lubewon_answer lubewon_nearest_shares(const uint64_t *x, size_t x_len, uint64_t *result, size_t result_len,
                                      uint64_t *work, size_t work_len, const uint64_t *tape, size_t tape_len);

/* The operations on n shares with the result in x, in place of the first operand: an accumulator needs no
 * second array. Here all terms are added to sum, over a tape of terms * LUBEWON_SUM_TAPE(3) words. sum
 * holds three shares of 0 or of the first summand:
 *
 *   for (size_t i = 0, at = 0; i < terms; i++) {
 *       lubewon_answer a =
 *           lubewon_sum_in_place(sum, 3, term[i], 3, work, LUBEWON_WORK, tape + at, tape_len - at);
 *       if (a.number != LUBEWON_DONE) return a.number;
 *       at += a.tape;
 *   }
 *
 * n is x's length; y has n words, work 512. Turn-downs 1; 4 where y, if there is one, or work has the
 * wrong length; 6. Turned down, x and work are unchanged. Done, x has the result's shares, just those
 * that the calls above would give for this tape. work is zeros; tape counts the tape words used. y and
 * tape are only read. x is written, so y, work and tape must not overlap it. A square needs a copy of x
 * as y; to replace the second operand exchange the two. A call that is interrupted and never resumed
 * leaves shares in work, and x in no state that is promised: wipe both. */
lubewon_answer lubewon_product_in_place(uint64_t *x, size_t x_len, const uint64_t *y, size_t y_len,
                                        uint64_t *work, size_t work_len, const uint64_t *tape,
                                        size_t tape_len);
lubewon_answer lubewon_sum_in_place(uint64_t *x, size_t x_len, const uint64_t *y, size_t y_len,
                                    uint64_t *work, size_t work_len, const uint64_t *tape, size_t tape_len);
lubewon_answer lubewon_floor_in_place(uint64_t *x, size_t x_len, uint64_t *work, size_t work_len,
                                      const uint64_t *tape, size_t tape_len);
lubewon_answer lubewon_truncate_in_place(uint64_t *x, size_t x_len, uint64_t *work, size_t work_len,
                                         const uint64_t *tape, size_t tape_len);
lubewon_answer lubewon_nearest_in_place(uint64_t *x, size_t x_len, uint64_t *work, size_t work_len,
                                        const uint64_t *tape, size_t tape_len);

/* The product of two complex numbers on n shares: x is a + bi, y is c + di. x, y and result have 2n
 * words: share i of the real part is word 2i, of the imaginary part word 2i + 1. A plain operand goes in
 * as share 0 of each part, with zeros beside it. work has 512 words. What it holds at the start does not
 * matter, and it is zeros when the call is done. Turn-downs 1, 4, 6. tape counts LUBEWON_COMPLEX_TAPE(n)
 * words. The result joins to what lubewon_complex_product gives for the joined operands. x, y and tape
 * are only read, and x and y may be the same words. result and work must overlap neither them nor each
 * other. A call that is interrupted and never resumed leaves shares in work, and result in no state that
 * is promised: wipe both.
 *
 * The shares are those of the single calls one after another on the tape. These are the products ac, bd,
 * ad and bc, then the sum of ac and -bd, the real part, and that of ad and bc. Here -bd is bd with the
 * sign bit of share 0 flipped. Yet it is one call. The word of a single step says no more than one share
 * of each part of x and y does. That is proved of every step of the six calls' share programs, over the
 * whole tape. */
lubewon_answer lubewon_complex_product_shares(size_t n, const uint64_t *x, size_t x_len, const uint64_t *y,
                                              size_t y_len, uint64_t *result, size_t result_len,
                                              uint64_t *work, size_t work_len, const uint64_t *tape,
                                              size_t tape_len);

/* One layer of a Fourier transform on n shares, over `count` complex numbers, here N, at `distance`, here
 * h. N is a power of two from 2 to LUBEWON_LAYER_MOST, h one from 1 to N/2. The numbers fall into N/(2h)
 * blocks of 2h, and each block has one factor w. Let u stand at place p in the first half of a block and
 * v at p + h. Then u + w v is put at p and u - w v at p + h: numbers is changed in place.
 *
 *   numbers, 2Nn words. Real part j of share i is word 2Ni + j, its imaginary part N words later:
 *
 *       0             N             2N            3N            4N         2N(n-1)       2Nn-N         2Nn
 *       +-------------+-------------+-------------+-------------+--- .. ---+-------------+-------------+
 *       | re 0 .. N-1 | im 0 .. N-1 | re 0 .. N-1 | im 0 .. N-1 |          | re 0 .. N-1 | im 0 .. N-1 |
 *       +-------------+-------------+-------------+-------------+--- .. ---+-------------+-------------+
 *        `-------- share 0 --------' `-------- share 1 --------'            `------ share n - 1 ------'
 *
 *   factors, N/h plain words for B = N/(2h) blocks. Factor b is that of numbers 2hb to 2hb + 2h - 1:
 *
 *       0             B             2B
 *       +-------------+-------------+
 *       | re 0 .. B-1 | im 0 .. B-1 |
 *       +-------------+-------------+
 *
 *       With N = 8 and h = 2 there are two blocks, B = 2. Factor 0, words 0 and 2, is for numbers 0 and 2
 *       as u and v, and for 1 and 3. Factor 1, words 1 and 3, is for 4 and 6, and for 5 and 7.
 *
 * work has 512 words. What it holds at the start does not matter, and it is zeros when the call is done.
 * Turn-downs 1, 7, 4, 6, looked at in this order: 4 where numbers, factors or work has another length.
 * tape counts LUBEWON_LAYER_TAPE(n, N) words. The numbers join to what lubewon_layer makes of the joined
 * ones. factors and tape are only read; numbers and work must overlap neither them nor each other. A call
 * that is interrupted and never resumed leaves shares in work, and numbers in no state that is promised,
 * some pairs done and others not: wipe both.
 *
 * The shares are those of the calls one after another on the tape, pairs by rising p. First comes the
 * complex product of w, as a + bi and a plain operand, and v. Then come the sums of u and w v, and then
 * those of u and -w v, with the sign bit of share 0 flipped; each real part first. Yet it is one call.
 * What is proved of secrecy is proved of every step of the share programs of all its calls, over the
 * whole tape.
 *
 * A transform is one call for each layer over the same numbers, h = N/2, N/4, .., 1. The tape of each
 * lies behind that of the one before:
 *
 *   for (size_t h = N / 2, at = 0; h >= 1; h /= 2) {
 *       lubewon_answer a = lubewon_layer_shares(n, N, h, numbers, 2 * N * n, factors_for(h), N / h,
 *                                               work, LUBEWON_WORK, tape + at, tape_len - at);
 *       if (a.number != LUBEWON_DONE) return a.number;
 *       at += a.tape;
 *   }
 *
 * A block of 2h is then a polynomial modulo some x^2h - w^2, and is parted into those modulo x^h - w and
 * x^h + w. (By rising h, with one factor for a whole block, no factors make a Fourier transform from N =
 * 4 on.) For FALCON share i of a polynomial's coefficient j, j from 0 to 2N - 1, is word 2Ni + j, and w^2
 * is the imaginary unit at first. The outcome is in bit-reversed order. tests/c/fft.c has all factors.
 * That layers in a row are such a transform is tested there, and not proved.
 *
 * A call's tape is lent as a whole: 159,232 words for N = 256 on two shares. Where that is too much, do
 * one pair after another, by rising p. Copy each to 4n words and back, and call the layer on it with N =
 * 2, h = 1 and its factor. That takes 1,244 words at a time on two shares. The shares were the same over
 * the same tape words in every test. What is proved of secrecy is then proved of each pair by itself. */
lubewon_answer lubewon_layer_shares(size_t n, size_t count, size_t distance, uint64_t *numbers,
                                    size_t numbers_len, const uint64_t *factors, size_t factors_len,
                                    uint64_t *work, size_t work_len, const uint64_t *tape, size_t tape_len);

/* The operations on plain words; never turned down. E = 0 reads as a zero of the word's sign, whatever F.
 * Otherwise the number is (2^52 + F) times 2^(E - 1075), E = 2047 included: there are no infinities, no
 * NaN and no subnormal numbers.
 *
 * Product and sum: an exact result that is not zero and below 2^-1022 in magnitude is a zero of its sign,
 * before any rounding. Else it is rounded to 53 bits, to the nearest, ties to even. Where the rounded E
 * would be 2047 or more the result has E = 2047, F = 0. A product's sign is the exclusive-or of the
 * signs, for zeros too. A sum of two zeros is minus zero only if both are; exact cancellation gives plus
 * zero.
 *
 * Floor, truncation and nearest return an operand with E >= 1075 as it is. Below that, floor is the
 * greatest whole number not above the operand, so that -0.5 gives -1. Truncation drops the fraction.
 * Nearest is the nearest whole number, of two equally near the even one, so that 2.5 gives 2. All three
 * keep the sign, so that truncation and nearest of -0.5 are minus zero. An operand with E = 0 gives the
 * zero of its sign: floor of minus zero is minus zero.
 *
 * For every zero (E = F = 0) and every normal operand (E from 1 to 2046) all three have IEEE 754's bits.
 * They are those of C's floor and trunc, and of its rint in the mode to nearest. Where E = 0, F is not 0
 * and the sign is set, C reads a subnormal number and its floor gives -1; here it is minus zero. */
uint64_t lubewon_product(uint64_t a, uint64_t b);
uint64_t lubewon_sum(uint64_t a, uint64_t b);
uint64_t lubewon_floor(uint64_t a);
uint64_t lubewon_truncate(uint64_t a);
uint64_t lubewon_nearest(uint64_t a);

/* The complex product and the layer on plain words: the same products and sums in the same order. The
 * product of a + bi and c + di is never turned down. The layer's numbers are 2N words, N real parts and
 * then N imaginary ones, changed in place; factors as above. Turn-downs 7, 4, in this order. No counts. */
lubewon_complex lubewon_complex_product(uint64_t a, uint64_t b, uint64_t c, uint64_t d);
lubewon_answer lubewon_layer(size_t count, size_t distance, uint64_t *numbers, size_t numbers_len,
                             const uint64_t *factors, size_t factors_len);

/* The built-in plans, copied to the front of out: operands in registers 0 and 1, a single one in 0,
 * result in 2. Turn-down 4 where out is too short; out stays as it is past the plan's end. words counts
 * the plan's words. */
lubewon_answer lubewon_copy_product_plan(uint32_t *out, size_t out_len);
lubewon_answer lubewon_copy_sum_plan(uint32_t *out, size_t out_len);
lubewon_answer lubewon_copy_floor_plan(uint32_t *out, size_t out_len);
lubewon_answer lubewon_copy_truncate_plan(uint32_t *out, size_t out_len);
lubewon_answer lubewon_copy_nearest_plan(uint32_t *out, size_t out_len);

/* A word split into out_len shares: shares 1 and up are the tape's words in order, share 0 the rest.
 * Turn-downs 1, and 6 below out_len - 1 tape words, which is how many it uses. No counts: the answer's
 * tape is 0 all the same. */
lubewon_answer lubewon_split(uint64_t word, const uint64_t *tape, size_t tape_len, uint64_t *out,
                             size_t out_len);

/* The word that shares join to, 0 when turned down. Turn-down 1. No counts. */
lubewon_joined lubewon_join(const uint64_t *shares, size_t shares_len);

#ifdef __cplusplus
}
#endif

#endif
