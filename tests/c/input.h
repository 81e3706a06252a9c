/* Random input: plans and share programs, good and bad words, heads, bad share counts, and the number that a combination of conditions expects. */
#ifndef INPUT_H
#define INPUT_H

#include <stdbool.h>
#include <stddef.h>
#include <stdint.h>

/* A plan's word that reads registers 0 to 7; a plan whose words read those, and registers that words before have written. */
uint32_t plan_word_of(unsigned kind);
void random_plan(uint32_t *plan, size_t len);

/* A word of a share program that is no head; so many of them. */
uint32_t random_share_word(void);
void random_program(uint32_t *program, size_t len);

/* A bad word of a plan, or of a share program and alone: a good one with one rule broken. */
uint32_t bad_plan_word(void);
uint32_t bad_share_word(void);

/* A word that is bad behind a program's head, and in a stored program: a bad one, or a head. */
uint32_t bad_behind_head(void);

/* A first word that is not the head of n shares: another count's, one with a stray bit, or a word of any kind. */
uint32_t wrong_head(size_t n);

/* A plan of good words; where asked too long, where asked with bad words from a random place on. */
size_t plan_with(uint32_t *plan, bool too_long, bool bad);

size_t bad_share_count(void);

/* The number to expect of a combination of conditions, the first that applies: bit i of `mask` stands for numbers[i]. */
uint32_t first_that_applies(unsigned mask, const uint32_t *numbers, size_t count);

#endif
