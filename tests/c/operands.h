/* Operands of the operations: random ones, drawn where rounding and the edges of binary64 are, and the edge table. */
#ifndef OPERANDS_H
#define OPERANDS_H

#include <stddef.h>
#include <stdint.h>

/* A number from its fields; bits of the exponent and the fraction beyond theirs are dropped. */
uint64_t pack(uint64_t sign, uint64_t exponent, uint64_t fraction);

uint64_t random_fraction(void);
void random_pair(uint64_t *a, uint64_t *b);

/* Operands and results by hand. */
typedef struct {
    int operation; /* its place in the table of calls.h */
    uint64_t a, b, result;
} edge;

extern const edge edge_table[];
extern const size_t edges;

/* Zeros, least and greatest normals, E = 0 with F, E = 2047, ones and their neighbours, whole numbers and halves. */
size_t edge_numbers(uint64_t *numbers);

#endif
