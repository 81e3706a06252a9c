/* What every part of the test stands on: checks counted by group, random numbers with a fixed seed, words as native doubles, and slices lent with
 * guards. */
#ifndef CHECK_H
#define CHECK_H

#include <stddef.h>
#include <stdint.h>

#define COUNT(array) (sizeof(array) / sizeof *(array))

/* ---- Checks and groups ---- */

extern unsigned long checks, all_checks; /* of this group so far, and of the groups that ended */

__attribute__((format(printf, 1, 2))) _Noreturn void fail(const char *format, ...);

#define CHECK(condition, ...)               \
    do {                                    \
        checks++;                           \
        if (!(condition)) fail(__VA_ARGS__); \
    } while (0)

void begin(const char *name);
void end(const char *covers);

/* ---- Random numbers ---- */

uint64_t random_word(void);
size_t below(size_t limit);
void fill(uint64_t *words, size_t len);

/* ---- Words and native doubles ---- */

double as_double(uint64_t bits);
uint64_t as_bits(double number);

/* ---- Memory and lent slices ---- */

void *grab(size_t size);

/* Two copies of a slice, one for the library and one for the reference, each with guard words on both sides. */
typedef struct {
    unsigned char *library, *reference;
    size_t size;
} lent;

lent lend32(const uint32_t *words, size_t len);
lent lend64(const uint64_t *words, size_t len);
void *ours(lent l);
void *theirs(lent l);

/* The slice must hold what the reference left, guards included; its words go to `to` unless that is NULL. */
void take_back(const char *call, const char *slice, lent l, void *to);

#endif
