/* A recorded path as straight machine code: every instruction of the path as it stands, with stores of its slots to `before` and `after` around
 * it. The stores need no register but mm0, which the library does not use, and change no flag. Jumps become checks that the path is kept, calls
 * push their return address. Single steps cost some microseconds each, this some nanoseconds; that both see the same words is checked by leak.c.
 * All addresses are below 2 GB, since the program is linked low and lends its own stack. */
#include "leak.h"
#include <string.h>
#include <sys/mman.h>

enum { CODE = 1 << 26 };
static uint8_t code[CODE] __attribute__((aligned(4096)));
static size_t used, first_step;
static uint64_t strays;

static void put(const void *bytes, size_t count) {
    if (used + count > CODE) fail("the path is too long to replay", 0);
    memcpy(code + used, bytes, count);
    used += count;
}

#define PUT(...) put((const uint8_t[]){__VA_ARGS__}, sizeof((const uint8_t[]){__VA_ARGS__}))

static void put_word(uint64_t word) {
    uint32_t low = (uint32_t)word;
    put(&low, 4);
}

static void put_distance(uint64_t to) {
    put_word(to - ((uint64_t)code + used + 4));
}

/* Stores a slot to `to`. The high half of a vector register goes with the low one. */
static void put_store(const slot *s, uint64_t *to) {
    uint8_t number = (uint8_t)(s->reg & 7), upper = s->reg > 7, operand = (uint8_t)(4 | number << 3);
    if (s->kind == 'h') return;
    if (s->kind == 'r' || s->kind == 'R') PUT(0x48 | upper << 2, 0x89, operand, 0x25);
    else if (s->kind == 'x') PUT(0x40 | upper << 2, 0x0F, 0x11, operand, 0x25);
    else PUT(0x0F, 0x6F, 0x04, 0x25), put_word(s->at), PUT(0x0F, 0x7F, 0x04, 0x25);
    put_word((uint64_t)to);
}

/* An instruction as it stands; an address relative to it is moved along. */
static void put_same(const instruction *i, uint64_t at) {
    int32_t distance;
    size_t start = used;
    put((const void *)at, i->length);
    if (!i->relative) return;
    memcpy(&distance, code + start + i->relative, 4);
    distance += (int32_t)(at - ((uint64_t)code + start));
    memcpy(code + start + i->relative, &distance, 4);
}

/* Leaves the replay if the condition does not go the recorded way. */
static void put_condition(const uint8_t *bytes, bool taken) {
    uint8_t condition = (bytes[0] == 0x0F ? bytes[1] : bytes[0]) & 15;
    PUT(0x0F, (uint8_t)(0x80 | (condition ^ taken)));
    put_distance((uint64_t)code);
}

static void put_step(size_t s) {
    uint64_t at = path[s].at, next = at + instruction_at(at)->length;
    const instruction *i = instruction_at(at);
    if (i->flow == '-') put_same(i, at);
    if (i->flow == 'c') put_condition((const uint8_t *)at, path[s + 1].at != next);
    if (i->flow == 'l' || i->flow == 'k') PUT(0x68), put_word(next);
    if (i->flow == 'r') PUT(0x48, 0x8D, 0x64, 0x24, 0x08);                                  /* lea 8(%rsp), %rsp */
    if (i->flow == 's') put((const uint8_t *)at + 1, i->length - 1u), PUT(0x48, 0x8D, 0x49, 0xFF); /* once, and lea -1(%rcx), %rcx */
}

void write_replay(void) {
    if (mprotect(code, CODE, PROT_READ | PROT_WRITE | PROT_EXEC)) fail("memory cannot be made executable: nothing was tested", 0);
    used = 0;
    PUT(0x48, 0xFF, 0x04, 0x25), put_word((uint64_t)&strays);        /* where runs that leave the path go: incq strays, */
    PUT(0x0F, 0x77, 0xE9), put_distance((uint64_t)&enter_left);      /* emms, jmp enter_left */
    first_step = used;
    for (size_t s = 0; s < steps; s++) {
        for (size_t k = path[s].slot; k < path[s + 1].slot; k++) put_store(&slots[k], &before[k]);
        put_step(s);
        for (size_t k = path[s].slot; k < path[s + 1].slot; k++) put_store(&slots[k], &after[k]);
    }
    PUT(0x0F, 0x77, 0xE9), put_distance((uint64_t)&enter_left);
}

bool replay(void) {
    strays = 0, enter_flags = 0, enter_at = (uint64_t)code + first_step;
    enter();
    return strays == 0;
}
