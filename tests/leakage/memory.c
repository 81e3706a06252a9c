/* The one function of libc that the library calls, so that its instructions are watched with the others. Built without the optimisation that would
 * make a call of memset of it. */
#include <stddef.h>
#include <stdint.h>
#include <string.h>

void *memset(void *to, int byte, size_t count) {
    unsigned char *at = to;
    uint64_t word = 0x0101010101010101 * (unsigned char)byte;
    for (; count >= 8; count -= 8, at += 8) __builtin_memcpy(at, &word, 8);
    for (; count > 0; count--) *at++ = (unsigned char)byte;
    return to;
}
