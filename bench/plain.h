/* plain.h: images and commands in plain C, as one would write them, for bench.c to time the library against. */
#ifndef PLAIN_H
#define PLAIN_H

#include "../tests/numbers.h"
#include <string.h>

static inline void put32(uint8_t *at, uint32_t value)
{
    at[0] = (uint8_t)(value >> 24);
    at[1] = (uint8_t)(value >> 16);
    at[2] = (uint8_t)(value >> 8);
    at[3] = (uint8_t)value;
}

static inline uint32_t get32(const uint8_t *at)
{
    uint32_t word;
    memcpy(&word, at, sizeof word);
    return __builtin_bswap32(word);
}

/* Whether an image of some length within the limits is sound. */
static inline int sound(const uint8_t *s, size_t length)
{
    uint32_t n = get32(s + length - TRAILER_N), d = get32(s + length - TRAILER_D), before = 0;
    int ok = get32(s + length - TRAILER_L) == length && get32(s + length - TRAILER_FLAGS) <= FLAG_PROTECTED;
    if ((uint64_t)d + (uint64_t)ENTRY * n + TRAILER != length)
        return 0;
    for (uint32_t i = 0; i < n; i++) {
        uint32_t entry = get32(s + length - TRAILER - ENTRY * ((size_t)i + 1)), end = entry & ENTRY_END;
        if (entry & ENTRY_FILEMARK)
            ok &= end == before;
        else
            ok &= end > before && end - before <= LARGEST_BLOCK;
        before = end;
    }
    return ok && before <= d;
}

/* stormtoggle_command for the commands that carry no block. */
uint64_t plain_command(uint8_t *r, size_t r_length, const uint8_t *c, size_t c_length, uint8_t *p0, size_t p0_length,
                       uint8_t *p1, size_t p1_length, const uint8_t *sent, size_t sent_length, uint8_t *received,
                       size_t received_length);

#endif
