/* content.h: blocks whose bytes follow from a seed and a number, so that whoever reads one can say which it must be. */
#ifndef CONTENT_H
#define CONTENT_H

#include <stddef.h>
#include <stdint.h>
#include <string.h>

enum { LARGEST_BLOCK = 1 << 20 };

static inline uint64_t mixed(uint64_t number)
{
    number += UINT64_C(0x9e3779b97f4a7c15);
    number = (number ^ number >> 30) * UINT64_C(0xbf58476d1ce4e5b9);
    number = (number ^ number >> 27) * UINT64_C(0x94d049bb133111eb);
    return number ^ number >> 31;
}

static inline void fill_block(uint8_t *bytes, size_t length, uint64_t seed, uint64_t number)
{
    uint64_t word = mixed(seed ^ mixed(number));
    for (size_t at = 0; at < length; at += sizeof word) {
        word = (word ^ word >> 29) * UINT64_C(0xbf58476d1ce4e5b9) + number;
        memcpy(bytes + at, &word, length - at < sizeof word ? length - at : sizeof word);
    }
}

/* Two blocks of one sum and length are the same block, but for one chance in 2 to the 64th. */
static inline uint64_t sum_of(const uint8_t *bytes, size_t length)
{
    uint64_t sum = mixed(length), word = 0;
    for (size_t at = 0; at < length; at += sizeof word) {
        word = 0;
        memcpy(&word, bytes + at, length - at < sizeof word ? length - at : sizeof word);
        sum = (sum ^ word) * UINT64_C(0x94d049bb133111eb);
        sum ^= sum >> 31;
    }
    return sum;
}

/* A length from 1 to the largest: as often a short one as a long one. */
static inline uint32_t length_by(uint64_t random)
{
    uint32_t bits = (uint32_t)(random >> 32) % 21, top = UINT32_C(1) << bits;
    return bits == 20 ? LARGEST_BLOCK : top + (uint32_t)random % top;
}

#endif
