/* images.h: cartridges made for measuring, and the record of the drive that they are mounted in. */
#ifndef IMAGES_H
#define IMAGES_H

#include "plain.h"
#include <stdlib.h>

struct image {
    uint8_t *at;
    size_t length;
};

/* n objects, each a block of so many bytes, but every k-th a filemark (none if k is 0), with `spare` bytes more. */
static struct image make_image(uint32_t n, uint32_t bytes, uint32_t k, size_t spare)
{
    struct image image;
    uint32_t end = 0;
    image.length = TRAILER + (size_t)n * (ENTRY + bytes) + spare;
    image.at = calloc(image.length, 1);
    if (image.at == NULL)
        abort();
    for (uint32_t i = 0; i < n; i++) {
        int filemark = k != 0 && i % k == k - 1;
        end += filemark ? 0 : bytes;
        put32(image.at + image.length - TRAILER - ENTRY * ((size_t)i + 1), end | (filemark ? ENTRY_FILEMARK : 0));
    }
    put32(image.at + image.length - TRAILER_N, n);
    put32(image.at + image.length - TRAILER_D, (uint32_t)(image.length - TRAILER - (size_t)ENTRY * n));
    put32(image.at + image.length - TRAILER_L, (uint32_t)image.length);
    return image;
}

/* Any bytes for a directory: xorshift, from one seed. */
static inline void scramble(struct image *image)
{
    uint32_t n = get32(image->at + image->length - TRAILER_N), state = 1;
    for (uint32_t i = 0; i < n; i++) {
        state ^= state << 13, state ^= state >> 17, state ^= state << 5;
        put32(image->at + image->length - TRAILER - ENTRY * ((size_t)i + 1), state);
    }
}

static uint8_t record[RECORD_BYTES];

static void put_position(uint32_t position)
{
    put32(record + STORMTOGGLE_RECORD_POSITION, position);
}

static void mount(const struct image *p0, const struct image *p1)
{
    stormtoggle_fresh(record, RECORD_BYTES);
    if (stormtoggle_mount(record, RECORD_BYTES, p0->at, p0->length, p1->at, p1->length) != 0)
        abort();
    record[STORMTOGGLE_RECORD_ATTENTION] = ATTENTION_NONE;
}

#endif
