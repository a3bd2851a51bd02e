/* large.h: blocks as long as the new camera's tiles, which no earlier build takes. Part of bench.c. */
#ifndef LARGE_H
#define LARGE_H

#include "clock.h"

/* "The new camera's tiles are 800,000 bytes" (02). There is room for so many more behind them that no WRITE ends in the
 * zone. */
enum { LARGE = 800000, LARGE_OBJECTS = 1000, LARGE_SPARE = 80, LARGE_BATCH = 8 };

/* The transfer that is timed: its command block, how many bytes it carries, where they lie on the cartridge and in the
 * buffer. */
static struct {
    uint8_t block[BYTES_6];
    uint32_t object;
    size_t bytes;
    uint8_t *place, *buffer;
} large;

static void read_large(void)
{
    put_position(large.object);
    sink = command(large.block, sizeof large.block, NULL, 0, large.buffer, large.bytes);
}

static void write_large(void)
{
    put_position(large.object);
    sink = command(large.block, sizeof large.block, large.buffer, large.bytes, NULL, 0);
}

static void pass_and_copy_large_out(void)
{
    pass();
    memcpy(large.buffer, large.place, large.bytes);
    sink = large.buffer[sink % LARGE];
}

static void pass_and_copy_large_in(void)
{
    pass();
    memcpy(large.place, large.buffer, large.bytes);
    sink = large.place[sink % LARGE];
}

/* Once before it is timed: GOOD carries all bytes, and cartridge and buffer, which differed in each, then have the
 * same. */
static void must_carry_large(void (*work)(void))
{
    for (size_t i = 0; i < large.bytes; i++) {
        large.place[i] = (uint8_t)(i + i / 256 + i / 65536);
        large.buffer[i] = (uint8_t)~large.place[i];
    }
    by = &ours;
    work();
    if (sink != large.bytes || memcmp(large.place, large.buffer, large.bytes) != 0)
        abort();
}

/* A count is of bytes, or with FIXED of blocks. READ takes them from the middle, WRITE puts the last of the objects. */
static void large_transfer(uint8_t code, uint8_t fixed, uint32_t count, const char *what, const char *alone)
{
    void (*work)(void) = code == READ ? read_large : write_large;
    void (*copy)(void) = code == READ ? pass_and_copy_large_out : pass_and_copy_large_in;
    const uint8_t block[BYTES_6] = {code, fixed, (uint8_t)(count >> 16), (uint8_t)(count >> 8), (uint8_t)count};
    uint32_t blocks = fixed ? count : 1;
    double best[3];
    memcpy(large.block, block, sizeof block);
    large.object = code == READ ? LARGE_OBJECTS / 2 : LARGE_OBJECTS - blocks;
    large.bytes = (size_t)blocks * LARGE;
    large.place = image.at + (size_t)large.object * LARGE;
    must_carry_large(work);
    took(3, (const struct work[]){{work, &ours}, {copy, &ours}, {pass, &ours}}, best);
    row(what, best[0], "the pass and a memcpy", best[1]);
    row(alone, best[0] - best[2], "memcpy", best[1] - best[2]);
}

static void large_blocks(void)
{
    image = make_image(LARGE_OBJECTS, LARGE, 0, (size_t)LARGE_SPARE * LARGE);
    large.buffer = calloc(LARGE_BATCH, LARGE);
    mount(&image, &none);
    put32(record + STORMTOGGLE_RECORD_BLOCK_LENGTH, LARGE);
    large_transfer(READ, 0, LARGE, "READ of 800,000 bytes among 1,000 objects",
                   "READ of 800,000 bytes, without the pass");
    large_transfer(WRITE, 0, LARGE, "WRITE of 800,000 bytes, the last of 1,000 objects",
                   "WRITE of 800,000 bytes, without the pass");
    large_transfer(READ, FIXED, LARGE_BATCH, "READ FIXED of 8 blocks of 800,000 bytes",
                   "READ FIXED of 8 blocks of 800,000, without the pass");
    large_transfer(WRITE, FIXED, LARGE_BATCH, "WRITE FIXED of 8 blocks of 800,000 bytes",
                   "WRITE FIXED of 8 blocks of 800,000, without the pass");
    free(large.buffer);
    free(image.at);
}

#endif
