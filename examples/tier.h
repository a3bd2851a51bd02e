/* tier.h: a second cartridge in the same drive, written in the blocks that a mount sets, and then by a host of variable
 * blocks. Part of facility.c. */
#ifndef TIER_H
#define TIER_H

#include "calls.h"
#include "expect.h"
#include "stormtoggle.h"
#include <stdio.h>

/* A tier's tiles are blocks of the length that a mount sets. No other cycle of the day has its number. */
enum { TIER_TILE = STORMTOGGLE_MOUNTED_BLOCK_LENGTH, TIER_TILES = 4, TIER_LENGTH = (TIER_TILES + 2) * TIER_TILE };
enum { TIER_CYCLE = 5 };

/* The tiles of a day differ, so that one read in place of another shows; and so do the parts of a tile, of any length
 * that a block may have. */
static inline void fill_tile(uint8_t *tile, unsigned length, unsigned cycle, unsigned number)
{
    for (unsigned i = 0; i < length; i++)
        tile[i] = (uint8_t)(i + i / 256 + i / 65536 + 16 * cycle + number);
}

/* Operators forget MODE SELECT: here none is sent. The drive has the length that was set for the last cartridge, and
 * the mount sets its own; a driver that asks is told that one, and writes blocks of it. */
static inline void write_a_tier(struct drive *d, struct partition tier, long before)
{
    static uint8_t tiles[TIER_TILES * TIER_TILE], back[(TIER_TILES + 1) * TIER_TILE];
    size_t length;
    puts("\nAnother cartridge: a tier of tiles in fixed blocks, with no MODE SELECT");
    d->tape[0] = tier;
    d->tape[1] = (struct partition){NULL, 0};
    blank(d, 0);
    expect_refusal(d, 0);
    must_equal(d, "the block length before", number_at(d->record + STORMTOGGLE_RECORD_BLOCK_LENGTH), before);
    mount(d);
    expect_refusal(d, 0);
    test_unit_ready(d);
    expect(d, MEDIUM_CHANGED, 0, 0, 0);
    must_equal(d, "the block length told", sense_block_length(d), TIER_TILE);
    expect_good(d, 0, 0);
    for (unsigned number = 0; number < TIER_TILES; number++)
        fill_tile(tiles + number * TIER_TILE, TIER_TILE, TIER_CYCLE, number);
    write_fixed(d, tiles, TIER_TILES);
    expect_good(d, 0, TIER_TILES);
    expect_carried(d, sizeof tiles);
    write_filemarks(d, 1);
    expect_good(d, 0, TIER_TILES + 1);
    rewind_tape(d);
    expect_good(d, 0, 0);
    read_fixed(d, back, TIER_TILES + 1);
    expect(d, FILEMARK_DETECTED, 1, 0, TIER_TILES + 1);
    expect_carried(d, sizeof tiles);
    expect_bytes(d, back, tiles, sizeof tiles);
    const uint8_t *tile = view(d, 0, 2, &length);
    must_equal(d, "the block's length", (long)length, TIER_TILE);
    expect_bytes(d, tile, tiles + 2 * TIER_TILE, TIER_TILE);
    printf("    compared: read and viewed, these are the bytes of the tier's %d tiles\n", TIER_TILES);
}

/* A host that writes variable blocks is not stopped. But it has to select length 0 for SILI to hide a longer block. */
static inline void write_variable_blocks(struct drive *d)
{
    enum { RECORD = 10240, PART = 4096 };
    uint8_t record[RECORD], part[PART];
    puts("\nA host there that writes variable blocks");
    fill_tile(record, RECORD, TIER_CYCLE + 1, 0);
    write_block(d, record, RECORD);
    expect_good(d, 0, TIER_TILES + 2);
    expect_carried(d, RECORD);
    space(d, BLOCKS, -1);
    expect_good(d, 0, TIER_TILES + 1);
    read_sili(d, part, PART);
    expect(d, WRONG_LENGTH, PART - RECORD, 0, TIER_TILES + 2);
    space(d, BLOCKS, -1);
    expect_good(d, 0, TIER_TILES + 1);
    set_block_length(d, 0);
    expect_good(d, 0, TIER_TILES + 1);
    read_sili(d, part, PART);
    expect_good(d, 0, TIER_TILES + 2);
    expect_carried(d, PART);
    expect_bytes(d, part, record, PART);
    unload(d);
    expect_good(d, 0, 0);
}

#endif
