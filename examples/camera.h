/* camera.h: a third cartridge in the same drive, with the new camera's tiles, each of them one block. Part of
 * facility.c. */
#ifndef CAMERA_H
#define CAMERA_H

#include "calls.h"
#include "expect.h"
#include "stormtoggle.h"
#include "tier.h"
#include <stdio.h>
#include <string.h>

/* "The new camera's tiles are 800,000 bytes" (document 02). No other cycle of the day has its number. */
enum { CAMERA_TILE = 800000, CAMERA_TILES = 3, CAMERA_LENGTH = (CAMERA_TILES + 1) * CAMERA_TILE };
enum { CAMERA_CYCLE = TIER_CYCLE + 2 };

static inline void make_camera_tiles(uint8_t *tiles)
{
    for (unsigned number = 0; number < CAMERA_TILES; number++)
        fill_tile(tiles + number * CAMERA_TILE, CAMERA_TILE, CAMERA_CYCLE, number);
}

/* A driver asks how long a block may be. Then one WRITE sends a tile, or more: the first goes down as a variable block,
 * the others, behind a filemark, as fixed ones. */
static inline void write_camera_tiles(struct drive *d, struct partition camera, const uint8_t *tiles)
{
    puts("\nA third cartridge: the new camera's tiles, each of them one block");
    d->tape[0] = camera;
    d->tape[1] = (struct partition){NULL, 0};
    blank(d, 0);
    expect_refusal(d, 0);
    mount(d);
    expect_refusal(d, 0);
    test_unit_ready(d);
    expect(d, MEDIUM_CHANGED, 0, 0, 0);
    struct limits told = read_block_limits(d);
    expect_good(d, 0, 0);
    must_equal(d, "the least told", told.least, 1);
    must_equal(d, "the most told", told.most, STORMTOGGLE_LARGEST_BLOCK);
    write_block(d, tiles, CAMERA_TILE);
    expect_good(d, 0, 1);
    expect_carried(d, CAMERA_TILE);
    write_filemarks(d, 1);
    expect_good(d, 0, 2);
    set_block_length(d, CAMERA_TILE);
    expect_good(d, 0, 2);
    write_fixed(d, tiles + CAMERA_TILE, 2);
    expect_good(d, 0, 4);
    expect_carried(d, 2 * CAMERA_TILE);
}

/* A host that does not know a block's length asks for the most that a block may have, and reckons it by the residue. */
static inline void read_camera_tiles(struct drive *d, const uint8_t *tiles)
{
    static uint8_t back[2 * CAMERA_TILE];
    enum { ASKED = STORMTOGGLE_LARGEST_BLOCK };
    puts("\nThe camera's tiles read, each of them whole");
    rewind_tape(d);
    expect_good(d, 0, 0);
    read_block(d, back, ASKED);
    expect(d, WRONG_LENGTH, ASKED - CAMERA_TILE, 0, 1);
    expect_carried(d, CAMERA_TILE);
    expect_bytes(d, back, tiles, CAMERA_TILE);
    long residue = (long)sense_in_fixed_form(d->record + STORMTOGGLE_RECORD_SENSE).residue;
    printf("    reckoned: %d asked for, %ld of them missing: the block has %ld bytes\n", ASKED, residue,
           ASKED - residue);
    space(d, FILEMARKS, 1);
    expect_good(d, 0, 2);
    read_fixed(d, back, 2);
    expect_good(d, 0, 4);
    expect_carried(d, 2 * CAMERA_TILE);
    expect_bytes(d, back, tiles + CAMERA_TILE, 2 * CAMERA_TILE);
    printf("    compared: these are the bytes of the camera's %d tiles\n", CAMERA_TILES);
}

/* The viewer has each tile whole, where it lies in the file: one behind the other, for a filemark has no data. */
static inline void view_camera_tiles(struct drive *d, const uint8_t *tiles)
{
    static const uint32_t objects[CAMERA_TILES] = {0, 2, 3};
    puts("\nThe camera's tiles in the viewer");
    for (int i = 0; i < CAMERA_TILES; i++) {
        size_t length;
        const uint8_t *tile = view(d, 0, objects[i], &length);
        must_equal(d, "the block's length", (long)length, CAMERA_TILE);
        must_equal(d, "the block's start", (long)(tile - d->tape[0].image), (long)i * CAMERA_TILE);
        expect_bytes(d, tile, tiles + i * CAMERA_TILE, CAMERA_TILE);
    }
    puts("    compared: these are the same bytes, in the file itself");
}

/* One byte more than a block may have: no byte of the cartridge changes, and the drive stays where it is. */
static inline void write_too_long_a_block(struct drive *d)
{
    static uint8_t bytes[STORMTOGGLE_LARGEST_BLOCK + 1], before[CAMERA_LENGTH];
    puts("\nA block that is too long, by one byte");
    memcpy(before, d->tape[0].image, CAMERA_LENGTH);
    write_block(d, bytes, sizeof bytes);
    expect(d, FIELD_ERROR, 0, 0, 4);
    expect_carried(d, 0);
    expect_bytes(d, d->tape[0].image, before, CAMERA_LENGTH);
    puts("    compared: the cartridge is as it was");
}

static inline void serve_the_camera(struct drive *d, struct partition camera)
{
    static uint8_t tiles[CAMERA_TILES * CAMERA_TILE];
    make_camera_tiles(tiles);
    write_camera_tiles(d, camera, tiles);
    read_camera_tiles(d, tiles);
    view_camera_tiles(d, tiles);
    write_too_long_a_block(d);
    unload(d);
    expect_good(d, 0, 0);
}

#endif
