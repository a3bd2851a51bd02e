/* merged_bounds.h: two moves or one where their sum, or the opposite of a count, does not fit SPACE's 24 bits. */
#ifndef EDGES_MERGED_BOUNDS_H
#define EDGES_MERGED_BOUNDS_H

#include "pairs.h"

/* ---- a sum that six bytes do not hold: by its low 24 bits it goes the other way, by SPACE (16) it is as any other */

static const struct merged merged_past_24_bits[] = {
    {"blocks 2^23 - 1, 1, by 24 bits", PAIR, AT(1), {SIX(SPACE, BLOCKS, COUNT_SIGN - 1),
     STOPS(3, 2, TOLD_FILEMARK, 0x7ffffe)}, {SIX(SPACE, BLOCKS, 1), STOPS(3, 0, TOLD_END_OF_DATA, 1)},
     {SIX(SPACE, BLOCKS, COUNT_SIGN), STOPS(0, 1, TOLD_BEGINNING, 0xff800001)}, .relation = ELSEWHERE},
    {"blocks 2^23 - 1, 1, by SPACE (16)", PAIR, AT(1), {SIX(SPACE, BLOCKS, COUNT_SIGN - 1),
     STOPS(3, 2, TOLD_FILEMARK, 0x7ffffe)}, {SIX(SPACE, BLOCKS, 1), STOPS(3, 0, TOLD_END_OF_DATA, 1)},
     {SPACE_16(BLOCKS, COUNT_SIGN), STOPS(3, 2, TOLD_FILEMARK, 0x7fffff)}, .relation = AS_FIRST},
    {"filemarks -1, -2^23, by 24 bits", FILES, AT(3), {SIX(SPACE, FILEMARKS, -1), GOES(2, 1)},
     {SIX(SPACE, FILEMARKS, COUNT_SIGN), STOPS(0, 2, TOLD_BEGINNING, 0xff800000)},
     {SIX(SPACE, FILEMARKS, -COUNT_SIGN - 1), STOPS(5, 2, TOLD_END_OF_DATA, 0x7ffffe)}, .relation = ELSEWHERE},
    {"filemarks -1, -2^23, by SPACE (16)", FILES, AT(3), {SIX(SPACE, FILEMARKS, -1), GOES(2, 1)},
     {SIX(SPACE, FILEMARKS, COUNT_SIGN), STOPS(0, 2, TOLD_BEGINNING, 0xff800000)},
     {SPACE_16(FILEMARKS, -COUNT_SIGN - 1), STOPS(0, 3, TOLD_BEGINNING, 0xff800000)}, .relation = ONE_WAY},
};

/* ---- on 2^23 blocks of a byte each, which such counts can cross */

enum { BLOCKS_ALL = COUNT_SIGN, BLOCKS_HALF = COUNT_SIGN / 2 };
#define ALL_LENGTH ((size_t)BLOCKS_ALL * (ENTRY + 1) + TRAILER)

/* A call, from where it starts, where it must leave the drive, how many objects it must cross, what it must tell. */
static const struct bound {
    const char *what;
    uint32_t from;
    struct bytes command;
    uint32_t to, crossed;
    struct told told;
} bounds[] = {
    /* -2^23 is a count of 24 bits, and its opposite is none: those bits are -2^23 again. */
    {"blocks -2^23", BLOCKS_ALL, SIX(SPACE, BLOCKS, -BLOCKS_ALL), GOES(0, BLOCKS_ALL)},
    {"its opposite by 24 bits is not home", 0, SIX(SPACE, BLOCKS, BLOCKS_ALL),
     STOPS(0, 0, TOLD_BEGINNING, 0xff800000)},
    {"its opposite by SPACE (16) is home", 0, SPACE_16(BLOCKS, BLOCKS_ALL), GOES(BLOCKS_ALL, BLOCKS_ALL)},
    {"and blocks 0 stay there", BLOCKS_ALL, SIX(SPACE, BLOCKS, 0), GOES(BLOCKS_ALL, 0)},
    /* -2^22 - 2^22 fits. */
    {"blocks -2^22", BLOCKS_ALL, SIX(SPACE, BLOCKS, -BLOCKS_HALF), GOES(BLOCKS_HALF, BLOCKS_HALF)},
    {"blocks -2^22 again, to where -2^23 goes", BLOCKS_HALF, SIX(SPACE, BLOCKS, -BLOCKS_HALF), GOES(0, BLOCKS_HALF)},
    /* 2^22 + 2^22 does not. */
    {"blocks 2^22", 0, SIX(SPACE, BLOCKS, BLOCKS_HALF), GOES(BLOCKS_HALF, BLOCKS_HALF)},
    {"blocks 2^22 again", BLOCKS_HALF, SIX(SPACE, BLOCKS, BLOCKS_HALF), GOES(BLOCKS_ALL, BLOCKS_HALF)},
    {"their sum by 24 bits goes back", 0, SIX(SPACE, BLOCKS, 2 * BLOCKS_HALF), STOPS(0, 0, TOLD_BEGINNING, 0xff800000)},
    {"their sum by SPACE (16) goes where they go", 0, SPACE_16(BLOCKS, 2 * BLOCKS_HALF), GOES(BLOCKS_ALL, BLOCKS_ALL)},
};

/* All data is 0, so that only the directory takes memory. */
static uint8_t *make_all_blocks(void)
{
    uint8_t *image = sparse(ALL_LENGTH);
    for (size_t i = 0; image != NULL && i < BLOCKS_ALL; i++)
        set_entry(image, ALL_LENGTH, i, (uint32_t)i + 1);
    if (image != NULL)
        lay_trailer(image, ALL_LENGTH, BLOCKS_ALL, 0);
    return image;
}

static int are_all_blocks(const uint8_t *image)
{
    size_t blocks = 0, zeros = 0;
    while (blocks < BLOCKS_ALL && end_at(image, ALL_LENGTH, blocks + 1) == blocks + 1)
        blocks++;
    while (zeros < BLOCKS_ALL && image[zeros] == 0)
        zeros++;
    return blocks == BLOCKS_ALL && zeros == BLOCKS_ALL;
}

/* The image is too large to be lent a copy of it for each call, as other cases are. */
static void hold_bound(uint8_t *image, const struct bound *bound, uint32_t block_length)
{
    struct drive before = SET(block_length, bound->from), after = SET(block_length, bound->to);
    uint8_t record[RECORD_BYTES], want[RECORD_BYTES], none[1];
    uint64_t answer, status = bound->told.first != 0;
    lay_drive(record, &before);
    lay_told(want, &after, &bound->told);
    answer = stormtoggle_command(record, sizeof record, bound->command.at, bound->command.length, image, ALL_LENGTH,
                                 none, 0, none, 0, none, 0);
    expect_equal(answer, status << ANSWER_STATUS | (uint64_t)bound->crossed << ANSWER_CROSSED, "answer, %s of 2^23",
                 bound->what);
    expect_bytes(record, want, sizeof record, "record, %s of 2^23", bound->what);
    cases_run++;
}

static void moves_at_the_bounds(void)
{
    uint8_t *image = make_all_blocks();
    run_merged(merged_past_24_bits, COUNT(merged_past_24_bits));
    for (size_t i = 0; image != NULL && i < COUNT(bounds); i++)
        for (size_t length = 0; length < COUNT(either_length); length++)
            hold_bound(image, &bounds[i], either_length[length]);
    if (image == NULL)
        return;
    expect(are_all_blocks(image), "the 2^23 blocks behind the calls");
    munmap(image, ALL_LENGTH);
}

#endif
