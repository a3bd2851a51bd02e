/* large_fixed.h: cases of FIXED transfers in blocks above 65,536 bytes, and a drive's life with them. */
#ifndef EDGES_LARGE_FIXED_H
#define EDGES_LARGE_FIXED_H

#include "mounted.h"

/* ---- FIXED WRITE: each block takes its bytes and its entry */

/* So many pictures, or largest blocks, in bytes. */
#define PICTURES(blocks) ((blocks) * PICTURE_BYTES)
#define LARGEST(blocks) ((blocks) * LARGEST_BLOCK)
#define OF_PICTURES(position) SET(PICTURE_BYTES, position)
#define OF_LARGEST(position) SET(LARGEST_BLOCK, position)
static const struct edge large_fixed_writes[] = {
    {"FIXED WRITE: 2 of 800,000 for 2", FOR_2_PICTURES, SIX(WRITE, FIXED, 2), OF_PICTURES(0), .sent = PICTURES(2),
     .after = OF_PICTURES(2), .told = RESIDUE(TOLD_ZONE, 0), .carried = PICTURES(2), .puts = "b800000 b800000"},
    {"FIXED WRITE: 2 of 800,000 where 1 fits", FOR_PICTURE, SIX(WRITE, FIXED, 2), OF_PICTURES(0), .sent = PICTURES(2),
     .after = OF_PICTURES(1), .told = RESIDUE(TOLD_OVERFLOW, 1), .carried = PICTURES(1), .puts = "b800000"},
    {"FIXED WRITE: 2 of 800,000, a byte short", SHORT_OF_2_PICTURES, SIX(WRITE, FIXED, 2), OF_PICTURES(0),
     .sent = PICTURES(2), .after = OF_PICTURES(1), .told = RESIDUE(TOLD_OVERFLOW, 1), .carried = PICTURES(1),
     .puts = "b800000"},
    {"FIXED WRITE: 3 of 800,000 for 3", FOR_3_PICTURES, SIX(WRITE, FIXED, 3), OF_PICTURES(0), .sent = PICTURES(3),
     .after = OF_PICTURES(3), .told = RESIDUE(TOLD_ZONE, 0), .carried = PICTURES(3),
     .puts = "b800000 b800000 b800000"},
    {"FIXED WRITE: 3 of 800,000 where 2 fit", FOR_2_PICTURES, SIX(WRITE, FIXED, 3), OF_PICTURES(0),
     .sent = PICTURES(3), .after = OF_PICTURES(2), .told = RESIDUE(TOLD_OVERFLOW, 1), .carried = PICTURES(2),
     .puts = "b800000 b800000"},
    {"FIXED WRITE: 3 of 800,000, a byte short", SHORT_OF_3_PICTURES, SIX(WRITE, FIXED, 3), OF_PICTURES(0),
     .sent = PICTURES(3), .after = OF_PICTURES(2), .told = RESIDUE(TOLD_OVERFLOW, 1), .carried = PICTURES(2),
     .puts = "b800000 b800000"},
    {"FIXED WRITE: 1 of 800,000 for 3, GOOD", FOR_3_PICTURES, SIX(WRITE, FIXED, 1), OF_PICTURES(0),
     .sent = PICTURES(1) + 5, .after = OF_PICTURES(1), .carried = PICTURES(1), .puts = "b800000"},
    {"FIXED WRITE: 1 of 800,000, a byte short", SHORT_OF_PICTURE, SIX(WRITE, FIXED, 1), OF_PICTURES(0),
     .sent = PICTURES(1), .after = OF_PICTURES(0), .told = RESIDUE(TOLD_OVERFLOW, 1)},
    {"FIXED WRITE: 1 of 800,000 behind one", PICTURES_2, SIX(WRITE, FIXED, 1), OF_PICTURES(1), .sent = PICTURES(1),
     .after = OF_PICTURES(2), .told = RESIDUE(TOLD_ZONE, 0), .carried = PICTURES(1), .puts = "b800000"},
    {"FIXED WRITE: 1 of 65,537 for 1", FOR_65537, SIX(WRITE, FIXED, 1), SET(FORMER_LARGEST + 1, 0),
     .sent = FORMER_LARGEST + 1, .after = SET(FORMER_LARGEST + 1, 1), .told = RESIDUE(TOLD_ZONE, 0),
     .carried = FORMER_LARGEST + 1, .puts = "b65537"},
    {"FIXED WRITE: 2 of 1,048,576 for 2", FOR_2_LARGEST, SIX(WRITE, FIXED, 2), OF_LARGEST(0), .sent = LARGEST(2),
     .after = OF_LARGEST(2), .told = RESIDUE(TOLD_ZONE, 0), .carried = LARGEST(2), .puts = "B B"},
    {"FIXED WRITE: 3 of 1,048,576 where 2 fit", FOR_2_LARGEST, SIX(WRITE, FIXED, 3), OF_LARGEST(0), .sent = LARGEST(3),
     .after = OF_LARGEST(2), .told = RESIDUE(TOLD_OVERFLOW, 1), .carried = LARGEST(2), .puts = "B B"},
    {"FIXED WRITE: 2 of 1,048,576, a byte short", SHORT_OF_2_LARGEST, SIX(WRITE, FIXED, 2), OF_LARGEST(0),
     .sent = LARGEST(2), .after = OF_LARGEST(1), .told = RESIDUE(TOLD_OVERFLOW, 1), .carried = LARGEST(1),
     .puts = "B"},
    {"FIXED WRITE: 1 of 1,048,576 for 2, GOOD", FOR_2_LARGEST, SIX(WRITE, FIXED, 1), OF_LARGEST(0), .sent = LARGEST(1),
     .after = OF_LARGEST(1), .carried = LARGEST(1), .puts = "B"},
    {"FIXED WRITE: 1 of 1,048,576, a byte short", SHORT_OF_LARGEST, SIX(WRITE, FIXED, 1), OF_LARGEST(0),
     .sent = LARGEST(1), .after = OF_LARGEST(0), .told = RESIDUE(TOLD_OVERFLOW, 1)},
    {"FIXED WRITE: 2 of 1,048,576 on E cut nothing", E, SIX(WRITE, FIXED, 2), OF_LARGEST(1), .sent = LARGEST(2),
     .after = OF_LARGEST(1), .told = RESIDUE(TOLD_OVERFLOW, 2)},
    /* What ends it before it acts. */
    {"FIXED WRITE: 2 of 800,000 with a byte less sent", FOR_2_PICTURES, SIX(WRITE, FIXED, 2), OF_PICTURES(0),
     .sent = PICTURES(2) - 1, .refusal = BY_SENT},
    {"FIXED WRITE: 2 of 1,048,576 with a byte less sent", E, SIX(WRITE, FIXED, 2), OF_LARGEST(0),
     .sent = LARGEST(2) - 1, .refusal = BY_SENT},
    {"FIXED WRITE: 2 of 1,048,576, protected", GUARDED, SIX(WRITE, FIXED, 2), OF_LARGEST(0), .sent = 5,
     .after = OF_LARGEST(0), .told = PLAIN(TOLD_PROTECTED)},
    {"FIXED WRITE: 2 of 1,048,576, nothing loaded", NONE, SIX(WRITE, FIXED, 2), EMPTY(LARGEST_BLOCK), .sent = 5,
     .after = EMPTY(LARGEST_BLOCK), .told = NOT_LOADED},
};

/* ---- products of count and block length, of which the low 32 bits are 0, 1,048,576, 232,704 and FFF00000h */

#define PRODUCTS(name, count, block_length, low)                                                                  \
    {"READ " name, E, SIX(READ, FIXED, count), SET(block_length, 0), .room = low, .refusal = BY_RECEIVED},        \
    {"READ " name ", at end of data", E, SIX(READ, FIXED, count), SET(block_length, 2), .room = low,              \
     .refusal = BY_RECEIVED},                                                                                     \
    {"WRITE " name, E, SIX(WRITE, FIXED, count), SET(block_length, 0), .sent = low, .refusal = BY_SENT},          \
    {"WRITE " name ", protected", GUARDED, SIX(WRITE, FIXED, count), SET(block_length, 0), .sent = low,           \
     .after = SET(block_length, 0), .told = PLAIN(TOLD_PROTECTED)}
static const struct edge large_products[] = {
    PRODUCTS("4,096 x 1,048,576", 4096, LARGEST_BLOCK, 0),
    PRODUCTS("4,096 x 1,048,576, some lent", 4096, LARGEST_BLOCK, 16),
    PRODUCTS("4,097 x 1,048,576", 4097, LARGEST_BLOCK, LARGEST_BLOCK),
    PRODUCTS("5,369 x 800,000", 5369, PICTURE_BYTES, 232704),
    PRODUCTS("FFFFFFh x 1,048,576", COUNT_MOST, LARGEST_BLOCK, 16),
    PRODUCTS("FFFFFFh x 65,537", COUNT_MOST, FORMER_LARGEST + 1, 16),
};

/* ---- FIXED READ: PICTURES_APART is a block of 800,000, one of 65,536, one of 800,000 and a filemark */

static const struct edge large_fixed_reads[] = {
    {"FIXED READ: 2 of 800,000", PICTURES_2, SIX(READ, FIXED, 2), OF_PICTURES(0), .room = PICTURES(2),
     .after = OF_PICTURES(2), .reads = PICTURES(2)},
    {"FIXED READ: the second of 800,000", PICTURES_2, SIX(READ, FIXED, 1), OF_PICTURES(1), .room = PICTURES(1),
     .after = OF_PICTURES(2), .reads = PICTURES(1)},
    {"FIXED READ: 3 of 800,000, to end of data in the zone", PICTURES_2, SIX(READ, FIXED, 3), OF_PICTURES(0),
     .room = PICTURES(3), .after = OF_PICTURES(2), .told = RESIDUE(TOLD_END_IN_ZONE, 1), .reads = PICTURES(2)},
    {"FIXED READ: 3 of 800,000, the second of 65,536", PICTURES_APART, SIX(READ, FIXED, 3), OF_PICTURES(0),
     .room = PICTURES(3), .after = OF_PICTURES(2), .told = RESIDUE(TOLD_LENGTH, 2), .reads = PICTURES(1)},
    {"FIXED READ: 2 of 800,000, the first of 65,536", PICTURES_APART, SIX(READ, FIXED, 2), OF_PICTURES(1),
     .room = PICTURES(2), .after = OF_PICTURES(2), .told = RESIDUE(TOLD_LENGTH, 2)},
    {"FIXED READ: 2 of 800,000, the second a filemark", PICTURES_APART, SIX(READ, FIXED, 2), OF_PICTURES(2),
     .room = PICTURES(2), .after = OF_PICTURES(4), .told = RESIDUE(TOLD_FILEMARK, 1), .reads = PICTURES(1)},
    {"FIXED READ: 1 of 800,000 at end of data", PICTURES_APART, SIX(READ, FIXED, 1), OF_PICTURES(4),
     .room = PICTURES(1), .after = OF_PICTURES(4), .told = RESIDUE(TOLD_END_OF_DATA, 1)},
    {"FIXED READ: 2 of 65,536, the second of 800,000", PICTURES_APART, SIX(READ, FIXED, 2), SET(FORMER_LARGEST, 1),
     .room = 2 * FORMER_LARGEST, .after = SET(FORMER_LARGEST, 3), .told = RESIDUE(TOLD_LENGTH, 1),
     .reads = FORMER_LARGEST},
    {"FIXED READ: 1 of 799,999, of 800,000", PICTURE, SIX(READ, FIXED, 1), SET(PICTURE_BYTES - 1, 0),
     .room = PICTURE_BYTES, .after = SET(PICTURE_BYTES - 1, 1), .told = RESIDUE(TOLD_LENGTH, 1)},
    {"FIXED READ: 1 of 65,536, of 65,537", OF_65537, SIX(READ, FIXED, 1), SET(FORMER_LARGEST, 0),
     .room = FORMER_LARGEST + 1, .after = SET(FORMER_LARGEST, 1), .told = RESIDUE(TOLD_LENGTH, 1)},
    {"FIXED READ: 1 of 65,537", OF_65537, SIX(READ, FIXED, 1), SET(FORMER_LARGEST + 1, 0), .room = FORMER_LARGEST + 1,
     .after = SET(FORMER_LARGEST + 1, 1), .reads = FORMER_LARGEST + 1},
    {"FIXED READ: 2 of 1,048,576", LARGEST_2, SIX(READ, FIXED, 2), OF_LARGEST(0), .room = LARGEST(2),
     .after = OF_LARGEST(2), .reads = LARGEST(2)},
    {"FIXED READ: 3 of 1,048,576, to end of data in the zone", LARGEST_2, SIX(READ, FIXED, 3), OF_LARGEST(0),
     .room = LARGEST(3), .after = OF_LARGEST(2), .told = RESIDUE(TOLD_END_IN_ZONE, 1), .reads = LARGEST(2)},
    {"FIXED READ: 2 of 1,048,575, of 1,048,576", LARGEST_2, SIX(READ, FIXED, 2), SET(LARGEST_BLOCK - 1, 0),
     .room = LARGEST(2), .after = SET(LARGEST_BLOCK - 1, 1), .told = RESIDUE(TOLD_LENGTH, 2)},
    {"FIXED READ: 1 of 1,048,576, of 800,000", PICTURE, SIX(READ, FIXED, 1), OF_LARGEST(0), .room = LARGEST(1),
     .after = OF_LARGEST(1), .told = RESIDUE(TOLD_LENGTH, 1)},
    {"FIXED READ: 2 of 800,000 into a byte less", PICTURES_2, SIX(READ, FIXED, 2), OF_PICTURES(0),
     .room = PICTURES(2) - 1, .refusal = BY_RECEIVED},
    {"FIXED READ: 2 of 1,048,576 into a byte less", E, SIX(READ, FIXED, 2), OF_LARGEST(0), .room = LARGEST(2) - 1,
     .refusal = BY_RECEIVED},
    {"FIXED READ: 1 of 1,048,576 with SILI", E, SIX(READ, FIXED | SILI, 1), OF_LARGEST(0), .room = LARGEST(1),
     .after = OF_LARGEST(0), .told = FIELD},
};

/* ---- a life on a cartridge that holds three pictures and a filemark, and 100 bytes more */

static const struct edge pictures_behind_the_mount[] = {
    {.what = "WRITE of a picture under 28h", .command = SIX(WRITE, 0, PICTURE_BYTES), .sent = PICTURE_BYTES,
     .after = MOUNTED(0), .told = PLAIN(TOLD_MOUNTED)},
    {.what = "READ BLOCK LIMITS", .command = SIX(READ_BLOCK_LIMITS, 0, 0), .room = LIMITS_BYTES, .after = MOUNTED(0),
     .data = BYTES(0, 0x10, 0, 0, 0, 1)},
    {.what = "WRITE of a picture", .command = SIX(WRITE, 0, PICTURE_BYTES), .sent = PICTURE_BYTES,
     .after = MOUNTED(1), .carried = PICTURE_BYTES, .puts = "b800000"},
    {.what = "a filemark behind it", .command = SIX(WRITE_FILEMARKS, 0, 1), .after = MOUNTED(2), .puts = "f"},
    {.what = "1,048,577 is not selected", .command = SIX(MODE_SELECT, PF, MODE_BYTES), SELECTS(0x10, 0, 1),
     .after = MOUNTED(2), .told = PLAIN(TOLD_LIST)},
    {.what = "800,000 is selected", .command = SIX(MODE_SELECT, PF, MODE_BYTES), SELECTS(0x0c, 0x35, 0),
     .after = OF_PICTURES(2), .carried = MODE_BYTES},
    {.what = "MODE SENSE tells 800,000", .command = PAGE(0, PAGE_NONE, MODE_BYTES), .room = MODE_BYTES,
     .after = OF_PICTURES(2), .data = TELLS_OTHER(0x0c, 0x35, 0)},
    {.what = "FIXED WRITE of two pictures", .command = SIX(WRITE, FIXED, 2), .sent = PICTURES(2),
     .after = OF_PICTURES(4), .told = RESIDUE(TOLD_ZONE, 0), .carried = PICTURES(2), .puts = "b800000 b800000"},
    {.what = "WRITE of one more", .command = SIX(WRITE, FIXED, 1), .sent = PICTURES(1), .after = OF_PICTURES(4),
     .told = RESIDUE(TOLD_OVERFLOW, 1)},
    {.what = "SPACE back over two", .command = SIX(SPACE, BLOCKS, -2), .after = OF_PICTURES(2), .crossed = 2},
    {.what = "FIXED READ of two", .command = SIX(READ, FIXED, 2), .room = PICTURES(2), .after = OF_PICTURES(4),
     .reads = PICTURES(2)},
    {.what = "SPACE back over the filemark", .command = SIX(SPACE, FILEMARKS, -1), .after = OF_PICTURES(1),
     .crossed = 3},
    {.what = "FIXED READ of the filemark", .command = SIX(READ, FIXED, 1), .room = PICTURES(1),
     .after = OF_PICTURES(2), .told = RESIDUE(TOLD_FILEMARK, 1)},
    {.what = "LOCATE to the first", .command = LOCATE(0, 0, 0), .after = OF_PICTURES(0)},
    {.what = "READ of the first", .command = SIX(READ, 0, PICTURE_BYTES), .room = PICTURE_BYTES,
     .after = OF_PICTURES(1), .reads = PICTURE_BYTES},
    {.what = "LOCATE (16) to the last", .command = LOCATE_16(TO_OBJECT, 3, 0), .after = OF_PICTURES(3)},
    {.what = "READ of half of it", .command = SIX(READ, 0, PICTURE_BYTES / 2), .room = PICTURE_BYTES / 2,
     .after = OF_PICTURES(4), .told = RESIDUE(TOLD_LENGTH, 0xfff9e580), .reads = PICTURE_BYTES / 2},
    {.what = "LOCATE to the last again", .command = LOCATE(0, 3, 0), .after = OF_PICTURES(3)},
    {.what = "ERASE of it", .command = SIX(ERASE, 0, 0), .after = OF_PICTURES(3), .erased = CUT},
    {.what = "READ where it was", .command = SIX(READ, 0, 5), .room = 5, .after = OF_PICTURES(3),
     .told = RESIDUE(TOLD_END_OF_DATA, 5)},
    {.what = "WRITE of the largest there is no room for", .command = SIX(WRITE, 0, LARGEST_BLOCK),
     .sent = LARGEST_BLOCK, .after = OF_PICTURES(3), .told = RESIDUE(TOLD_OVERFLOW, LARGEST_BLOCK)},
    {.what = "WRITE of 65,537 in its place", .command = SIX(WRITE, 0, FORMER_LARGEST + 1), .sent = FORMER_LARGEST + 1,
     .after = OF_PICTURES(4), .carried = FORMER_LARGEST + 1, .puts = "b65537"},
    {.what = "1,048,576 is selected", .command = SIX(MODE_SELECT, PF, MODE_BYTES), SELECTS(0x10, 0, 0),
     .after = OF_LARGEST(4), .carried = MODE_BYTES},
    {.what = "unload keeps 1,048,576", .command = SIX(LOAD_UNLOAD, 0, 0), .after = EMPTY(LARGEST_BLOCK)},
};

static const struct edge pictures_behind_the_second[] = {
    {.what = "MODE SENSE under the second 28h", .command = PAGE(0, PAGE_NONE, MODE_BYTES), .room = MODE_BYTES,
     .after = MOUNTED(0), .told = PLAIN(TOLD_MOUNTED)},
    {.what = "MODE SENSE tells 32,768 again", .command = PAGE(0, PAGE_NONE, MODE_BYTES), .room = MODE_BYTES,
     .after = MOUNTED(0), .data = TELLS_IT(0)},
    {.what = "FIXED READ of a picture as a tile", .command = SIX(READ, FIXED, 1), .room = MOUNTED_LENGTH,
     .after = MOUNTED(1), .told = RESIDUE(TOLD_LENGTH, 1)},
    {.what = "to the last by LOCATE", .command = LOCATE(0, 3, 0), .after = MOUNTED(3)},
    {.what = "READ of 1,048,576 with SILI", .command = SIX(READ, SILI, LARGEST_BLOCK), .room = LARGEST_BLOCK,
     .after = MOUNTED(4), .reads = FORMER_LARGEST + 1},
};

/* Makes what the partition has for a trailer a blank's; its other bytes stay as they were lent. */
static void hold_blank(const struct call *call, const char *what)
{
    size_t length = call->length[PARTITION_0];
    uint8_t *lent = lend(call->after[PARTITION_0], length);
    memset(lent + length - TRAILER, 0x5a, TRAILER);
    expect_equal(stormtoggle_blank(lent, length), DONE, "blank %s", what);
    expect_bytes(lent, call->after[PARTITION_0], length, "partition behind a blank %s", what);
    take_back(lent, length);
    cases_run++;
}

static void run_life_of_pictures(void)
{
    struct call call = fresh_drive_with(FOR_A_LIFE);
    hold_blank(&call, "for a life of pictures");
    hold_mount(&call, 0, "for a life of pictures");
    run_in_turn(&call, pictures_behind_the_mount, COUNT(pictures_behind_the_mount));
    hold_mount(&call, 0, "over 1,048,576");
    run_in_turn(&call, pictures_behind_the_second, COUNT(pictures_behind_the_second));
    free_call(&call);
}

static void large_fixed(void)
{
    run(large_fixed_writes, COUNT(large_fixed_writes));
    run(large_products, COUNT(large_products));
    run(large_fixed_reads, COUNT(large_fixed_reads));
    run_life_of_pictures();
}

#endif
