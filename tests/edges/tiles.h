/* tiles.h: cases of FIXED transfers in the blocks of 32,768 bytes that a mount sets, with no MODE SELECT between. */
#ifndef EDGES_TILES_H
#define EDGES_TILES_H

#include "order.h"

/* ---- FIXED WRITE: each block takes 32,768 bytes and its entry */

/* So many of 32,768 bytes each, as BYTES_OF(3). */
#define BYTES_OF(blocks) ((blocks) * MOUNTED_LENGTH)
static const struct edge fixed_writes[] = {
    {"FIXED WRITE: 1 of 1", FOR_1, SIX(WRITE, FIXED, 1), MOUNTED(0), .sent = BYTES_OF(1), .after = MOUNTED(1),
     .told = RESIDUE(TOLD_ZONE, 0), .carried = BYTES_OF(1), .puts = "b32768"},
    {"FIXED WRITE: 2 of 2", FOR_2, SIX(WRITE, FIXED, 2), MOUNTED(0), .sent = BYTES_OF(2), .after = MOUNTED(2),
     .told = RESIDUE(TOLD_ZONE, 0), .carried = BYTES_OF(2), .puts = "b32768 b32768"},
    {"FIXED WRITE: 3 of 3", FOR_3, SIX(WRITE, FIXED, 3), MOUNTED(0), .sent = BYTES_OF(3), .after = MOUNTED(3),
     .told = RESIDUE(TOLD_ZONE, 0), .carried = BYTES_OF(3), .puts = "b32768 b32768 b32768"},
    {"FIXED WRITE: 1 of 3, GOOD", FOR_3, SIX(WRITE, FIXED, 1), MOUNTED(0), .sent = BYTES_OF(1) + 5, .after = MOUNTED(1),
     .carried = BYTES_OF(1), .puts = "b32768"},
    {"FIXED WRITE: 2 of 3, GOOD", FOR_3, SIX(WRITE, FIXED, 2), MOUNTED(0), .sent = BYTES_OF(2), .after = MOUNTED(2),
     .carried = BYTES_OF(2), .puts = "b32768 b32768"},
    {"FIXED WRITE: 2 where 1 fits", FOR_1, SIX(WRITE, FIXED, 2), MOUNTED(0), .sent = BYTES_OF(2), .after = MOUNTED(1),
     .told = RESIDUE(TOLD_OVERFLOW, 1), .carried = BYTES_OF(1), .puts = "b32768"},
    {"FIXED WRITE: 3 where 2 fit", FOR_2, SIX(WRITE, FIXED, 3), MOUNTED(0), .sent = BYTES_OF(3), .after = MOUNTED(2),
     .told = RESIDUE(TOLD_OVERFLOW, 1), .carried = BYTES_OF(2), .puts = "b32768 b32768"},
    {"FIXED WRITE: 4 where 3 fit", FOR_3, SIX(WRITE, FIXED, 4), MOUNTED(0), .sent = BYTES_OF(4), .after = MOUNTED(3),
     .told = RESIDUE(TOLD_OVERFLOW, 1), .carried = BYTES_OF(3), .puts = "b32768 b32768 b32768"},
    {"FIXED WRITE: 5 where 1 fits", FOR_1, SIX(WRITE, FIXED, 5), MOUNTED(0), .sent = BYTES_OF(5), .after = MOUNTED(1),
     .told = RESIDUE(TOLD_OVERFLOW, 4), .carried = BYTES_OF(1), .puts = "b32768"},
    /* A byte less, and the last one does not fit. */
    {"FIXED WRITE: 1 of 1, a byte short", SHORT_OF_1, SIX(WRITE, FIXED, 1), MOUNTED(0), .sent = BYTES_OF(1),
     .after = MOUNTED(0), .told = RESIDUE(TOLD_OVERFLOW, 1)},
    {"FIXED WRITE: 2 of 2, a byte short", SHORT_OF_2, SIX(WRITE, FIXED, 2), MOUNTED(0), .sent = BYTES_OF(2),
     .after = MOUNTED(1), .told = RESIDUE(TOLD_OVERFLOW, 1), .carried = BYTES_OF(1), .puts = "b32768"},
    {"FIXED WRITE: 3 of 3, a byte short", SHORT_OF_3, SIX(WRITE, FIXED, 3), MOUNTED(0), .sent = BYTES_OF(3),
     .after = MOUNTED(2), .told = RESIDUE(TOLD_OVERFLOW, 1), .carried = BYTES_OF(2), .puts = "b32768 b32768"},
    {"FIXED WRITE: 1 on a blank of 64 bytes", BLANK, SIX(WRITE, FIXED, 1), MOUNTED(0), .sent = BYTES_OF(1),
     .after = MOUNTED(0), .told = RESIDUE(TOLD_OVERFLOW, 1)},
    {"FIXED WRITE: 1 on E cuts nothing", E, SIX(WRITE, FIXED, 1), MOUNTED(0), .sent = BYTES_OF(1), .after = MOUNTED(0),
     .told = RESIDUE(TOLD_OVERFLOW, 1)},
    {"FIXED WRITE: 1 behind the last that fits", TILE, SIX(WRITE, FIXED, 1), MOUNTED(1), .sent = BYTES_OF(1),
     .after = MOUNTED(1), .told = RESIDUE(TOLD_OVERFLOW, 1)},
    {"FIXED WRITE: 2 over 3", TILES_3, SIX(WRITE, FIXED, 2), MOUNTED(0), .sent = BYTES_OF(2), .after = MOUNTED(2),
     .carried = BYTES_OF(2), .puts = "b32768 b32768"},
    {"FIXED WRITE: 1 amid others drops those behind", TILES_3, SIX(WRITE, FIXED, 1), MOUNTED(1), .sent = BYTES_OF(1),
     .after = MOUNTED(2), .carried = BYTES_OF(1), .puts = "b32768"},
    {"FIXED WRITE: 0 cuts nothing", TILES_2, SIX(WRITE, FIXED, 0), MOUNTED(1), .sent = 3, .after = MOUNTED(1)},
    {"FIXED WRITE: 1 to partition 1", E, SIX(WRITE, FIXED, 1), {1, 2, 1, ATTENTION_NONE, 0, MOUNTED_LENGTH, OLD_SENSE},
     .p1 = FOR_2, .sent = BYTES_OF(1), .after = {1, 2, 1, ATTENTION_NONE, 1, MOUNTED_LENGTH, {0}},
     .carried = BYTES_OF(1), .puts = "b32768"},
    /* What ends it before it acts. */
    {"FIXED WRITE: 1 with 32,767 sent", FOR_1, SIX(WRITE, FIXED, 1), MOUNTED(0), .sent = MOUNTED_LENGTH - 1,
     .refusal = BY_SENT},
    {"FIXED WRITE: 1 with 32,767 sent, where it would not fit", BLANK, SIX(WRITE, FIXED, 1), MOUNTED(0),
     .sent = MOUNTED_LENGTH - 1, .refusal = BY_SENT},
    {"FIXED WRITE: 2 with 65,535 sent", FOR_2, SIX(WRITE, FIXED, 2), MOUNTED(0), .sent = BYTES_OF(2) - 1,
     .refusal = BY_SENT},
    {"FIXED WRITE: 1 with 1 sent", FOR_1, SIX(WRITE, FIXED, 1), MOUNTED(0), .sent = 1, .refusal = BY_SENT},
    {"FIXED WRITE: 131,072, 2^32 bytes, of which 16 are sent", FOR_1, SIX(WRITE, FIXED, 131072), MOUNTED(0), .sent = 16,
     .refusal = BY_SENT},
    {"FIXED WRITE: 7/27 before number 2", GUARDED_TILE, SIX(WRITE, FIXED, 1), MOUNTED(0), .sent = 3,
     .after = MOUNTED(0), .told = PLAIN(TOLD_PROTECTED)},
    {"FIXED WRITE: the mount's attention first", FOR_1, SIX(WRITE, FIXED, 1),
     LOADED(ATTENTION_MOUNTED, 0, MOUNTED_LENGTH), .sent = BYTES_OF(1), .after = MOUNTED(0),
     .told = PLAIN(TOLD_MOUNTED)},
};

/* ---- FIXED READ: TILES_APART is a block of 32,768, one of 3, one of 32,768, one of 32,767, one of 32,769, a filemark
 * and a block of 32,768 */

static const struct edge fixed_reads[] = {
    {"FIXED READ: 1 of 1", TILE, SIX(READ, FIXED, 1), MOUNTED(0), .room = BYTES_OF(1), .after = MOUNTED(1),
     .reads = BYTES_OF(1)},
    {"FIXED READ: 2 of 2", TILES_2, SIX(READ, FIXED, 2), MOUNTED(0), .room = BYTES_OF(2), .after = MOUNTED(2),
     .reads = BYTES_OF(2)},
    {"FIXED READ: 3 of 3", TILES_3, SIX(READ, FIXED, 3), MOUNTED(0), .room = BYTES_OF(3) + 7, .after = MOUNTED(3),
     .reads = BYTES_OF(3)},
    {"FIXED READ: the last 2 of 3", TILES_3, SIX(READ, FIXED, 2), MOUNTED(1), .room = BYTES_OF(2), .after = MOUNTED(3),
     .reads = BYTES_OF(2)},
    {"FIXED READ: 2 of 1, to end of data in the zone", TILE, SIX(READ, FIXED, 2), MOUNTED(0), .room = BYTES_OF(2),
     .after = MOUNTED(1), .told = RESIDUE(TOLD_END_IN_ZONE, 1), .reads = BYTES_OF(1)},
    {"FIXED READ: 5 of 3, to end of data in the zone", TILES_3, SIX(READ, FIXED, 5), MOUNTED(0), .room = BYTES_OF(5),
     .after = MOUNTED(3), .told = RESIDUE(TOLD_END_IN_ZONE, 2), .reads = BYTES_OF(3)},
    {"FIXED READ: 2 of the last one, to end of data", TILES_APART, SIX(READ, FIXED, 2), MOUNTED(6), .room = BYTES_OF(2),
     .after = MOUNTED(7), .told = RESIDUE(TOLD_END_OF_DATA, 1), .reads = BYTES_OF(1)},
    {"FIXED READ: 1 of a block of 3 on E", E, SIX(READ, FIXED, 1), MOUNTED(0), .room = BYTES_OF(1), .after = MOUNTED(1),
     .told = RESIDUE(TOLD_LENGTH, 1)},
    {"FIXED READ: 2 of a block of 3 on E, which ends it", E, SIX(READ, FIXED, 2), MOUNTED(0), .room = BYTES_OF(2),
     .after = MOUNTED(1), .told = RESIDUE(TOLD_LENGTH, 2)},
    {"FIXED READ: 1 of a block of 65,536", FORMER, SIX(READ, FIXED, 1), MOUNTED(0), .room = BYTES_OF(1),
     .after = MOUNTED(1), .told = RESIDUE(TOLD_LENGTH, 1)},
    {"FIXED READ: 1 of a block of 1,048,576", LARGEST_1, SIX(READ, FIXED, 1), MOUNTED(0), .room = BYTES_OF(1),
     .after = MOUNTED(1), .told = RESIDUE(TOLD_LENGTH, 1)},
    {"FIXED READ: 3, the second a block of 3", TILES_APART, SIX(READ, FIXED, 3), MOUNTED(0), .room = BYTES_OF(3),
     .after = MOUNTED(2), .told = RESIDUE(TOLD_LENGTH, 2), .reads = BYTES_OF(1)},
    {"FIXED READ: 2, the second a byte shorter", TILES_APART, SIX(READ, FIXED, 2), MOUNTED(2), .room = BYTES_OF(2),
     .after = MOUNTED(4), .told = RESIDUE(TOLD_LENGTH, 1), .reads = BYTES_OF(1)},
    {"FIXED READ: 1 of a block a byte shorter", TILES_APART, SIX(READ, FIXED, 1), MOUNTED(3), .room = BYTES_OF(1),
     .after = MOUNTED(4), .told = RESIDUE(TOLD_LENGTH, 1)},
    {"FIXED READ: 1 of a block a byte longer", TILES_APART, SIX(READ, FIXED, 1), MOUNTED(4), .room = BYTES_OF(1),
     .after = MOUNTED(5), .told = RESIDUE(TOLD_LENGTH, 1)},
    {"FIXED READ: 2 at a filemark", TILES_APART, SIX(READ, FIXED, 2), MOUNTED(5), .room = BYTES_OF(2),
     .after = MOUNTED(6), .told = RESIDUE(TOLD_FILEMARK, 2)},
    {"FIXED READ: 1 at end of data", E, SIX(READ, FIXED, 1), MOUNTED(2), .room = BYTES_OF(1), .after = MOUNTED(2),
     .told = RESIDUE(TOLD_END_OF_DATA, 1)},
    {"FIXED READ: 1 of a blank", BLANK, SIX(READ, FIXED, 1), MOUNTED(0), .room = BYTES_OF(1), .after = MOUNTED(0),
     .told = RESIDUE(TOLD_END_OF_DATA, 1)},
    {"FIXED READ: 0 at a filemark", E, SIX(READ, FIXED, 0), MOUNTED(1), .room = 5, .after = MOUNTED(1)},
    {"FIXED READ: 1 of partition 1", E, SIX(READ, FIXED, 1), {1, 2, 1, ATTENTION_NONE, 0, MOUNTED_LENGTH, OLD_SENSE},
     .p1 = TILE, .room = BYTES_OF(1), .after = {1, 2, 1, ATTENTION_NONE, 1, MOUNTED_LENGTH, {0}}, .reads = BYTES_OF(1)},
    {"FIXED READ: 1 of a protected one", GUARDED_TILE, SIX(READ, FIXED, 1), MOUNTED(0), .room = BYTES_OF(1),
     .after = MOUNTED(1), .reads = BYTES_OF(1)},
    /* What ends it before it acts. */
    {"FIXED READ: 1 into 32,767", TILE, SIX(READ, FIXED, 1), MOUNTED(0), .room = MOUNTED_LENGTH - 1,
     .refusal = BY_RECEIVED},
    {"FIXED READ: 1 into 32,767, of a block of 3", E, SIX(READ, FIXED, 1), MOUNTED(0), .room = MOUNTED_LENGTH - 1,
     .refusal = BY_RECEIVED},
    {"FIXED READ: 2 into 65,535", TILES_2, SIX(READ, FIXED, 2), MOUNTED(0), .room = BYTES_OF(2) - 1,
     .refusal = BY_RECEIVED},
    {"FIXED READ: 1 into 3", E, SIX(READ, FIXED, 1), MOUNTED(0), .room = 3, .refusal = BY_RECEIVED},
    {"FIXED READ: 131,072, 2^32 bytes, into 16", TILE, SIX(READ, FIXED, 131072), MOUNTED(0), .room = 16,
     .refusal = BY_RECEIVED},
    {"FIXED READ: with SILI is a field error as ever", TILE, SIX(READ, FIXED | SILI, 1), MOUNTED(0),
     .room = BYTES_OF(1), .after = MOUNTED(0), .told = FIELD},
    {"FIXED READ: with SILI on E", E, SIX(READ, FIXED | SILI, 1), MOUNTED(0), .after = MOUNTED(0), .told = FIELD},
    {"FIXED READ: with SILI at length 0 too", TILE, SIX(READ, FIXED | SILI, 0), MOUNTED(0), .after = MOUNTED(0),
     .told = FIELD},
    {"FIXED READ: the mount's attention first", TILE, SIX(READ, FIXED, 1), LOADED(ATTENTION_MOUNTED, 0, MOUNTED_LENGTH),
     .room = BYTES_OF(1), .after = MOUNTED(0), .told = PLAIN(TOLD_MOUNTED)},
};

static void fixed_as_mounted(void)
{
    run(fixed_writes, COUNT(fixed_writes));
    run(fixed_reads, COUNT(fixed_reads));
}

#endif
