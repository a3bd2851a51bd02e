/* data.h: cases of commands that act: reading, writing, movement, positions, mode data, load and unload. */
#ifndef EDGES_DATA_H
#define EDGES_DATA_H

#include "drive.h"

/* ---- READ */

static const struct edge reading[] = {
    {"READ of a whole block", E, SIX(READ, 0, 3), AT(0), .room = 5, .after = AT(1), .data = BYTES(1, 2, 3)},
    {"READ into just enough", E, SIX(READ, 0, 3), AT(0), .room = 3, .after = AT(1), .data = BYTES(1, 2, 3)},
    {"READ at end of data", E, SIX(READ, 0, 5), AT(2), .room = 16, .after = AT(2),
     .told = RESIDUE(TOLD_END_OF_DATA, 5)},
    {"READ at end of data in the zone tells EOM", FULL, SIX(READ, 0, 5), AT(1), .room = 16, .after = AT(1),
     .told = RESIDUE(TOLD_END_IN_ZONE, 5)},
    {"READ of a blank", BLANK, SIX(READ, 0, 5), AT(0), .room = 16, .after = AT(0),
     .told = RESIDUE(TOLD_END_OF_DATA, 5)},
    {"READ 0 at a filemark", E, SIX(READ, 0, 0), AT(1), .room = 16, .after = AT(1)},
    {"READ 0 at end of data", E, SIX(READ, SILI, 0), AT(2), .after = AT(2)},
    {"FIXED READ 0 at a filemark", E, SIX(READ, FIXED, 0), SET(3, 1), .after = SET(3, 1)},
    {"variable READ while a block length is set", E, SIX(READ, 0, 3), SET(4, 0), .room = 5, .after = SET(4, 1),
     .data = BYTES(1, 2, 3)},
    {"SILI hides an underlength", E, SIX(READ, SILI, 5), AT(0), .room = 16, .after = AT(1), .data = BYTES(1, 2, 3)},
    {"SILI hides an underlength while a block length is set", E, SIX(READ, SILI, 5), SET(3, 0), .room = 16,
     .after = SET(3, 1), .data = BYTES(1, 2, 3)},
    {"SILI hides no overlength while a block length is set", E, SIX(READ, SILI, 2), SET(3, 0), .room = 16,
     .after = SET(3, 1), .told = RESIDUE(TOLD_LENGTH, 0xffffffff), .data = BYTES(1, 2)},
    {"SILI hides no filemark", E, SIX(READ, SILI, 5), AT(1), .room = 16, .after = AT(2),
     .told = RESIDUE(TOLD_FILEMARK, 5)},
    {"SILI hides no end of data", E, SIX(READ, SILI, 5), AT(2), .room = 16, .after = AT(2),
     .told = RESIDUE(TOLD_END_OF_DATA, 5)},
    {"FIXED READ of two blocks", MIXED, SIX(READ, FIXED, 2), SET(3, 2), .room = 7, .after = SET(3, 4), .reads = 6},
    {"FIXED READ at a filemark", E, SIX(READ, FIXED, 2), SET(3, 1), .room = 6, .after = SET(3, 2),
     .told = RESIDUE(TOLD_FILEMARK, 2)},
    {"FIXED READ to end of data", MIXED, SIX(READ, FIXED, 2), SET(3, 6), .room = 6, .after = SET(3, 7),
     .told = RESIDUE(TOLD_END_OF_DATA, 1), .reads = 3},
    {"READ of the largest block", BIG, SIX(READ, 0, LARGEST_BLOCK), SET(0, 0), .room = LARGEST_BLOCK + 1,
     .after = SET(0, 1), .reads = LARGEST_BLOCK},
    {"READ 1,048,577 is no field error", BIG, SIX(READ, 0, LARGEST_BLOCK + 1), MOUNTED(0), .room = LARGEST_BLOCK + 4,
     .after = MOUNTED(1), .told = RESIDUE(TOLD_LENGTH, 1), .reads = LARGEST_BLOCK},
    {"FIXED READ of the largest block", BIG, SIX(READ, FIXED, 1), SET(LARGEST_BLOCK, 0), .room = LARGEST_BLOCK,
     .after = SET(LARGEST_BLOCK, 1), .reads = LARGEST_BLOCK},
    {"READ of a block of 65,536", FORMER, SIX(READ, 0, FORMER_LARGEST), AT(0), .room = FORMER_LARGEST + 1,
     .after = AT(1), .reads = FORMER_LARGEST},
    {"READ 65,537 is no field error", FORMER, SIX(READ, 0, FORMER_LARGEST + 1), AT(0), .room = FORMER_LARGEST + 4,
     .after = AT(1), .told = RESIDUE(TOLD_LENGTH, 1), .reads = FORMER_LARGEST},
    {"FIXED READ of a block of 65,536", FORMER, SIX(READ, FIXED, 1), SET(FORMER_LARGEST, 0), .room = FORMER_LARGEST,
     .after = SET(FORMER_LARGEST, 1), .reads = FORMER_LARGEST},
    {"READ of partition 1", E, SIX(READ, 0, 5), TWO(1, 4), .p1 = MIXED, .room = 9, .after = TWO(1, 5), .reads = 5},
};

/* ---- WRITE and WRITE FILEMARKS */

static const struct edge writing[] = {
    {"WRITE 0 cuts nothing", E, SIX(WRITE, 0, 0), AT(0), .sent = 3, .after = AT(0)},
    {"WRITE 0 in the zone", FULL, SIX(WRITE, 0, 0), AT(1), .after = AT(1)},
    {"FIXED WRITE 0 cuts nothing", E, SIX(WRITE, FIXED, 0), SET(3, 0), .after = SET(3, 0)},
    {"WRITE takes no more than it asks for", E, SIX(WRITE, 0, 3), AT(2), .sent = 5, .after = AT(3), .carried = 3,
     .puts = "b3"},
    {"variable WRITE while a block length is set", E, SIX(WRITE, 0, 3), SET(7, 2), .sent = 3, .after = SET(7, 3),
     .carried = 3, .puts = "b3"},
    {"WRITE amid objects drops those behind", MIXED, SIX(WRITE, 0, 4), AT(1), .sent = 4, .after = AT(2), .carried = 4,
     .puts = "b4"},
    {"a room of 3 bytes in 64 is before the zone", BLANK, SIX(WRITE, 0, 41), AT(0), .sent = 41, .after = AT(1),
     .carried = 41, .puts = "b41"},
    {"a room of 2 bytes in 64 is in the zone", BLANK, SIX(WRITE, 0, 42), AT(0), .sent = 42, .after = AT(1),
     .told = RESIDUE(TOLD_ZONE, 0), .carried = 42, .puts = "b42"},
    {"a room of 3 bytes in 65 is in the zone", BLANK_65, SIX(WRITE, 0, 42), AT(0), .sent = 42, .after = AT(1),
     .told = RESIDUE(TOLD_ZONE, 0), .carried = 42, .puts = "b42"},
    {"FIXED WRITE of three", BLANK, SIX(WRITE, FIXED, 3), SET(10, 0), .sent = 31, .after = SET(10, 3), .carried = 30,
     .puts = "b10 b10 b10"},
    {"FIXED WRITE of four, of which three fit", BLANK, SIX(WRITE, FIXED, 4), SET(10, 0), .sent = 40,
     .after = SET(10, 3), .told = RESIDUE(TOLD_OVERFLOW, 1), .carried = 30, .puts = "b10 b10 b10"},
    {"FIXED WRITE that ends in the zone", BLANK, SIX(WRITE, FIXED, 3), SET(12, 0), .sent = 36, .after = SET(12, 3),
     .told = RESIDUE(TOLD_ZONE, 0), .carried = 36, .puts = "b12 b12 b12"},
    {"FIXED WRITE amid objects, of which two fit", MIXED, SIX(WRITE, FIXED, 5), SET(30, 2), .sent = 150,
     .after = SET(30, 4), .told = RESIDUE(TOLD_OVERFLOW, 3), .carried = 60, .puts = "b30 b30"},
    {"WRITE of the largest block", BIG, SIX(WRITE, 0, LARGEST_BLOCK), SET(0, 0), .sent = LARGEST_BLOCK,
     .after = SET(0, 1), .carried = LARGEST_BLOCK, .puts = "B"},
    {"WRITE of the largest block into the zone", BIG, SIX(WRITE, 0, LARGEST_BLOCK), MOUNTED(1), .sent = LARGEST_BLOCK,
     .after = MOUNTED(2), .told = RESIDUE(TOLD_ZONE, 0), .carried = LARGEST_BLOCK, .puts = "B"},
    {"WRITE of a block of 65,536", FORMER, SIX(WRITE, 0, FORMER_LARGEST), AT(0), .sent = FORMER_LARGEST,
     .after = AT(1), .carried = FORMER_LARGEST, .puts = "b65536"},
    {"WRITE of a block of 65,536 into the zone", FORMER, SIX(WRITE, 0, FORMER_LARGEST), AT(1), .sent = FORMER_LARGEST,
     .after = AT(2), .told = RESIDUE(TOLD_ZONE, 0), .carried = FORMER_LARGEST, .puts = "b65536"},
    {"WRITE to partition 1", E, SIX(WRITE, 0, 3), TWO(1, 1), .p1 = TEN, .sent = 3, .after = TWO(1, 2), .carried = 3,
     .puts = "b3"},
    {"WRITE FILEMARKS 0 cuts nothing", E, SIX(WRITE_FILEMARKS, 0, 0), AT(0), .after = AT(0)},
    {"WRITE FILEMARKS 0 in the zone", FULL, SIX(WRITE_FILEMARKS, 0, 0), AT(1), .after = AT(1)},
    {"a filemark over a block drops all behind", E, SIX(WRITE_FILEMARKS, 0, 1), AT(0), .after = AT(1), .puts = "f"},
    {"twelve filemarks fill a blank", BLANK, SIX(WRITE_FILEMARKS, 0, 12), AT(0), .after = AT(12),
     .told = RESIDUE(TOLD_ZONE, 0), .puts = "f12"},
    {"of FFFFFFh filemarks twelve are put", BLANK, SIX(WRITE_FILEMARKS, 0, COUNT_MOST), AT(0), .after = AT(12),
     .told = RESIDUE(TOLD_OVERFLOW, 0xfffff3), .puts = "f12"},
    {"filemarks on partition 1", E, SIX(WRITE_FILEMARKS, 0, 2), TWO(1, 6), .p1 = MIXED, .after = TWO(1, 8),
     .puts = "f2"},
};

/* ---- SPACE and LOCATE */

static const struct edge moving[] = {
    {"SPACE blocks 0", E, SIX(SPACE, BLOCKS, 0), AT(1), .after = AT(1)},
    {"SPACE filemarks 0", E, SIX(SPACE, FILEMARKS, 0), AT(0), .after = AT(0)},
    {"SPACE blocks 0 at the end, in the zone", FULL, SIX(SPACE, BLOCKS, 0), AT(1), .after = AT(1)},
    {"SPACE blocks 1", E, SIX(SPACE, BLOCKS, 1), AT(0), .after = AT(1), .crossed = 1},
    {"SPACE blocks 1 at a filemark", E, SIX(SPACE, BLOCKS, 1), AT(1), .after = AT(2), .crossed = 1,
     .told = RESIDUE(TOLD_FILEMARK, 1)},
    {"SPACE blocks 1 at end of data", E, SIX(SPACE, BLOCKS, 1), AT(2), .after = AT(2),
     .told = RESIDUE(TOLD_END_OF_DATA, 1)},
    {"SPACE at end of data in the zone tells EOM", FULL, SIX(SPACE, BLOCKS, 1), AT(1), .after = AT(1),
     .told = RESIDUE(TOLD_END_IN_ZONE, 1)},
    {"SPACE blocks 2 to end of data", MIXED, SIX(SPACE, BLOCKS, 2), AT(6), .after = AT(7), .crossed = 1,
     .told = RESIDUE(TOLD_END_OF_DATA, 1)},
    {"SPACE blocks by the most there is", E, SIX(SPACE, BLOCKS, COUNT_SIGN - 1), AT(0), .after = AT(2), .crossed = 2,
     .told = RESIDUE(TOLD_FILEMARK, 0x7ffffe)},
    {"SPACE blocks -3", MIXED, SIX(SPACE, BLOCKS, -3), AT(5), .after = AT(2), .crossed = 3},
    {"SPACE blocks -1 at the beginning", E, SIX(SPACE, BLOCKS, -1), AT(0), .after = AT(0),
     .told = RESIDUE(TOLD_BEGINNING, 0xffffffff)},
    {"SPACE blocks -2^23 at a filemark", E, SIX(SPACE, BLOCKS, COUNT_SIGN), AT(2), .after = AT(1), .crossed = 1,
     .told = RESIDUE(TOLD_FILEMARK, 0xff800000)},
    {"SPACE blocks -2^23 to the beginning", E, SIX(SPACE, BLOCKS, COUNT_SIGN), AT(1), .after = AT(0), .crossed = 1,
     .told = RESIDUE(TOLD_BEGINNING, 0xff800001)},
    {"SPACE filemarks -2^23", E, SIX(SPACE, FILEMARKS, COUNT_SIGN), AT(2), .after = AT(0), .crossed = 2,
     .told = RESIDUE(TOLD_BEGINNING, 0xff800001)},
    {"SPACE filemarks 1", E, SIX(SPACE, FILEMARKS, 1), AT(0), .after = AT(2), .crossed = 2},
    {"SPACE filemarks 2", MIXED, SIX(SPACE, FILEMARKS, 2), AT(0), .after = AT(6), .crossed = 6},
    {"SPACE filemarks 2 where one is left", E, SIX(SPACE, FILEMARKS, 2), AT(0), .after = AT(2), .crossed = 2,
     .told = RESIDUE(TOLD_END_OF_DATA, 1)},
    {"SPACE filemarks -1 where none is left", E, SIX(SPACE, FILEMARKS, -1), AT(1), .after = AT(0), .crossed = 1,
     .told = RESIDUE(TOLD_BEGINNING, 0xffffffff)},
    {"SPACE to end of data, its count ignored", E, SIX(SPACE, TO_END_OF_DATA, -5), AT(0), .after = AT(2), .crossed = 2},
    {"SPACE to end of data, there already", E, SIX(SPACE, TO_END_OF_DATA, 0), AT(2), .after = AT(2)},
    {"SPACE to end of data, in the zone", FULL, SIX(SPACE, TO_END_OF_DATA, 5), AT(0), .after = AT(1), .crossed = 1},
    {"SPACE to end of data of partition 1", E, SIX(SPACE, TO_END_OF_DATA, 1), TWO(1, 1), .p1 = MIXED,
     .after = TWO(1, 7), .crossed = 6},
    {"LOCATE to the other partition", E, LOCATE(CP, 4, 1), TWO(0, 1), .p1 = MIXED, .after = TWO(1, 4)},
    {"LOCATE back to partition 0", E, LOCATE(CP, 2, 0), TWO(1, 7), .p1 = MIXED, .after = TWO(0, 2)},
    {"LOCATE to the same partition", E, LOCATE(CP, 6, 1), TWO(1, 0), .p1 = MIXED, .after = TWO(1, 6)},
    {"LOCATE above N of the other partition", E, LOCATE(CP, 8, 1), TWO(0, 1), .p1 = MIXED, .after = TWO(1, 7),
     .told = PLAIN(TOLD_END_OF_DATA)},
    {"LOCATE above N of the target alone", E, LOCATE(CP, 5, 0), TWO(1, 7), .p1 = MIXED, .after = TWO(0, 2),
     .told = PLAIN(TOLD_END_OF_DATA)},
    {"LOCATE without CP ignores the partition", E, LOCATE(0, 0, 255), AT(2), .after = AT(0)},
    {"LOCATE without CP stays on partition 1", E, LOCATE(0, 7, 0), TWO(1, 0), .p1 = MIXED, .after = TWO(1, 7)},
    {"LOCATE with IMMED", E, LOCATE(IMMED, 1, 0), AT(2), .after = AT(1)},
    {"LOCATE to FFFFFFFFh", E, LOCATE(0, 0xffffffff, 0), AT(0), .after = AT(2),
     .told = PLAIN(TOLD_END_OF_DATA)},
    {"LOCATE to N, in the zone", FULL, LOCATE(0, 1, 0), AT(0), .after = AT(1)},
    {"LOCATE above N, in the zone, tells EOM", FULL, LOCATE(0, 2, 0), AT(0), .after = AT(1),
     .told = PLAIN(TOLD_END_IN_ZONE)},
    {"REWIND on partition 1", E, SIX(REWIND, 0, 0), TWO(1, 4), .p1 = MIXED, .after = TWO(1, 0)},
};

/* ---- READ POSITION: its bytes but for those named are 0 */

static const struct edge positions[] = {
    {"short, at the beginning", E, READ_POSITION(FORM_SHORT), AT(0), .room = 36, .after = AT(0),
     .data = {SHORT_BYTES, {0x80}}},
    {"short, behind a filemark", E, READ_POSITION(FORM_SHORT), AT(2), .room = 36, .after = AT(2),
     .data = {SHORT_BYTES, {[7] = 2, [11] = 2}}},
    {"short, in the zone", FULL, READ_POSITION(FORM_SHORT), AT(1), .room = SHORT_BYTES, .after = AT(1),
     .data = {SHORT_BYTES, {[0] = 0x40, [7] = 1, [11] = 1}}},
    {"short, on partition 1", E, READ_POSITION(FORM_SHORT), TWO(1, 6), .p1 = MIXED, .room = 36, .after = TWO(1, 6),
     .data = {SHORT_BYTES, {[1] = 1, [7] = 6, [11] = 6}}},
    {"long, at the beginning", BLANK, READ_POSITION(FORM_LONG), AT(0), .room = 36, .after = AT(0),
     .data = {LONG_BYTES, {0x80}}},
    {"long, before the filemark", E, READ_POSITION(FORM_LONG), AT(1), .room = 36, .after = AT(1),
     .data = {LONG_BYTES, {[15] = 1, [23] = 0}}},
    {"long, behind the filemark", E, READ_POSITION(FORM_LONG), AT(2), .room = 36, .after = AT(2),
     .data = {LONG_BYTES, {[15] = 2, [23] = 1}}},
    {"long, in the zone", FULL, READ_POSITION(FORM_LONG), AT(1), .room = LONG_BYTES, .after = AT(1),
     .data = {LONG_BYTES, {[0] = 0x40, [15] = 1}}},
    {"long, on partition 1", E, READ_POSITION(FORM_LONG), TWO(1, 6), .p1 = MIXED, .room = 36, .after = TWO(1, 6),
     .data = {LONG_BYTES, {[7] = 1, [15] = 6, [23] = 2}}},
};

/* ---- ERASE */

static const struct edge erasing[] = {
    {"ERASE of all", E, SIX(ERASE, 0, 0), AT(0), .after = AT(0), .erased = CUT},
    {"ERASE LONG of all zeroes the entries too", E, SIX(ERASE, LONG, 0), AT(0), .after = AT(0),
     .erased = CUT_AND_ZEROED},
    {"ERASE amid objects", MIXED, SIX(ERASE, 0, 0), AT(4), .after = AT(4), .erased = CUT},
    {"ERASE LONG amid objects", MIXED, SIX(ERASE, LONG, 0), AT(4), .after = AT(4), .erased = CUT_AND_ZEROED},
    {"ERASE LONG amid objects, with IMMED", MIXED, SIX(ERASE, LONG | ERASE_IMMED, 0), AT(1), .after = AT(1),
     .erased = CUT_AND_ZEROED},
    {"ERASE at end of data", MIXED, SIX(ERASE, 0, 0), AT(7), .after = AT(7)},
    {"ERASE LONG at end of data", MIXED, SIX(ERASE, LONG, 0), AT(7), .after = AT(7), .erased = CUT_AND_ZEROED},
    {"ERASE LONG where nothing is free", FULL, SIX(ERASE, LONG, 0), AT(1), .after = AT(1)},
    {"ERASE LONG of a large partition", BIG, SIX(ERASE, LONG, 0), MOUNTED(0), .after = MOUNTED(0),
     .erased = CUT_AND_ZEROED},
    {"ERASE LONG of one of 131,136 bytes", FORMER, SIX(ERASE, LONG, 0), AT(0), .after = AT(0),
     .erased = CUT_AND_ZEROED},
    {"ERASE of partition 1", E, SIX(ERASE, LONG, 0), TWO(1, 2), .p1 = MIXED, .after = TWO(1, 2),
     .erased = CUT_AND_ZEROED},
};

/* ---- MODE SENSE, MODE SELECT and READ BLOCK LIMITS */

#define LIST(...) .list = BYTES(__VA_ARGS__)
#define WRONG_LIST .after = EMPTY(9), .told = PLAIN(TOLD_LIST)
#define WRONG_LENGTH .sent = 255, .after = EMPTY(9), .told = PLAIN(TOLD_LIST_LENGTH)
static const struct edge modes[] = {
    {"MODE SENSE 12", E, PAGE(0, PAGE_NONE, MODE_BYTES), SET(3, 1), .room = 14, .after = SET(3, 1),
     .data = BYTES(0x0b, 0, 0, 8, 0, 0, 0, 0, 0, 0, 0, 3)},
    {"MODE SENSE 255 of a protected partition", GUARDED, PAGE(0, PAGE_ALL, 255), SET(LARGEST_BLOCK, 1),
     .room = MODE_BYTES, .after = SET(LARGEST_BLOCK, 1), .data = BYTES(0x0b, 0, 0x80, 8, 0, 0, 0, 0, 0, 0x10, 0, 0)},
    {"MODE SENSE 255 of a protected partition, 65,536", GUARDED, PAGE(0, PAGE_ALL, 255), SET(FORMER_LARGEST, 1),
     .room = MODE_BYTES, .after = SET(FORMER_LARGEST, 1), .data = BYTES(0x0b, 0, 0x80, 8, 0, 0, 0, 0, 0, 1, 0, 0)},
    {"MODE SENSE 9", E, PAGE(0, PAGE_ALL, 9), SET(3, 1), .room = 9, .after = SET(3, 1),
     .data = BYTES(0x0b, 0, 0, 8, 0, 0, 0, 0, 0)},
    {"MODE SENSE 0", E, PAGE(0, PAGE_NONE, 0), SET(3, 1), .after = SET(3, 1)},
    {"MODE SENSE with DBD", GUARDED, PAGE(DBD, PAGE_ALL, 9), SET(3, 0), .room = MODE_HEADER, .after = SET(3, 0),
     .data = BYTES(3, 0, 0x80, 0)},
    {"MODE SENSE 3 with DBD", E, PAGE(DBD, PAGE_NONE, 3), SET(3, 0), .room = MODE_HEADER, .after = SET(3, 0),
     .data = BYTES(3, 0, 0)},
    {"MODE SENSE with nothing loaded", GUARDED, PAGE(DBD, PAGE_NONE, MODE_HEADER), EMPTY(9), .room = 9,
     .after = EMPTY(9), .data = BYTES(3, 0, 0, 0)},
    {"MODE SENSE shows partition 1 protected", E, PAGE(DBD, PAGE_NONE, MODE_HEADER), TWO(1, 0), .p1 = GUARDED,
     .room = 9, .after = TWO(1, 0), .data = BYTES(3, 0, 0x80, 0)},
    {"MODE SENSE shows the current partition", E, PAGE(DBD, PAGE_NONE, MODE_HEADER), TWO(0, 0), .p1 = GUARDED,
     .room = 9, .after = TWO(0, 0), .data = BYTES(3, 0, 0, 0)},
    {"READ BLOCK LIMITS with nothing loaded", NONE, SIX(READ_BLOCK_LIMITS, 0, 0), EMPTY(9), .room = 8,
     .after = EMPTY(9), .data = BYTES(0, 0x10, 0, 0, 0, 1)},
    {"list of 0", NONE, SIX(MODE_SELECT, PF, 0), EMPTY(9), .sent = MODE_BYTES, .after = EMPTY(9)},
    {"list of 4, its first byte ignored", NONE, SIX(MODE_SELECT, PF, MODE_HEADER), EMPTY(9), LIST(9, 0, 0, 0),
     .after = EMPTY(9), .carried = MODE_HEADER},
    {"list of 12, two bytes ignored", NONE, SIX(MODE_SELECT, PF, MODE_BYTES), EMPTY(9),
     LIST(9, 0, 0, 8, 0, 0, 0, 0, 9, 0, 0, 3), .after = EMPTY(3), .carried = MODE_BYTES},
    {"list of 12 of 14 bytes sent", NONE, SIX(MODE_SELECT, PF, MODE_BYTES), EMPTY(9),
     LIST(0, 0, 0, 8, 0, 0, 0, 0, 0, 0x10, 0, 0, 9, 9), .after = EMPTY(LARGEST_BLOCK), .carried = MODE_BYTES},
    {"list of 12 of 14 bytes sent, 65,536", NONE, SIX(MODE_SELECT, PF, MODE_BYTES), EMPTY(9),
     LIST(0, 0, 0, 8, 0, 0, 0, 0, 0, 1, 0, 0, 9, 9), .after = EMPTY(FORMER_LARGEST), .carried = MODE_BYTES},
    {"list that makes blocks variable", GUARDED, SIX(MODE_SELECT, PF, MODE_BYTES), SET(9, 1),
     LIST(0, 0, 0, 8, 0, 0, 0, 0, 0, 0, 0, 0), .after = SET(0, 1), .carried = MODE_BYTES},
    {"list with block length 1,048,577", NONE, SIX(MODE_SELECT, PF, MODE_BYTES), EMPTY(9),
     LIST(0, 0, 0, 8, 0, 0, 0, 0, 0, 0x10, 0, 1), WRONG_LIST},
    {"list with block length 65,537", NONE, SIX(MODE_SELECT, PF, MODE_BYTES), EMPTY(9),
     LIST(0, 0, 0, 8, 0, 0, 0, 0, 0, 1, 0, 1), .after = EMPTY(FORMER_LARGEST + 1), .carried = MODE_BYTES},
    {"list of 4 that tells of a descriptor", NONE, SIX(MODE_SELECT, PF, MODE_HEADER), EMPTY(9), LIST(0, 0, 0, 8),
     WRONG_LIST},
    {"list of 4 with byte 1", NONE, SIX(MODE_SELECT, PF, MODE_HEADER), EMPTY(9), LIST(0, 1, 0, 0), WRONG_LIST},
    {"list of 4 with byte 2", NONE, SIX(MODE_SELECT, PF, MODE_HEADER), EMPTY(9), LIST(0, 0, 0x10, 0), WRONG_LIST},
    {"list of 12 that tells of no descriptor", NONE, SIX(MODE_SELECT, PF, MODE_BYTES), EMPTY(9),
     LIST(0, 0, 0, 0, 0, 0, 0, 0, 0, 0, 0, 3), WRONG_LIST},
    {"list of 12 with byte 2", NONE, SIX(MODE_SELECT, PF, MODE_BYTES), EMPTY(9),
     LIST(0, 0, 0x80, 8, 0, 0, 0, 0, 0, 0, 0, 3), WRONG_LIST},
    {"list with a density", NONE, SIX(MODE_SELECT, PF, MODE_BYTES), EMPTY(9),
     LIST(0, 0, 0, 8, 1, 0, 0, 0, 0, 0, 0, 3), WRONG_LIST},
    {"list with a number of blocks", NONE, SIX(MODE_SELECT, PF, MODE_BYTES), EMPTY(9),
     LIST(0, 0, 0, 8, 0, 0, 0, 1, 0, 0, 0, 3), WRONG_LIST},
    {"list length 1", NONE, SIX(MODE_SELECT, PF, 1), EMPTY(9), WRONG_LENGTH},
    {"list length 8", NONE, SIX(MODE_SELECT, PF, 8), EMPTY(9), WRONG_LENGTH},
    {"list length 13", NONE, SIX(MODE_SELECT, PF, 13), EMPTY(9), WRONG_LENGTH},
    {"list length 8 before number 2", NONE, SIX(MODE_SELECT, PF, 8), EMPTY(9), .after = EMPTY(9),
     .told = PLAIN(TOLD_LIST_LENGTH)},
};

/* ---- LOAD UNLOAD */

static const struct edge loading[] = {
    {"unload keeps the block length", E, SIX(LOAD_UNLOAD, 0, 0), SET(9, 2), .after = EMPTY(9)},
    {"unload of two partitions", E, SIX(LOAD_UNLOAD, IMMED, 0), TWO(1, 4), .p1 = MIXED, .after = UNLOADED},
    {"LOAD goes to partition 0", E, SIX(LOAD_UNLOAD, 0, LOAD), TWO(1, 4), .p1 = MIXED, .after = TWO(0, 0)},
    {"LOAD keeps the block length", E, SIX(LOAD_UNLOAD, IMMED, LOAD), SET(9, 2), .after = SET(9, 0)},
    {"LOAD with another bit", E, SIX(LOAD_UNLOAD, 0, 3), SET(9, 2), .after = SET(9, 2), .told = PLAIN(TOLD_FIELD)},
};

static void data_and_movement(void)
{
    run(reading, COUNT(reading));
    run(writing, COUNT(writing));
    run(moving, COUNT(moving));
    run(positions, COUNT(positions));
    run(erasing, COUNT(erasing));
    run(modes, COUNT(modes));
    run(loading, COUNT(loading));
}

#endif
