/* crossed.h: cases of how many objects a SPACE crossed, as Q-10 of document 02 adds it: "filemarks included, as a
 * fourth number of the answer". */
#ifndef EDGES_CROSSED_H
#define EDGES_CROSSED_H

#include "long.h"
#include "order.h"

/* The same by SPACE and by SPACE (16). */
#define BOTH(what, cartridge, code, count, start, ...)                                 \
    {what, cartridge, SIX(SPACE, code, count), start, __VA_ARGS__},                    \
    {what ", by SPACE (16)", cartridge, SPACE_16(code, count), start, __VA_ARGS__}

/* PAIR is two blocks and a filemark, PARTED a filemark between two blocks, MARKS three filemarks; FILES has filemarks
 * at 2 and 4, MIXED at 1 and 5. */

/* ---- over blocks: "a filemark ... is crossed, uncounted", so it is one more than the residue says */

static const struct edge crossed_blocks[] = {
    BOTH("blocks 5, and the filemark that ends them", PAIR, BLOCKS, 5, AT(0), .after = AT(3), .crossed = 3,
         .told = RESIDUE(TOLD_FILEMARK, 3)),
    BOTH("blocks 3, and the filemark that ends them", PAIR, BLOCKS, 3, AT(0), .after = AT(3), .crossed = 3,
         .told = RESIDUE(TOLD_FILEMARK, 1)),
    BOTH("blocks 2, before a filemark", PAIR, BLOCKS, 2, AT(0), .after = AT(2), .crossed = 2),
    BOTH("blocks 1, before a block", PAIR, BLOCKS, 1, AT(0), .after = AT(1), .crossed = 1),
    BOTH("blocks 1, before a filemark", PAIR, BLOCKS, 1, AT(1), .after = AT(2), .crossed = 1),
    BOTH("blocks 1, and none but a filemark", PAIR, BLOCKS, 1, AT(2), .after = AT(3), .crossed = 1,
         .told = RESIDUE(TOLD_FILEMARK, 1)),
    BOTH("blocks 9, and none but a filemark", MARKS, BLOCKS, 9, AT(0), .after = AT(1), .crossed = 1,
         .told = RESIDUE(TOLD_FILEMARK, 9)),
    BOTH("blocks 5 at end of data", PAIR, BLOCKS, 5, AT(3), .after = AT(3), .told = RESIDUE(TOLD_END_OF_DATA, 5)),
    BOTH("blocks 5 to end of data", PARTED, BLOCKS, 5, AT(2), .after = AT(3), .crossed = 1,
         .told = RESIDUE(TOLD_END_OF_DATA, 4)),
    BOTH("blocks 5 of a blank", BLANK, BLOCKS, 5, AT(0), .after = AT(0), .told = RESIDUE(TOLD_END_OF_DATA, 5)),
    BOTH("blocks 2 to the zone", LEFT_2, BLOCKS, 2, AT(0), .after = AT(1), .crossed = 1,
         .told = RESIDUE(TOLD_END_IN_ZONE, 1)),
    BOTH("blocks 2, which are all", FORMER_BEFORE, BLOCKS, 2, AT(0), .after = AT(2), .crossed = 2),
    BOTH("blocks 3 amid objects", MIXED, BLOCKS, 3, AT(2), .after = AT(5), .crossed = 3),
    BOTH("blocks 4 amid objects", MIXED, BLOCKS, 4, AT(2), .after = AT(6), .crossed = 4,
         .told = RESIDUE(TOLD_FILEMARK, 1)),
    BOTH("blocks -5, and the filemark that ends them", PARTED, BLOCKS, -5, AT(3), .after = AT(1), .crossed = 2,
         .told = RESIDUE(TOLD_FILEMARK, 0xfffffffc)),
    BOTH("blocks -1, behind a filemark", PARTED, BLOCKS, -1, AT(3), .after = AT(2), .crossed = 1),
    BOTH("blocks -1, and none but a filemark", PARTED, BLOCKS, -1, AT(2), .after = AT(1), .crossed = 1,
         .told = RESIDUE(TOLD_FILEMARK, 0xffffffff)),
    BOTH("blocks -9, and none but a filemark", MARKS, BLOCKS, -9, AT(3), .after = AT(2), .crossed = 1,
         .told = RESIDUE(TOLD_FILEMARK, 0xfffffff7)),
    BOTH("blocks -4 amid objects", MIXED, BLOCKS, -4, AT(5), .after = AT(1), .crossed = 4,
         .told = RESIDUE(TOLD_FILEMARK, 0xffffffff)),
    BOTH("blocks -2, which are all before", PAIR, BLOCKS, -2, AT(2), .after = AT(0), .crossed = 2),
    BOTH("blocks -5 to the beginning", PAIR, BLOCKS, -5, AT(2), .after = AT(0), .crossed = 2,
         .told = RESIDUE(TOLD_BEGINNING, 0xfffffffd)),
    BOTH("blocks -5 at the beginning", PAIR, BLOCKS, -5, AT(0), .after = AT(0),
         .told = RESIDUE(TOLD_BEGINNING, 0xfffffffb)),
    BOTH("blocks -5 of a blank", BLANK, BLOCKS, -5, AT(0), .after = AT(0),
         .told = RESIDUE(TOLD_BEGINNING, 0xfffffffb)),
};

/* ---- over filemarks: "blocks are crossed, uncounted" */

static const struct edge crossed_filemarks[] = {
    BOTH("filemarks 1 behind two blocks", PAIR, FILEMARKS, 1, AT(0), .after = AT(3), .crossed = 3),
    BOTH("filemarks 1 behind a block", PAIR, FILEMARKS, 1, AT(1), .after = AT(3), .crossed = 2),
    BOTH("filemarks 1 behind no block", PAIR, FILEMARKS, 1, AT(2), .after = AT(3), .crossed = 1),
    BOTH("filemarks 2 of one", PAIR, FILEMARKS, 2, AT(0), .after = AT(3), .crossed = 3,
         .told = RESIDUE(TOLD_END_OF_DATA, 1)),
    BOTH("filemarks 1 of none, over a block", PARTED, FILEMARKS, 1, AT(2), .after = AT(3), .crossed = 1,
         .told = RESIDUE(TOLD_END_OF_DATA, 1)),
    BOTH("filemarks 1 at end of data", PAIR, FILEMARKS, 1, AT(3), .after = AT(3),
         .told = RESIDUE(TOLD_END_OF_DATA, 1)),
    BOTH("filemarks 1 of none, to the zone", LEFT_2, FILEMARKS, 1, AT(0), .after = AT(1), .crossed = 1,
         .told = RESIDUE(TOLD_END_IN_ZONE, 1)),
    BOTH("filemarks 1 of two", FILES, FILEMARKS, 1, AT(0), .after = AT(3), .crossed = 3),
    BOTH("filemarks 2, blocks between", FILES, FILEMARKS, 2, AT(0), .after = AT(5), .crossed = 5),
    BOTH("filemarks 3 of two, blocks between", FILES, FILEMARKS, 3, AT(0), .after = AT(5), .crossed = 5,
         .told = RESIDUE(TOLD_END_OF_DATA, 1)),
    BOTH("filemarks 3, and no block", MARKS, FILEMARKS, 3, AT(0), .after = AT(3), .crossed = 3),
    BOTH("filemarks 9 of three", MARKS, FILEMARKS, 9, AT(0), .after = AT(3), .crossed = 3,
         .told = RESIDUE(TOLD_END_OF_DATA, 6)),
    BOTH("filemarks -1 before a block", PARTED, FILEMARKS, -1, AT(3), .after = AT(1), .crossed = 2),
    BOTH("filemarks -1 before three blocks", MIXED, FILEMARKS, -1, AT(5), .after = AT(1), .crossed = 4),
    BOTH("filemarks -2, blocks between", MIXED, FILEMARKS, -2, AT(7), .after = AT(1), .crossed = 6),
    BOTH("filemarks -3 of two, blocks between", MIXED, FILEMARKS, -3, AT(7), .after = AT(0), .crossed = 7,
         .told = RESIDUE(TOLD_BEGINNING, 0xffffffff)),
    BOTH("filemarks -1 of none, over two blocks", PAIR, FILEMARKS, -1, AT(2), .after = AT(0), .crossed = 2,
         .told = RESIDUE(TOLD_BEGINNING, 0xffffffff)),
    BOTH("filemarks -1 at the beginning", PAIR, FILEMARKS, -1, AT(0), .after = AT(0),
         .told = RESIDUE(TOLD_BEGINNING, 0xffffffff)),
    BOTH("filemarks -2, and no block", MARKS, FILEMARKS, -2, AT(3), .after = AT(1), .crossed = 2),
    BOTH("filemarks 1 of a blank", BLANK, FILEMARKS, 1, AT(0), .after = AT(0), .told = RESIDUE(TOLD_END_OF_DATA, 1)),
};

/* ---- "0 for a zero count of blocks or filemarks", and to end of data, where the count says nothing */

static const struct edge crossed_none[] = {
    BOTH("blocks 0 at 0", PAIR, BLOCKS, 0, AT(0), .after = AT(0)),
    BOTH("blocks 0 between blocks", PAIR, BLOCKS, 0, AT(1), .after = AT(1)),
    BOTH("blocks 0 at a filemark", PAIR, BLOCKS, 0, AT(2), .after = AT(2)),
    BOTH("blocks 0 at N", PAIR, BLOCKS, 0, AT(3), .after = AT(3)),
    BOTH("blocks 0 of a blank", BLANK, BLOCKS, 0, AT(0), .after = AT(0)),
    BOTH("blocks 0 at N in the zone", LEFT_2, BLOCKS, 0, AT(1), .after = AT(1)),
    BOTH("filemarks 0 at 0", PAIR, FILEMARKS, 0, AT(0), .after = AT(0)),
    BOTH("filemarks 0 between blocks", PAIR, FILEMARKS, 0, AT(1), .after = AT(1)),
    BOTH("filemarks 0 at a filemark", PAIR, FILEMARKS, 0, AT(2), .after = AT(2)),
    BOTH("filemarks 0 at N", PAIR, FILEMARKS, 0, AT(3), .after = AT(3)),
    BOTH("filemarks 0 of a blank", BLANK, FILEMARKS, 0, AT(0), .after = AT(0)),
    BOTH("filemarks 0 at N in the zone", LEFT_2, FILEMARKS, 0, AT(1), .after = AT(1)),
};

static const struct edge crossed_to_end[] = {
    BOTH("to end of data from 0, count 0", PAIR, TO_END_OF_DATA, 0, AT(0), .after = AT(3), .crossed = 3),
    BOTH("to end of data from 0, count 1", PAIR, TO_END_OF_DATA, 1, AT(0), .after = AT(3), .crossed = 3),
    BOTH("to end of data from 0, count -1", PAIR, TO_END_OF_DATA, -1, AT(0), .after = AT(3), .crossed = 3),
    BOTH("to end of data from 0, count 2^23", PAIR, TO_END_OF_DATA, COUNT_SIGN, AT(0), .after = AT(3), .crossed = 3),
    BOTH("to end of data from between blocks, count 0", PAIR, TO_END_OF_DATA, 0, AT(1), .after = AT(3), .crossed = 2),
    BOTH("to end of data from between blocks, count -7", PAIR, TO_END_OF_DATA, -7, AT(1), .after = AT(3), .crossed = 2),
    BOTH("to end of data from a filemark, count 9", PAIR, TO_END_OF_DATA, 9, AT(2), .after = AT(3), .crossed = 1),
    BOTH("to end of data from N, count 0", PAIR, TO_END_OF_DATA, 0, AT(3), .after = AT(3)),
    BOTH("to end of data from N, count 5", PAIR, TO_END_OF_DATA, 5, AT(3), .after = AT(3)),
    BOTH("to end of data from N, count -5", PAIR, TO_END_OF_DATA, -5, AT(3), .after = AT(3)),
    BOTH("to end of data of a blank, count 0", BLANK, TO_END_OF_DATA, 0, AT(0), .after = AT(0)),
    BOTH("to end of data of a blank, count 3", BLANK, TO_END_OF_DATA, 3, AT(0), .after = AT(0)),
    BOTH("to end of data over filemarks and blocks", MIXED, TO_END_OF_DATA, 0, AT(0), .after = AT(7), .crossed = 7),
    BOTH("to end of data over filemarks alone", MARKS, TO_END_OF_DATA, 0, AT(0), .after = AT(3), .crossed = 3),
    BOTH("to end of data in the zone", LEFT_2, TO_END_OF_DATA, 0, AT(0), .after = AT(1), .crossed = 1),
    BOTH("to end of data of a protected one", GUARDED, TO_END_OF_DATA, 0, AT(0), .after = AT(2), .crossed = 2),
    {"to end of data, count 2^63 - 1", FILES, SPACE_16(TO_END_OF_DATA, MOST), AT(1), .after = AT(5), .crossed = 4},
    {"to end of data, count -2^63", FILES, SPACE_16(TO_END_OF_DATA, LEAST), AT(2), .after = AT(5), .crossed = 3},
    {"to end of data, count 2^31", FILES, SPACE_16(TO_END_OF_DATA, POWER_31), AT(3), .after = AT(5), .crossed = 2},
    {"to end of data, count -2^31", FILES, SPACE_16(TO_END_OF_DATA, -POWER_31), AT(4), .after = AT(5), .crossed = 1},
};

/* ---- counts far above N, which it never is */

static const struct edge crossed_far[] = {
    {"blocks 2^23 - 1", PAIR, SIX(SPACE, BLOCKS, COUNT_SIGN - 1), AT(0), .after = AT(3), .crossed = 3,
     .told = RESIDUE(TOLD_FILEMARK, 0x7ffffd)},
    {"blocks -2^23", PARTED, SIX(SPACE, BLOCKS, COUNT_SIGN), AT(3), .after = AT(1), .crossed = 2,
     .told = RESIDUE(TOLD_FILEMARK, 0xff800001)},
    {"filemarks 2^23 - 1", FILES, SIX(SPACE, FILEMARKS, COUNT_SIGN - 1), AT(0), .after = AT(5), .crossed = 5,
     .told = RESIDUE(TOLD_END_OF_DATA, 0x7ffffd)},
    {"filemarks -2^23", MIXED, SIX(SPACE, FILEMARKS, COUNT_SIGN), AT(7), .after = AT(0), .crossed = 7,
     .told = RESIDUE(TOLD_BEGINNING, 0xff800002)},
    {"blocks 2^31", PAIR, SPACE_16(BLOCKS, POWER_31), AT(0), .after = AT(3), .crossed = 3,
     .told = RESIDUE(TOLD_FILEMARK, 0x7ffffffe)},
    {"blocks -2^31", PARTED, SPACE_16(BLOCKS, -POWER_31), AT(3), .after = AT(1), .crossed = 2,
     .told = RESIDUE(TOLD_FILEMARK, 0x80000001)},
    {"filemarks 2^31", FILES, SPACE_16(FILEMARKS, POWER_31), AT(0), .after = AT(5), .crossed = 5,
     .told = RESIDUE(TOLD_END_OF_DATA, 0x7ffffffe)},
    {"filemarks -2^31", MIXED, SPACE_16(FILEMARKS, -POWER_31), AT(7), .after = AT(0), .crossed = 7,
     .told = RESIDUE(TOLD_BEGINNING, 0x80000002)},
    /* The residue is not told, and those crossed are. */
    {"blocks 2^31 + 2", PAIR, SPACE_16(BLOCKS, POWER_31 + 2), AT(0), .after = AT(3), .crossed = 3,
     .told = NO_RESIDUE(TOLD_FILEMARK)},
    {"filemarks -2^31 - 3", MIXED, SPACE_16(FILEMARKS, -POWER_31 - 3), AT(7), .after = AT(0), .crossed = 7,
     .told = NO_RESIDUE(TOLD_BEGINNING)},
    {"filemarks 2^32, which is 0 by its low 32 bits", PAIR, SPACE_16(FILEMARKS, POWER_32), AT(0), .after = AT(3),
     .crossed = 3, .told = NO_RESIDUE(TOLD_END_OF_DATA)},
    {"blocks -2^32, which is 0 by its low 32 bits", PARTED, SPACE_16(BLOCKS, -POWER_32), AT(3), .after = AT(1),
     .crossed = 2, .told = NO_RESIDUE(TOLD_FILEMARK)},
    {"blocks 2^63 - 1", PAIR, SPACE_16(BLOCKS, MOST), AT(0), .after = AT(3), .crossed = 3,
     .told = NO_RESIDUE(TOLD_FILEMARK)},
    {"blocks 2^63 - 1 at end of data", PAIR, SPACE_16(BLOCKS, MOST), AT(3), .after = AT(3),
     .told = NO_RESIDUE(TOLD_END_OF_DATA)},
    {"filemarks 2^63 - 1", FILES, SPACE_16(FILEMARKS, MOST), AT(1), .after = AT(5), .crossed = 4,
     .told = NO_RESIDUE(TOLD_END_OF_DATA)},
    {"blocks -2^63", PARTED, SPACE_16(BLOCKS, LEAST), AT(3), .after = AT(1), .crossed = 2,
     .told = NO_RESIDUE(TOLD_FILEMARK)},
    {"blocks -2^63 to the beginning", PAIR, SPACE_16(BLOCKS, LEAST), AT(2), .after = AT(0), .crossed = 2,
     .told = NO_RESIDUE(TOLD_BEGINNING)},
    {"filemarks -2^63", FILES, SPACE_16(FILEMARKS, LEAST), AT(5), .after = AT(0), .crossed = 5,
     .told = NO_RESIDUE(TOLD_BEGINNING)},
    {"filemarks -2^63 at the beginning", FILES, SPACE_16(FILEMARKS, LEAST), AT(0), .after = AT(0),
     .told = NO_RESIDUE(TOLD_BEGINNING)},
};

/* ---- two partitions */

static const struct edge crossed_of_two[] = {
    BOTH("blocks 5 in partition 0", PAIR, BLOCKS, 5, TWO(0, 0), .p1 = MIXED, .after = TWO(0, 3), .crossed = 3,
         .told = RESIDUE(TOLD_FILEMARK, 3)),
    BOTH("blocks 5 in partition 1", MIXED, BLOCKS, 5, TWO(1, 0), .p1 = PAIR, .after = TWO(1, 3), .crossed = 3,
         .told = RESIDUE(TOLD_FILEMARK, 3)),
    BOTH("filemarks -2 in partition 0", MIXED, FILEMARKS, -2, TWO(0, 7), .p1 = E, .after = TWO(0, 1), .crossed = 6),
    BOTH("filemarks -2 in partition 1", E, FILEMARKS, -2, TWO(1, 7), .p1 = MIXED, .after = TWO(1, 1), .crossed = 6),
    BOTH("to end of data of partition 0", E, TO_END_OF_DATA, 0, TWO(0, 0), .p1 = MIXED, .after = TWO(0, 2),
         .crossed = 2),
    BOTH("to end of data of partition 1", E, TO_END_OF_DATA, 0, TWO(1, 0), .p1 = MIXED, .after = TWO(1, 7),
         .crossed = 7),
    BOTH("to end of data of a blank partition 1", MIXED, TO_END_OF_DATA, 0, TWO(1, 0), .p1 = BLANK,
         .after = TWO(1, 0)),
};

/* ---- a SPACE that is refused or ended by a test, from where it had somewhere to go */

#define SHORT_BY_ONE(code, bytes) {(bytes) - 1, {code, TO_END_OF_DATA}}
static const struct edge crossed_before_the_act[] = {
    BOTH("28h before SPACE", PAIR, BLOCKS, 5, WAITING(ATTENTION_MOUNTED, 0), .after = AT(0),
         .told = PLAIN(TOLD_MOUNTED)),
    BOTH("29h before SPACE", PAIR, FILEMARKS, -1, WAITING(ATTENTION_FRESH, 2), .after = AT(2),
         .told = PLAIN(TOLD_FRESH)),
    BOTH("28h before SPACE to end of data", PAIR, TO_END_OF_DATA, 0, WAITING(ATTENTION_MOUNTED, 1), .after = AT(1),
         .told = PLAIN(TOLD_MOUNTED)),
    BOTH("29h before SPACE, unloaded", NONE, BLOCKS, 1, BARE(ATTENTION_FRESH, EITHER), .after = UNLOADED,
         .told = PLAIN(TOLD_FRESH)),
    BOTH("code 2", PAIR, 2, 1, AT(0), .after = AT(0), .told = FIELD),
    BOTH("code 4", PAIR, 4, 3, AT(1), .after = AT(1), .told = FIELD),
    BOTH("code 15", PAIR, 15, -1, AT(3), .after = AT(3), .told = FIELD),
    BOTH("code 0 with bit 4", PAIR, 0x10, 2, AT(0), .after = AT(0), .told = FIELD),
    {"a control byte", PAIR, {BYTES_6, {SPACE, TO_END_OF_DATA, [5] = 1}}, AT(0), .after = AT(0), .told = FIELD},
    {"a control byte of SPACE (16)", PAIR, {BYTES_16, {SPACE_16, TO_END_OF_DATA, [15] = 1}}, AT(0), .after = AT(0),
     .told = FIELD},
    BOTH("blocks with nothing loaded", PAIR, BLOCKS, 5, EMPTY(9), .after = EMPTY(9), .told = NOT_LOADED),
    BOTH("filemarks with nothing loaded", NONE, FILEMARKS, -1, EMPTY(9), .after = EMPTY(9), .told = NOT_LOADED),
    BOTH("to end of data with nothing loaded", PAIR, TO_END_OF_DATA, 0, EMPTY(9), .after = EMPTY(9),
         .told = NOT_LOADED),
    {"five bytes of SPACE", PAIR, SHORT_BY_ONE(SPACE, BYTES_6), AT(0), .refusal = BY_COMMAND},
    {"fifteen bytes of SPACE (16)", PAIR, SHORT_BY_ONE(SPACE_16, BYTES_16), AT(0), .refusal = BY_COMMAND},
    {"one byte of SPACE", PAIR, {1, {SPACE}}, AT(1), .refusal = BY_COMMAND},
    BOTH("a record of 29 bytes", PAIR, TO_END_OF_DATA, 0, AT(0), .cut = 1, .refusal = BY_DRIVE),
    BOTH("attention 2Ah", PAIR, TO_END_OF_DATA, 0, WAITING(0x2a, 0), .refusal = BY_DRIVE),
    BOTH("from above N", PAIR, BLOCKS, -2, AT(4), .refusal = BY_DRIVE),
    BOTH("on an unsound partition", UNSOUND, FILEMARKS, 1, AT(0), .refusal = BY_DRIVE),
    BOTH("beside an unsound partition", PAIR, TO_END_OF_DATA, 0, TWO(0, 0), .p1 = UNSOUND, .refusal = BY_DRIVE),
    BOTH("beside a partition too many", PAIR, BLOCKS, 5, AT(0), .p1 = E, .refusal = BY_DRIVE),
};

/* ---- "every other call ... answers 0 there", from a position that is not 0 */

static const struct edge crossed_by_no_other[] = {
    {"LOCATE back", MIXED, LOCATE(0, 1, 0), AT(6), .after = AT(1)},
    {"LOCATE on", MIXED, LOCATE(0, 6, 0), AT(2), .after = AT(6)},
    {"LOCATE above N", MIXED, LOCATE(0, 9, 0), AT(2), .after = AT(7), .told = PAST_END},
    {"LOCATE to the other partition", E, LOCATE(CP, 5, 1), TWO(0, 1), .p1 = MIXED, .after = TWO(1, 5)},
    {"LOCATE (16) back", MIXED, LOCATE_16(TO_OBJECT, 1, 0), AT(6), .after = AT(1)},
    {"LOCATE (16) on", MIXED, LOCATE_16(TO_OBJECT, 6, 0), AT(2), .after = AT(6)},
    {"LOCATE (16) to a file", MIXED, LOCATE_16(TO_FILE, 2, 0), AT(2), .after = AT(6)},
    {"LOCATE (16) back to a file", MIXED, LOCATE_16(TO_FILE, 1, 0), AT(7), .after = AT(2)},
    {"LOCATE (16) past the files", MIXED, LOCATE_16(TO_FILE, 3, 0), AT(2), .after = AT(7), .told = PAST_END},
    {"LOCATE (16) to end of data", MIXED, LOCATE_16(TO_END, 0, 0), AT(2), .after = AT(7)},
    {"LOCATE (16) to the other partition", E, LOCATE_16(CP, 5, 1), TWO(0, 1), .p1 = MIXED, .after = TWO(1, 5)},
    {"REWIND", MIXED, SIX(REWIND, 0, 0), AT(5), .after = AT(0)},
    {"READ of a filemark", MIXED, SIX(READ, 0, 5), AT(5), .room = 5, .after = AT(6),
     .told = RESIDUE(TOLD_FILEMARK, 5)},
    {"READ of a block", MIXED, SIX(READ, 0, 5), AT(4), .room = 5, .after = AT(5), .reads = 5},
    {"FIXED READ 3 over two blocks and an odd one", MIXED, SIX(READ, FIXED, 3), SET(3, 2), .room = 9,
     .after = SET(3, 5), .told = RESIDUE(TOLD_LENGTH, 1), .reads = 6},
    {"FIXED READ 2 over a block and a filemark", MIXED, SIX(READ, FIXED, 2), SET(5, 4), .room = 10,
     .after = SET(5, 6), .told = RESIDUE(TOLD_FILEMARK, 1), .reads = 5},
    {"READ at end of data", MIXED, SIX(READ, 0, 5), AT(7), .room = 5, .after = AT(7),
     .told = RESIDUE(TOLD_END_OF_DATA, 5)},
    {"WRITE", E, SIX(WRITE, 0, 3), AT(2), .sent = 3, .after = AT(3), .carried = 3, .puts = "b3"},
    {"FIXED WRITE 2", E, SIX(WRITE, FIXED, 2), SET(10, 2), .sent = 20, .after = SET(10, 4), .carried = 20,
     .puts = "b10 b10"},
    {"WRITE FILEMARKS 3", E, SIX(WRITE_FILEMARKS, 0, 3), AT(2), .after = AT(5), .puts = "f3"},
    {"WRITE FILEMARKS 9, of which eight are put", TEN, SIX(WRITE_FILEMARKS, 0, 9), AT(1), .after = AT(9),
     .told = RESIDUE(TOLD_OVERFLOW, 1), .puts = "f8"},
    {"ERASE", MIXED, SIX(ERASE, 0, 0), AT(4), .after = AT(4), .erased = CUT},
    {"LOAD", MIXED, SIX(LOAD_UNLOAD, 0, LOAD), AT(5), .after = AT(0)},
    {"unload", MIXED, SIX(LOAD_UNLOAD, 0, 0), AT(5), .after = UNLOADED},
    {"REQUEST SENSE", MIXED, SIX(REQUEST_SENSE, 0, SENSE_BYTES), AT(5), .room = SENSE_BYTES, .after = AT(5),
     .data = {SENSE_BYTES, OLD_SENSE}},
    {"READ POSITION", MIXED, READ_POSITION(FORM_SHORT), AT(5), .room = SHORT_BYTES, .after = AT(5),
     .data = {SHORT_BYTES, {[7] = 5, [11] = 5}}},
    {"READ POSITION, long", MIXED, READ_POSITION(FORM_LONG), AT(6), .room = LONG_BYTES, .after = AT(6),
     .data = {LONG_BYTES, {[15] = 6, [23] = 2}}},
    {"TEST UNIT READY", MIXED, SIX(TEST_UNIT_READY, 0, 0), AT(5), .after = AT(5)},
    {"READ BLOCK LIMITS", MIXED, SIX(READ_BLOCK_LIMITS, 0, 0), AT(5), .room = LIMITS_BYTES, .after = AT(5),
     .data = BYTES(0, 0x10, 0, 0, 0, 1)},
    {"a code not served", MIXED, SIX(INQUIRY, 0, 5), AT(5), .after = AT(5), .told = PLAIN(TOLD_NOT_SERVED)},
};

/* ---- a drive's life on E and a blank: nothing of a SPACE is left over for the call behind it */

static const struct edge life_of_spaces[] = {
    {.what = "SPACE under the mount's attention", .command = SIX(SPACE, TO_END_OF_DATA, 0), .after = TWO(0, 0),
     .told = PLAIN(TOLD_MOUNTED)},
    {.what = "SPACE to end of data", .command = SIX(SPACE, TO_END_OF_DATA, 0), .after = TWO(0, 2), .crossed = 2},
    {.what = "TEST UNIT READY behind it", .command = SIX(TEST_UNIT_READY, 0, 0), .after = TWO(0, 2)},
    {.what = "SPACE (16) back at the filemark", .command = SPACE_16(BLOCKS, -5), .after = TWO(0, 1), .crossed = 1,
     .told = RESIDUE(TOLD_FILEMARK, 0xfffffffb)},
    {.what = "its sense", .command = SIX(REQUEST_SENSE, 0, SENSE_BYTES), .after = TWO(0, 1),
     .data = BYTES(0xf0, 0, 0x80, 0xff, 0xff, 0xff, 0xfb, 0x0a, 0, 0, 0, 0, 0, 1, 0, 0, 0, 0)},
    {.what = "SPACE over the filemark", .command = SIX(SPACE, FILEMARKS, 1), .after = TWO(0, 2), .crossed = 1},
    {.what = "READ behind it", .command = SIX(READ, 0, 4), .after = TWO(0, 2), .told = RESIDUE(TOLD_END_OF_DATA, 4)},
    {.what = "SPACE (16) to the beginning", .command = SPACE_16(FILEMARKS, -2), .after = TWO(0, 0), .crossed = 2,
     .told = RESIDUE(TOLD_BEGINNING, 0xffffffff)},
    {.what = "SPACE by a code that is not served", .command = SIX(SPACE, 2, 1), .after = TWO(0, 0), .told = FIELD},
    {.what = "SPACE over the block", .command = SIX(SPACE, BLOCKS, 1), .after = TWO(0, 1), .crossed = 1},
    {.what = "SPACE of none", .command = SIX(SPACE, BLOCKS, 0), .after = TWO(0, 1)},
    {.what = "SPACE back over the block", .command = SIX(SPACE, BLOCKS, -1), .after = TWO(0, 0), .crossed = 1},
    {.what = "SPACE (16) of none", .command = SPACE_16(FILEMARKS, 0), .after = TWO(0, 0)},
    {.what = "SPACE (16) to end of data", .command = SPACE_16(TO_END_OF_DATA, 0), .after = TWO(0, 2), .crossed = 2},
    {.what = "LOCATE to the blank", .command = LOCATE(CP, 0, 1), .after = TWO(1, 0)},
    {.what = "SPACE to its end of data", .command = SIX(SPACE, TO_END_OF_DATA, 7), .after = TWO(1, 0)},
    {.what = "LOCATE (16) back", .command = LOCATE_16(CP | TO_END, 0, 0), .after = TWO(0, 2)},
    {.what = "SPACE back over the filemark", .command = SIX(SPACE, FILEMARKS, -1), .after = TWO(0, 1), .crossed = 1},
    {.what = "unload", .command = SIX(LOAD_UNLOAD, 0, 0), .after = UNLOADED},
    {.what = "SPACE with nothing loaded", .command = SIX(SPACE, BLOCKS, 1), .after = UNLOADED, .told = NOT_LOADED},
};

/* Each right after a SPACE that crossed something: a number left over from it would be told. */
static void run_behind_a_space(const struct edge *edges, size_t count)
{
    for (const struct edge *edge = edges; edge < edges + count; edge++)
        for (size_t i = 0; i < lengths_of(&edge->before); i++) {
            struct edge space = edge_with(crossed_to_end[0], either_length[i]);
            struct edge named = edge_with(*edge, either_length[i]);
            struct call call = call_of(&space);
            hold_to(&call, 0, "the SPACE before");
            free_call(&call);
            run(&named, 1);
        }
}

static void objects_crossed(void)
{
    run(crossed_blocks, COUNT(crossed_blocks));
    run(crossed_filemarks, COUNT(crossed_filemarks));
    run_behind_a_space(crossed_none, COUNT(crossed_none));
    run(crossed_to_end, COUNT(crossed_to_end));
    run(crossed_far, COUNT(crossed_far));
    run(crossed_of_two, COUNT(crossed_of_two));
    run_behind_a_space(crossed_before_the_act, COUNT(crossed_before_the_act));
    run_behind_a_space(crossed_by_no_other, COUNT(crossed_by_no_other));
}

#endif
