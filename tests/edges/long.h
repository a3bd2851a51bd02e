/* long.h: cases of LOCATE (16) and SPACE (16), as document 02 adds them. */
#ifndef EDGES_LONG_H
#define EDGES_LONG_H

#include "drive.h"

/* ---- numbers of eight bytes */

#define POWER_31 (INT64_C(1) << 31)
#define POWER_32 (INT64_C(1) << 32)
#define POWER_63 (UINT64_C(1) << 63)

/* In two's complement all FFh is -1, and the least of all is -2^63. */
#define ALL_BITS UINT64_MAX
#define LEAST INT64_MIN
#define MOST INT64_MAX

/* What is told of a residue that 32 signed bits do not hold: byte 0 is 70h, the information 0, all else as ever. */
#define NO_RESIDUE(number) PLAIN(number)

#define PAST_END PLAIN(TOLD_END_OF_DATA)
#define PAST_END_IN_ZONE PLAIN(TOLD_END_IN_ZONE)

/* ---- LOCATE (16) to an object */

static const struct edge objects_located[] = {
    {"LOCATE (16) to object 0", E, LOCATE_16(TO_OBJECT, 0, 0), AT(2), .after = AT(0)},
    {"LOCATE (16) to an object", E, LOCATE_16(TO_OBJECT, 1, 0), AT(2), .after = AT(1)},
    {"LOCATE (16) to where it is", E, LOCATE_16(TO_OBJECT, 1, 0), AT(1), .after = AT(1)},
    {"LOCATE (16) to N", E, LOCATE_16(TO_OBJECT, 2, 0), AT(0), .after = AT(2)},
    {"LOCATE (16) to N + 1", E, LOCATE_16(TO_OBJECT, 3, 0), AT(0), .after = AT(2), .told = PAST_END},
    {"LOCATE (16) to object 0 of a blank", BLANK, LOCATE_16(TO_OBJECT, 0, 0), AT(0), .after = AT(0)},
    {"LOCATE (16) to object 1 of a blank", BLANK, LOCATE_16(TO_OBJECT, 1, 0), AT(0), .after = AT(0), .told = PAST_END},
    {"LOCATE (16) to N, in the zone", FULL, LOCATE_16(TO_OBJECT, 1, 0), AT(0), .after = AT(1)},
    {"LOCATE (16) above N, in the zone, tells EOM", FULL, LOCATE_16(TO_OBJECT, 2, 0), AT(0), .after = AT(1),
     .told = PAST_END_IN_ZONE},
    {"LOCATE (16) with IMMED", E, LOCATE_16(TO_OBJECT | IMMED, 1, 0), AT(2), .after = AT(1)},
    {"LOCATE (16) with IMMED, above N", E, LOCATE_16(TO_OBJECT | IMMED, 9, 0), AT(0), .after = AT(2), .told = PAST_END},
    /* Identifiers that are N or less by their low bits alone. */
    {"LOCATE (16) to 2^32", E, LOCATE_16(TO_OBJECT, POWER_32, 0), AT(1), .after = AT(2), .told = PAST_END},
    {"LOCATE (16) to 2^32 + 1", E, LOCATE_16(TO_OBJECT, POWER_32 + 1, 0), AT(0), .after = AT(2), .told = PAST_END},
    {"LOCATE (16) to 2^24", E, LOCATE_16(TO_OBJECT, 1 << 24, 0), AT(0), .after = AT(2), .told = PAST_END},
    {"LOCATE (16) to 2^31", E, LOCATE_16(TO_OBJECT, POWER_31, 0), AT(0), .after = AT(2), .told = PAST_END},
    {"LOCATE (16) to FFFFFFFFh", E, LOCATE_16(TO_OBJECT, UINT32_MAX, 0), AT(0), .after = AT(2), .told = PAST_END},
    {"LOCATE (16) to 2^63", E, LOCATE_16(TO_OBJECT, POWER_63, 0), AT(0), .after = AT(2), .told = PAST_END},
    {"LOCATE (16) to 2^63 + 1", E, LOCATE_16(TO_OBJECT, POWER_63 + 1, 0), AT(0), .after = AT(2), .told = PAST_END},
    {"LOCATE (16) to all FFh", E, LOCATE_16(TO_OBJECT, ALL_BITS, 0), AT(0), .after = AT(2), .told = PAST_END},
    {"LOCATE (16) on a protected partition", GUARDED, LOCATE_16(TO_OBJECT, 1, 0), AT(2), .after = AT(1)},
    {"LOCATE (16) above N of a protected one", GUARDED, LOCATE_16(TO_OBJECT, 3, 0), AT(0), .after = AT(2),
     .told = PAST_END},
    {"LOCATE (16) takes and gives nothing", E, LOCATE_16(TO_OBJECT, 1, 0), AT(2), .sent = 5, .room = 7, .after = AT(1)},
};

/* ---- LOCATE (16) to a file: E has its one filemark at 1, MIXED has two, at 1 and 5, FILES two, at 2 and 4 */

static const struct edge files_located[] = {
    {"LOCATE (16) to file 0", E, LOCATE_16(TO_FILE, 0, 0), AT(2), .after = AT(0)},
    {"LOCATE (16) to file 1, which is empty", E, LOCATE_16(TO_FILE, 1, 0), AT(0), .after = AT(2)},
    {"LOCATE (16) to file 2 where there is one filemark", E, LOCATE_16(TO_FILE, 2, 0), AT(0), .after = AT(2),
     .told = PAST_END},
    {"LOCATE (16) to file 0 from the end", MIXED, LOCATE_16(TO_FILE, 0, 0), AT(7), .after = AT(0)},
    {"LOCATE (16) to file 1", MIXED, LOCATE_16(TO_FILE, 1, 0), AT(0), .after = AT(2)},
    {"LOCATE (16) back to file 1 from within it", MIXED, LOCATE_16(TO_FILE, 1, 0), AT(4), .after = AT(2)},
    {"LOCATE (16) back to file 1 from behind it", MIXED, LOCATE_16(TO_FILE, 1, 0), AT(7), .after = AT(2)},
    {"LOCATE (16) to file 1 from its start", MIXED, LOCATE_16(TO_FILE, 1, 0), AT(2), .after = AT(2)},
    {"LOCATE (16) to file 1 from before its filemark", MIXED, LOCATE_16(TO_FILE, 1, 0), AT(1), .after = AT(2)},
    {"LOCATE (16) to the last file", MIXED, LOCATE_16(TO_FILE, 2, 0), AT(3), .after = AT(6)},
    {"LOCATE (16) to the file behind the last", MIXED, LOCATE_16(TO_FILE, 3, 0), AT(0), .after = AT(7),
     .told = PAST_END},
    {"LOCATE (16) to the last file, which is empty", FILES, LOCATE_16(TO_FILE, 2, 0), AT(5), .after = AT(5)},
    {"LOCATE (16) to file 1 of FILES", FILES, LOCATE_16(TO_FILE, 1, 0), AT(5), .after = AT(3)},
    {"LOCATE (16) to the file behind an empty one", FILES, LOCATE_16(TO_FILE, 3, 0), AT(2), .after = AT(5),
     .told = PAST_END},
    {"LOCATE (16) to file 2^32", MIXED, LOCATE_16(TO_FILE, POWER_32, 0), AT(1), .after = AT(7), .told = PAST_END},
    {"LOCATE (16) to file 2^32 + 1", MIXED, LOCATE_16(TO_FILE, POWER_32 + 1, 0), AT(1), .after = AT(7),
     .told = PAST_END},
    {"LOCATE (16) to file 2^63", MIXED, LOCATE_16(TO_FILE, POWER_63, 0), AT(1), .after = AT(7), .told = PAST_END},
    {"LOCATE (16) to file all FFh", MIXED, LOCATE_16(TO_FILE, ALL_BITS, 0), AT(1), .after = AT(7), .told = PAST_END},
    {"LOCATE (16) to file 0 of a blank", BLANK, LOCATE_16(TO_FILE, 0, 0), AT(0), .after = AT(0)},
    {"LOCATE (16) to file 1 of a blank", BLANK, LOCATE_16(TO_FILE, 1, 0), AT(0), .after = AT(0), .told = PAST_END},
    {"LOCATE (16) to file 1 without filemarks, in the zone", FULL, LOCATE_16(TO_FILE, 1, 0), AT(0), .after = AT(1),
     .told = PAST_END_IN_ZONE},
    {"LOCATE (16) to a file with IMMED", MIXED, LOCATE_16(TO_FILE | IMMED, 1, 0), AT(7), .after = AT(2)},
    {"LOCATE (16) to a file of a protected partition", GUARDED, LOCATE_16(TO_FILE, 1, 0), AT(0), .after = AT(2)},
};

/* ---- LOCATE (16) to end of data */

static const struct edge ends_located[] = {
    {"LOCATE (16) to end of data", E, LOCATE_16(TO_END, 0, 0), AT(0), .after = AT(2)},
    {"LOCATE (16) to end of data, all FFh ignored", E, LOCATE_16(TO_END, ALL_BITS, 0), AT(1), .after = AT(2)},
    {"LOCATE (16) to end of data, there already", E, LOCATE_16(TO_END | IMMED, 1, 0), AT(2), .after = AT(2)},
    {"LOCATE (16) to end of data of a blank", BLANK, LOCATE_16(TO_END, 7, 0), AT(0), .after = AT(0)},
    {"LOCATE (16) to end of data, in the zone", FULL, LOCATE_16(TO_END, 0, 0), AT(0), .after = AT(1)},
    {"LOCATE (16) to end of data of a protected partition", GUARDED, LOCATE_16(TO_END, 0, 0), AT(0), .after = AT(2)},
};

/* ---- LOCATE (16) and partitions: byte 3 names one with CP, and byte 8 is the identifier's */

static const struct edge partitions_located[] = {
    {"LOCATE (16) to the other partition", E, LOCATE_16(CP, 4, 1), TWO(0, 1), .p1 = MIXED, .after = TWO(1, 4)},
    {"LOCATE (16) back to partition 0", E, LOCATE_16(CP, 2, 0), TWO(1, 7), .p1 = MIXED, .after = TWO(0, 2)},
    {"LOCATE (16) to the same partition", E, LOCATE_16(CP, 6, 1), TWO(1, 0), .p1 = MIXED, .after = TWO(1, 6)},
    {"LOCATE (16) to N of the other partition", E, LOCATE_16(CP, 7, 1), TWO(0, 1), .p1 = MIXED, .after = TWO(1, 7)},
    {"LOCATE (16) above N of the other partition", E, LOCATE_16(CP, 8, 1), TWO(0, 1), .p1 = MIXED, .after = TWO(1, 7),
     .told = PAST_END},
    {"LOCATE (16) above N of the target alone", E, LOCATE_16(CP, 5, 0), TWO(1, 7), .p1 = MIXED, .after = TWO(0, 2),
     .told = PAST_END},
    {"LOCATE (16) to 2^32 of the other partition", E, LOCATE_16(CP, POWER_32, 1), TWO(0, 1), .p1 = MIXED,
     .after = TWO(1, 7), .told = PAST_END},
    {"LOCATE (16) to a file of the other partition", E, LOCATE_16(CP | TO_FILE, 2, 1), TWO(0, 2), .p1 = MIXED,
     .after = TWO(1, 6)},
    {"LOCATE (16) to a file that only the other one has", E, LOCATE_16(CP | TO_FILE, 2, 0), TWO(1, 7), .p1 = MIXED,
     .after = TWO(0, 2), .told = PAST_END},
    {"LOCATE (16) past the files of the other partition", E, LOCATE_16(CP | TO_FILE, 3, 1), TWO(0, 0), .p1 = MIXED,
     .after = TWO(1, 7), .told = PAST_END},
    {"LOCATE (16) to end of data of the other partition", E, LOCATE_16(CP | TO_END, ALL_BITS, 1), TWO(0, 2),
     .p1 = MIXED, .after = TWO(1, 7)},
    {"LOCATE (16) to the other partition, protected", E, LOCATE_16(CP | TO_FILE, 1, 1), TWO(0, 0), .p1 = GUARDED,
     .after = TWO(1, 2)},
    {"LOCATE (16) to a partition that is not there", E, LOCATE_16(CP, 0, 1), AT(1), .after = AT(1),
     .told = PLAIN(TOLD_FIELD)},
    {"LOCATE (16) to partition 2 of two", E, LOCATE_16(CP, 0, 2), TWO(1, 4), .p1 = MIXED, .after = TWO(1, 4),
     .told = PLAIN(TOLD_FIELD)},
    {"LOCATE (16) to partition 255, above N", E, LOCATE_16(CP, 99, 255), AT(1), .after = AT(1),
     .told = PLAIN(TOLD_FIELD)},
    {"LOCATE (16) to a file of partition 2 of two", E, LOCATE_16(CP | TO_FILE, 1, 2), TWO(0, 0), .p1 = MIXED,
     .after = TWO(0, 0), .told = PLAIN(TOLD_FIELD)},
    {"LOCATE (16) to end of data of a partition not there", E, LOCATE_16(CP | TO_END, 0, 1), AT(1), .after = AT(1),
     .told = PLAIN(TOLD_FIELD)},
    {"LOCATE (16) without CP ignores byte 3", E, LOCATE_16(0, 0, 255), AT(2), .after = AT(0)},
    {"LOCATE (16) without CP stays on partition 0", E, LOCATE_16(0, 5, 1), TWO(0, 0), .p1 = MIXED, .after = TWO(0, 2),
     .told = PAST_END},
    {"LOCATE (16) without CP stays on partition 1", E, LOCATE_16(TO_FILE, 2, 0), TWO(1, 0), .p1 = MIXED,
     .after = TWO(1, 6)},
    {"LOCATE (16) to end of data without CP", E, LOCATE_16(TO_END, 0, 255), TWO(1, 0), .p1 = MIXED, .after = TWO(1, 7)},
    {"LOCATE (16) with byte 8 set, to partition 0", E, LOCATE_16(CP, 1 << 24, 0), TWO(1, 4), .p1 = MIXED,
     .after = TWO(0, 2), .told = PAST_END},
    {"LOCATE (16) with byte 8 set, to partition 1", E, LOCATE_16(CP, UINT32_MAX, 1), TWO(0, 1), .p1 = MIXED,
     .after = TWO(1, 7), .told = PAST_END},
};

/* ---- SPACE (16) with counts that SPACE has too */

static const struct edge spaced[] = {
    {"P10 by SPACE (16)", E, SPACE_16(BLOCKS, -5), AT(2), .after = AT(1), .crossed = 1,
     .told = RESIDUE(TOLD_FILEMARK, 0xfffffffb)},
    {"P11 by SPACE (16)", E, SPACE_16(BLOCKS, -5), AT(1), .after = AT(0), .crossed = 1,
     .told = RESIDUE(TOLD_BEGINNING, 0xfffffffc)},
    {"SPACE (16) blocks 0 at a filemark", E, SPACE_16(BLOCKS, 0), AT(1), .after = AT(1)},
    {"SPACE (16) blocks 0 at the end, in the zone", FULL, SPACE_16(BLOCKS, 0), AT(1), .after = AT(1)},
    {"SPACE (16) filemarks 0", E, SPACE_16(FILEMARKS, 0), AT(0), .after = AT(0)},
    {"SPACE (16) filemarks 0 at the end", E, SPACE_16(FILEMARKS, 0), AT(2), .after = AT(2)},
    {"SPACE (16) blocks 1", E, SPACE_16(BLOCKS, 1), AT(0), .after = AT(1), .crossed = 1},
    {"SPACE (16) blocks 3", MIXED, SPACE_16(BLOCKS, 3), AT(2), .after = AT(5), .crossed = 3},
    {"SPACE (16) blocks 1 at a filemark", E, SPACE_16(BLOCKS, 1), AT(1), .after = AT(2), .crossed = 1,
     .told = RESIDUE(TOLD_FILEMARK, 1)},
    {"SPACE (16) blocks 1 at end of data", E, SPACE_16(BLOCKS, 1), AT(2), .after = AT(2),
     .told = RESIDUE(TOLD_END_OF_DATA, 1)},
    {"SPACE (16) at end of data in the zone tells EOM", FULL, SPACE_16(BLOCKS, 1), AT(1), .after = AT(1),
     .told = RESIDUE(TOLD_END_IN_ZONE, 1)},
    {"SPACE (16) blocks 2 to end of data", MIXED, SPACE_16(BLOCKS, 2), AT(6), .after = AT(7), .crossed = 1,
     .told = RESIDUE(TOLD_END_OF_DATA, 1)},
    {"SPACE (16) blocks -3", MIXED, SPACE_16(BLOCKS, -3), AT(5), .after = AT(2), .crossed = 3},
    {"SPACE (16) blocks -3 over a block and a filemark", FILES, SPACE_16(BLOCKS, -3), AT(4), .after = AT(2),
     .crossed = 2, .told = RESIDUE(TOLD_FILEMARK, 0xfffffffe)},
    {"SPACE (16) blocks -1 at the beginning", E, SPACE_16(BLOCKS, -1), AT(0), .after = AT(0),
     .told = RESIDUE(TOLD_BEGINNING, 0xffffffff)},
    {"SPACE (16) filemarks 1", E, SPACE_16(FILEMARKS, 1), AT(0), .after = AT(2), .crossed = 2},
    {"SPACE (16) filemarks 2", MIXED, SPACE_16(FILEMARKS, 2), AT(0), .after = AT(6), .crossed = 6},
    {"SPACE (16) filemarks 3 where two are left", FILES, SPACE_16(FILEMARKS, 3), AT(0), .after = AT(5), .crossed = 5,
     .told = RESIDUE(TOLD_END_OF_DATA, 1)},
    {"SPACE (16) filemarks -1", MIXED, SPACE_16(FILEMARKS, -1), AT(7), .after = AT(5), .crossed = 2},
    {"SPACE (16) filemarks -2", FILES, SPACE_16(FILEMARKS, -2), AT(5), .after = AT(2), .crossed = 3},
    {"SPACE (16) filemarks -3 where two are left", FILES, SPACE_16(FILEMARKS, -3), AT(5), .after = AT(0), .crossed = 5,
     .told = RESIDUE(TOLD_BEGINNING, 0xffffffff)},
    {"SPACE (16) to end of data, -5 ignored", E, SPACE_16(TO_END_OF_DATA, -5), AT(0), .after = AT(2), .crossed = 2},
    {"SPACE (16) to end of data, -2^63 ignored", E, SPACE_16(TO_END_OF_DATA, LEAST), AT(1), .after = AT(2),
     .crossed = 1},
    {"SPACE (16) to end of data, 2^63 - 1 ignored", E, SPACE_16(TO_END_OF_DATA, MOST), AT(2), .after = AT(2)},
    {"SPACE (16) to end of data, in the zone", FULL, SPACE_16(TO_END_OF_DATA, 0), AT(0), .after = AT(1), .crossed = 1},
    {"SPACE (16) to end of data of a blank", BLANK, SPACE_16(TO_END_OF_DATA, 1), AT(0), .after = AT(0)},
    {"SPACE (16) to end of data of partition 1", E, SPACE_16(TO_END_OF_DATA, 1), TWO(1, 1), .p1 = MIXED,
     .after = TWO(1, 7), .crossed = 6},
    {"SPACE (16) on partition 1", E, SPACE_16(FILEMARKS, -1), TWO(1, 7), .p1 = MIXED, .after = TWO(1, 5), .crossed = 2},
    {"SPACE (16) on a protected partition", GUARDED, SPACE_16(FILEMARKS, 1), AT(0), .after = AT(2), .crossed = 2},
    {"SPACE (16) takes and gives nothing", E, SPACE_16(BLOCKS, 1), AT(0), .sent = 5, .room = 7, .after = AT(1),
     .crossed = 1},
};

/* ---- SPACE (16) with counts that only eight bytes hold, and residues on both sides of 32 signed bits */

static const struct edge spaced_far[] = {
    {"SPACE (16) blocks 2^23, which has no sign here", E, SPACE_16(BLOCKS, 1 << 23), AT(0), .after = AT(2),
     .crossed = 2, .told = RESIDUE(TOLD_FILEMARK, 0x7fffff)},
    {"SPACE (16) blocks 2^24 + 1", E, SPACE_16(BLOCKS, (1 << 24) + 1), AT(0), .after = AT(2), .crossed = 2,
     .told = RESIDUE(TOLD_FILEMARK, 0x1000000)},
    {"SPACE (16) blocks -2^24 - 1", E, SPACE_16(BLOCKS, -(1 << 24) - 1), AT(2), .after = AT(1), .crossed = 1,
     .told = RESIDUE(TOLD_FILEMARK, 0xfeffffff)},
    {"SPACE (16) blocks, residue 2^31 - 1 at a filemark", FILES, SPACE_16(BLOCKS, POWER_31 + 1), AT(0), .after = AT(3),
     .crossed = 3, .told = RESIDUE(TOLD_FILEMARK, 0x7fffffff)},
    {"SPACE (16) blocks, residue 2^31 at a filemark", FILES, SPACE_16(BLOCKS, POWER_31 + 2), AT(0), .after = AT(3),
     .crossed = 3, .told = NO_RESIDUE(TOLD_FILEMARK)},
    {"SPACE (16) blocks, residue -2^31 at a filemark", FILES, SPACE_16(BLOCKS, -POWER_31 - 1), AT(4), .after = AT(2),
     .crossed = 2, .told = RESIDUE(TOLD_FILEMARK, 0x80000000)},
    {"SPACE (16) blocks, residue -2^31 - 1 at a filemark", FILES, SPACE_16(BLOCKS, -POWER_31 - 2), AT(4),
     .after = AT(2), .crossed = 2, .told = NO_RESIDUE(TOLD_FILEMARK)},
    {"SPACE (16) blocks, residue 2^31 - 1 at end of data", MIXED, SPACE_16(BLOCKS, POWER_31), AT(6), .after = AT(7),
     .crossed = 1, .told = RESIDUE(TOLD_END_OF_DATA, 0x7fffffff)},
    {"SPACE (16) blocks, residue 2^31 at end of data", MIXED, SPACE_16(BLOCKS, POWER_31 + 1), AT(6), .after = AT(7),
     .crossed = 1, .told = NO_RESIDUE(TOLD_END_OF_DATA)},
    {"SPACE (16) blocks, residue -2^31 at the beginning", FILES, SPACE_16(BLOCKS, -POWER_31 - 2), AT(2), .after = AT(0),
     .crossed = 2, .told = RESIDUE(TOLD_BEGINNING, 0x80000000)},
    {"SPACE (16) blocks, residue -2^31 - 1 at the beginning", FILES, SPACE_16(BLOCKS, -POWER_31 - 3), AT(2),
     .after = AT(0), .crossed = 2, .told = NO_RESIDUE(TOLD_BEGINNING)},
    {"SPACE (16) filemarks, residue 2^31 - 1", FILES, SPACE_16(FILEMARKS, POWER_31 + 1), AT(0), .after = AT(5),
     .crossed = 5, .told = RESIDUE(TOLD_END_OF_DATA, 0x7fffffff)},
    {"SPACE (16) filemarks, residue 2^31", FILES, SPACE_16(FILEMARKS, POWER_31 + 2), AT(0), .after = AT(5),
     .crossed = 5, .told = NO_RESIDUE(TOLD_END_OF_DATA)},
    {"SPACE (16) filemarks, residue -2^31", FILES, SPACE_16(FILEMARKS, -POWER_31 - 2), AT(5), .after = AT(0),
     .crossed = 5, .told = RESIDUE(TOLD_BEGINNING, 0x80000000)},
    {"SPACE (16) filemarks, residue -2^31 - 1", FILES, SPACE_16(FILEMARKS, -POWER_31 - 3), AT(5), .after = AT(0),
     .crossed = 5, .told = NO_RESIDUE(TOLD_BEGINNING)},
    /* Where nothing is counted the residue is the count. */
    {"SPACE (16) blocks 2^31 - 1 at end of data", E, SPACE_16(BLOCKS, POWER_31 - 1), AT(2), .after = AT(2),
     .told = RESIDUE(TOLD_END_OF_DATA, 0x7fffffff)},
    {"SPACE (16) blocks 2^31 at end of data", E, SPACE_16(BLOCKS, POWER_31), AT(2), .after = AT(2),
     .told = NO_RESIDUE(TOLD_END_OF_DATA)},
    {"SPACE (16) blocks -2^31 at the beginning", E, SPACE_16(BLOCKS, -POWER_31), AT(0), .after = AT(0),
     .told = RESIDUE(TOLD_BEGINNING, 0x80000000)},
    {"SPACE (16) blocks -2^31 - 1 at the beginning", E, SPACE_16(BLOCKS, -POWER_31 - 1), AT(0), .after = AT(0),
     .told = NO_RESIDUE(TOLD_BEGINNING)},
    {"SPACE (16) blocks 2^31 at a filemark", E, SPACE_16(BLOCKS, POWER_31), AT(1), .after = AT(2), .crossed = 1,
     .told = NO_RESIDUE(TOLD_FILEMARK)},
    {"SPACE (16) blocks -2^31 back at a filemark", E, SPACE_16(BLOCKS, -POWER_31), AT(2), .after = AT(1), .crossed = 1,
     .told = RESIDUE(TOLD_FILEMARK, 0x80000000)},
    /* Counts that are 0 or 1 by their low 32 bits. */
    {"SPACE (16) blocks 2^32", E, SPACE_16(BLOCKS, POWER_32), AT(0), .after = AT(2), .crossed = 2,
     .told = NO_RESIDUE(TOLD_FILEMARK)},
    {"SPACE (16) blocks 2^32 + 1", E, SPACE_16(BLOCKS, POWER_32 + 1), AT(0), .after = AT(2), .crossed = 2,
     .told = NO_RESIDUE(TOLD_FILEMARK)},
    {"SPACE (16) blocks 2^32 to the zone, EOM", FULL, SPACE_16(BLOCKS, POWER_32), AT(0), .after = AT(1), .crossed = 1,
     .told = NO_RESIDUE(TOLD_END_IN_ZONE)},
    {"SPACE (16) blocks -2^32", E, SPACE_16(BLOCKS, -POWER_32), AT(2), .after = AT(1), .crossed = 1,
     .told = NO_RESIDUE(TOLD_FILEMARK)},
    {"SPACE (16) filemarks -2^32", E, SPACE_16(FILEMARKS, -POWER_32), AT(2), .after = AT(0), .crossed = 2,
     .told = NO_RESIDUE(TOLD_BEGINNING)},
    {"SPACE (16) filemarks 2^32 - 1, all FFh in the low 32 bits", E, SPACE_16(FILEMARKS, POWER_32 - 1), AT(0),
     .after = AT(2), .crossed = 2, .told = NO_RESIDUE(TOLD_END_OF_DATA)},
    /* The most and the least that there are. */
    {"SPACE (16) blocks 2^63 - 1", E, SPACE_16(BLOCKS, MOST), AT(0), .after = AT(2), .crossed = 2,
     .told = NO_RESIDUE(TOLD_FILEMARK)},
    {"SPACE (16) blocks 2^63 - 1 at end of data", E, SPACE_16(BLOCKS, MOST), AT(2), .after = AT(2),
     .told = NO_RESIDUE(TOLD_END_OF_DATA)},
    {"SPACE (16) filemarks 2^63 - 1", E, SPACE_16(FILEMARKS, MOST), AT(0), .after = AT(2), .crossed = 2,
     .told = NO_RESIDUE(TOLD_END_OF_DATA)},
    {"SPACE (16) blocks -2^63 at a filemark", E, SPACE_16(BLOCKS, LEAST), AT(2), .after = AT(1), .crossed = 1,
     .told = NO_RESIDUE(TOLD_FILEMARK)},
    {"SPACE (16) blocks -2^63 to the beginning", E, SPACE_16(BLOCKS, LEAST), AT(1), .after = AT(0), .crossed = 1,
     .told = NO_RESIDUE(TOLD_BEGINNING)},
    {"SPACE (16) blocks -2^63 at the beginning", E, SPACE_16(BLOCKS, LEAST), AT(0), .after = AT(0),
     .told = NO_RESIDUE(TOLD_BEGINNING)},
    {"SPACE (16) filemarks -2^63", MIXED, SPACE_16(FILEMARKS, LEAST), AT(7), .after = AT(0), .crossed = 7,
     .told = NO_RESIDUE(TOLD_BEGINNING)},
    {"SPACE (16) filemarks -2^63 of a blank", BLANK, SPACE_16(FILEMARKS, LEAST), AT(0), .after = AT(0),
     .told = NO_RESIDUE(TOLD_BEGINNING)},
    {"SPACE (16) blocks -2^63 on partition 1", E, SPACE_16(BLOCKS, LEAST), TWO(1, 7), .p1 = MIXED, .after = TWO(1, 5),
     .crossed = 2, .told = NO_RESIDUE(TOLD_FILEMARK)},
};

/* ---- calls of edges/specs/Sixteen.antt that none of those above is: each as the checker computed it */

static const struct edge computed[] = {
    {"file 1 of two, from behind it", FILES, LOCATE_16(TO_FILE, 1, 0), AT(4), .after = AT(3)},
    {"file 2 of two, which is empty", FILES, LOCATE_16(TO_FILE, 2, 0), AT(4), .after = AT(5)},
    {"file 3 of two", FILES, LOCATE_16(TO_FILE, 3, 0), AT(1), .after = AT(5), .told = PAST_END},
    {"file 2^32", FILES, LOCATE_16(TO_FILE, POWER_32, 0), AT(0), .after = AT(5), .told = PAST_END},
    {"file 2^32 + 1", FILES, LOCATE_16(TO_FILE, POWER_32 + 1, 0), AT(0), .after = AT(5), .told = PAST_END},
    {"end of data, all FFh", FILES, LOCATE_16(TO_END, ALL_BITS, 0), AT(0), .after = AT(5)},
    {"object 0 of the other partition", E, LOCATE_16(CP, 0, 1), TWO(0, 2), .p1 = FILES, .after = TWO(1, 0)},
    {"a file of the other partition, IMMED", E, LOCATE_16(CP | IMMED | TO_FILE, 2, 1), TWO(0, 0), .p1 = FILES,
     .after = TWO(1, 5)},
    {"back to object 1 of partition 0", E, LOCATE_16(CP, 1, 0), TWO(1, 5), .p1 = FILES, .after = TWO(0, 1)},
    {"past the files of the other partition", E, LOCATE_16(CP | TO_FILE, 3, 1), TWO(0, 1), .p1 = FILES,
     .after = TWO(1, 5), .told = PAST_END},
    {"partition 2 of two moves nothing", E, LOCATE_16(CP, 0, 2), TWO(1, 4), .p1 = FILES, .after = TWO(1, 4),
     .told = PLAIN(TOLD_FIELD)},
    {"byte 3 without CP, on partition 1", E, LOCATE_16(0, 1, 255), TWO(1, 4), .p1 = FILES, .after = TWO(1, 1)},
    {"LOCATE (16) under an attention", E, LOCATE_16(TO_OBJECT, 0, 0), WAITING(ATTENTION_MOUNTED, 1), .after = AT(1),
     .told = PLAIN(TOLD_MOUNTED)},
    {"no filemarks", E, SPACE_16(FILEMARKS, 0), AT(1), .after = AT(1)},
    {"end of data, count -1", E, SPACE_16(TO_END_OF_DATA, -1), AT(0), .after = AT(2), .crossed = 2},
    {"code 2", E, SPACE_16(2, 1), AT(1), .after = AT(1), .told = PLAIN(TOLD_FIELD)},
    {"filemarks 2^32 + 3", FILES, SPACE_16(FILEMARKS, POWER_32 + 3), AT(0), .after = AT(5), .crossed = 5,
     .told = NO_RESIDUE(TOLD_END_OF_DATA)},
    {"blocks -2^31 at a filemark", FILES, SPACE_16(BLOCKS, -POWER_31), AT(3), .after = AT(2), .crossed = 1,
     .told = RESIDUE(TOLD_FILEMARK, 0x80000000)},
    {"blocks -2^31 - 1 at a filemark", FILES, SPACE_16(BLOCKS, -POWER_31 - 1), AT(3), .after = AT(2), .crossed = 1,
     .told = NO_RESIDUE(TOLD_FILEMARK)},
    {"filemarks 2^63 - 1", FILES, SPACE_16(FILEMARKS, MOST), AT(1), .after = AT(5), .crossed = 4,
     .told = NO_RESIDUE(TOLD_END_OF_DATA)},
    {"blocks 2^63 - 1", FILES, SPACE_16(BLOCKS, MOST), AT(0), .after = AT(3), .crossed = 3,
     .told = NO_RESIDUE(TOLD_FILEMARK)},
    {"filemarks -2^63", FILES, SPACE_16(FILEMARKS, LEAST), AT(5), .after = AT(0), .crossed = 5,
     .told = NO_RESIDUE(TOLD_BEGINNING)},
    {"blocks -2^63", FILES, SPACE_16(BLOCKS, LEAST), AT(4), .after = AT(2), .crossed = 2,
     .told = NO_RESIDUE(TOLD_FILEMARK)},
};

static void long_movement(void)
{
    run(objects_located, COUNT(objects_located));
    run(files_located, COUNT(files_located));
    run(ends_located, COUNT(ends_located));
    run(partitions_located, COUNT(partitions_located));
    run(spaced, COUNT(spaced));
    run(spaced_far, COUNT(spaced_far));
    run(computed, COUNT(computed));
}

#endif
