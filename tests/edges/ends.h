/* ends.h: cases of end of data before the zone and in it, as Q-2 of document 02 changes it: "Set it exactly when
 * position N of the partition is in the zone." */
#ifndef EDGES_ENDS_H
#define EDGES_ENDS_H

#include "long.h"

/* Both sides of the zone, the same call on each. A blank of 64 bytes is left with a room of 3 behind a block of 41
 * bytes, and 3 x 16 = 48 is not below 64 - 16, so N is before the zone; a block of 42 leaves 2, and N is in it. A block
 * of 37 or 38 bytes and a filemark leave the same. */
#define MET(what, before_it, in_it, command, start, residue, ...)                                                   \
    {what ", before the zone", before_it, command, start, .told = RESIDUE(TOLD_END_OF_DATA, residue), __VA_ARGS__}, \
    {what ", in the zone", in_it, command, start, .told = RESIDUE(TOLD_END_IN_ZONE, residue), __VA_ARGS__}

/* The same where nothing is told of a residue: by LOCATE, and by SPACE (16) of one that 32 signed bits do not hold. */
#define MET_PLAIN(what, before_it, in_it, command, start, ...)                                           \
    {what ", before the zone", before_it, command, start, .told = PLAIN(TOLD_END_OF_DATA), __VA_ARGS__}, \
    {what ", in the zone", in_it, command, start, .told = PLAIN(TOLD_END_IN_ZONE), __VA_ARGS__}

/* What does not meet end of data is the same on both sides: GOOD, unless it says what is told. */
#define ALIKE(what, before_it, in_it, command, start, ...)              \
    {what ", before the zone", before_it, command, start, __VA_ARGS__}, \
    {what ", in the zone", in_it, command, start, __VA_ARGS__}

/* ---- READ */

static const struct edge end_read[] = {
    MET("READ 5 at N", LEFT_3, LEFT_2, SIX(READ, 0, 5), AT(1), 5, .room = 16, .after = AT(1)),
    MET("READ 1 at N", LEFT_3, LEFT_2, SIX(READ, 0, 1), AT(1), 1, .room = 1, .after = AT(1)),
    MET("READ 65,536 at N", LEFT_3, LEFT_2, SIX(READ, 0, FORMER_LARGEST), AT(1), FORMER_LARGEST,
        .room = FORMER_LARGEST, .after = AT(1)),
    MET("READ 1,048,576 at N", LEFT_3, LEFT_2, SIX(READ, 0, LARGEST_BLOCK), MOUNTED(1), LARGEST_BLOCK,
        .room = LARGEST_BLOCK, .after = MOUNTED(1)),
    MET("READ with SILI at N", LEFT_3, LEFT_2, SIX(READ, SILI, 5), AT(1), 5, .room = 5, .after = AT(1)),
    MET("READ at N, a block length set", LEFT_3, LEFT_2, SIX(READ, 0, 5), SET(3, 1), 5, .room = 5, .after = SET(3, 1)),
    MET("READ behind a filemark", MARKED_3, MARKED_2, SIX(READ, 0, 5), AT(2), 5, .room = 5, .after = AT(2)),
    MET("FIXED READ 1 at N", LEFT_3, LEFT_2, SIX(READ, FIXED, 1), SET(3, 1), 1, .room = 3, .after = SET(3, 1)),
    MET("FIXED READ 2 at N", LEFT_3, LEFT_2, SIX(READ, FIXED, 2), SET(3, 1), 2, .room = 6, .after = SET(3, 1)),
    MET("FIXED READ 1,000 at N", LEFT_3, LEFT_2, SIX(READ, FIXED, 1000), SET(1, 1), 1000, .room = 1000,
        .after = SET(1, 1)),
    /* From a position that is before the zone, over the block. */
    {"FIXED READ over the block, before the zone", LEFT_3, SIX(READ, FIXED, 2), SET(41, 0), .room = 82,
     .after = SET(41, 1), .told = RESIDUE(TOLD_END_OF_DATA, 1), .reads = 41},
    {"FIXED READ over the block, in the zone", LEFT_2, SIX(READ, FIXED, 2), SET(42, 0), .room = 84,
     .after = SET(42, 1), .told = RESIDUE(TOLD_END_IN_ZONE, 1), .reads = 42},
    ALIKE("READ 0 at N", LEFT_3, LEFT_2, SIX(READ, 0, 0), AT(1), .after = AT(1)),
    ALIKE("FIXED READ 0 at N", LEFT_3, LEFT_2, SIX(READ, FIXED, 0), SET(3, 1), .after = SET(3, 1)),
    ALIKE("READ of a filemark at the end", MARKED_3, MARKED_2, SIX(READ, 0, 5), AT(1), .room = 5, .after = AT(2),
          .told = RESIDUE(TOLD_FILEMARK, 5)),
    {"READ 2 of the last block, before the zone", LEFT_3, SIX(READ, 0, 2), AT(0), .room = 5, .after = AT(1),
     .told = RESIDUE(TOLD_LENGTH, 0xffffffd9), .reads = 2},
    {"READ 2 of the last block, in the zone", LEFT_2, SIX(READ, 0, 2), AT(0), .room = 5, .after = AT(1),
     .told = RESIDUE(TOLD_LENGTH, 0xffffffd8), .reads = 2},
    ALIKE("READ 2 of the last block with SILI, block length 0", LEFT_3, LEFT_2, SIX(READ, SILI, 2), SET(0, 0),
          .room = 5, .after = SET(0, 1), .reads = 2),
    ALIKE("FIXED READ 1 of the last block, odd", LEFT_3, LEFT_2, SIX(READ, FIXED, 1), SET(3, 0), .room = 3,
          .after = SET(3, 1), .told = RESIDUE(TOLD_LENGTH, 1)),
    ALIKE("READ into less than the request, at N", LEFT_3, LEFT_2, SIX(READ, 0, 5), AT(1), .room = 4,
          .refusal = BY_RECEIVED),
    ALIKE("READ at N under an attention", LEFT_3, LEFT_2, SIX(READ, 0, 5), WAITING(ATTENTION_MOUNTED, 1), .room = 5,
          .after = AT(1), .told = PLAIN(TOLD_MOUNTED)),
};

/* ---- SPACE in both lengths */

static const struct edge end_spaced[] = {
    MET("SPACE blocks 1 at N", LEFT_3, LEFT_2, SIX(SPACE, BLOCKS, 1), AT(1), 1, .after = AT(1)),
    MET("SPACE blocks 2 from 0", LEFT_3, LEFT_2, SIX(SPACE, BLOCKS, 2), AT(0), 1, .after = AT(1), .crossed = 1),
    MET("SPACE blocks by the most there is", LEFT_3, LEFT_2, SIX(SPACE, BLOCKS, COUNT_SIGN - 1), AT(0), 0x7ffffe,
        .after = AT(1), .crossed = 1),
    MET("SPACE filemarks 1 at N", LEFT_3, LEFT_2, SIX(SPACE, FILEMARKS, 1), AT(1), 1, .after = AT(1)),
    MET("SPACE filemarks 1 from 0", LEFT_3, LEFT_2, SIX(SPACE, FILEMARKS, 1), AT(0), 1, .after = AT(1), .crossed = 1),
    MET("SPACE filemarks by the most there is", LEFT_3, LEFT_2, SIX(SPACE, FILEMARKS, COUNT_SIGN - 1), AT(0), 0x7fffff,
        .after = AT(1), .crossed = 1),
    MET("SPACE filemarks 2 of one", MARKED_3, MARKED_2, SIX(SPACE, FILEMARKS, 2), AT(0), 1, .after = AT(2),
        .crossed = 2),
    MET("SPACE blocks 1 behind a filemark", MARKED_3, MARKED_2, SIX(SPACE, BLOCKS, 1), AT(2), 1, .after = AT(2)),
    MET("SPACE (16) blocks 1 at N", LEFT_3, LEFT_2, SPACE_16(BLOCKS, 1), AT(1), 1, .after = AT(1)),
    MET("SPACE (16) blocks 2 from 0", LEFT_3, LEFT_2, SPACE_16(BLOCKS, 2), AT(0), 1, .after = AT(1), .crossed = 1),
    MET("SPACE (16) blocks, residue 2^31 - 1", LEFT_3, LEFT_2, SPACE_16(BLOCKS, POWER_31), AT(0), 0x7fffffff,
        .after = AT(1), .crossed = 1),
    MET_PLAIN("SPACE (16) blocks, residue 2^31", LEFT_3, LEFT_2, SPACE_16(BLOCKS, POWER_31), AT(1), .after = AT(1)),
    MET_PLAIN("SPACE (16) blocks 2^32 + 1", LEFT_3, LEFT_2, SPACE_16(BLOCKS, POWER_32 + 1), AT(0), .after = AT(1),
              .crossed = 1),
    MET_PLAIN("SPACE (16) blocks 2^63 - 1", LEFT_3, LEFT_2, SPACE_16(BLOCKS, MOST), AT(0), .after = AT(1),
              .crossed = 1),
    MET("SPACE (16) filemarks 1 at N", LEFT_3, LEFT_2, SPACE_16(FILEMARKS, 1), AT(1), 1, .after = AT(1)),
    MET("SPACE (16) filemarks 1 from 0", LEFT_3, LEFT_2, SPACE_16(FILEMARKS, 1), AT(0), 1, .after = AT(1),
        .crossed = 1),
    MET("SPACE (16) filemarks 2^31 - 1", LEFT_3, LEFT_2, SPACE_16(FILEMARKS, POWER_31 - 1), AT(0), 0x7fffffff,
        .after = AT(1), .crossed = 1),
    MET_PLAIN("SPACE (16) filemarks 2^31", LEFT_3, LEFT_2, SPACE_16(FILEMARKS, POWER_31), AT(0), .after = AT(1),
              .crossed = 1),
    MET_PLAIN("SPACE (16) filemarks 2^63 - 1", LEFT_3, LEFT_2, SPACE_16(FILEMARKS, MOST), AT(0), .after = AT(1),
              .crossed = 1),
    MET("SPACE (16) filemarks 2 of one", MARKED_3, MARKED_2, SPACE_16(FILEMARKS, 2), AT(0), 1, .after = AT(2),
        .crossed = 2),
    MET("SPACE (16) blocks 1 behind a filemark", MARKED_3, MARKED_2, SPACE_16(BLOCKS, 1), AT(2), 1, .after = AT(2)),
    /* "Code 3: count ignored, to end of data, GOOD": it meets nothing. */
    ALIKE("SPACE to end of data from 0", LEFT_3, LEFT_2, SIX(SPACE, TO_END_OF_DATA, 5), AT(0), .after = AT(1),
          .crossed = 1),
    ALIKE("SPACE to end of data, there already", LEFT_3, LEFT_2, SIX(SPACE, TO_END_OF_DATA, -1), AT(1), .after = AT(1)),
    ALIKE("SPACE (16) to end of data from 0", LEFT_3, LEFT_2, SPACE_16(TO_END_OF_DATA, LEAST), AT(0), .after = AT(1),
          .crossed = 1),
    ALIKE("SPACE (16) to end of data, there already", LEFT_3, LEFT_2, SPACE_16(TO_END_OF_DATA, MOST), AT(1),
          .after = AT(1)),
    ALIKE("SPACE blocks 1 to N", LEFT_3, LEFT_2, SIX(SPACE, BLOCKS, 1), AT(0), .after = AT(1), .crossed = 1),
    ALIKE("SPACE (16) blocks 1 to N", LEFT_3, LEFT_2, SPACE_16(BLOCKS, 1), AT(0), .after = AT(1), .crossed = 1),
    ALIKE("SPACE filemarks 1 to N", MARKED_3, MARKED_2, SIX(SPACE, FILEMARKS, 1), AT(0), .after = AT(2), .crossed = 2),
    ALIKE("SPACE (16) filemarks 1 to N", MARKED_3, MARKED_2, SPACE_16(FILEMARKS, 1), AT(0), .after = AT(2),
          .crossed = 2),
    ALIKE("SPACE blocks 0 at N", LEFT_3, LEFT_2, SIX(SPACE, BLOCKS, 0), AT(1), .after = AT(1)),
    ALIKE("SPACE (16) filemarks 0 at N", LEFT_3, LEFT_2, SPACE_16(FILEMARKS, 0), AT(1), .after = AT(1)),
    ALIKE("SPACE blocks to a filemark at the end", MARKED_3, MARKED_2, SIX(SPACE, BLOCKS, 2), AT(0), .after = AT(2),
          .crossed = 2, .told = RESIDUE(TOLD_FILEMARK, 1)),
    ALIKE("SPACE (16) blocks to a filemark at the end", MARKED_3, MARKED_2, SPACE_16(BLOCKS, 2), AT(0), .after = AT(2),
          .crossed = 2, .told = RESIDUE(TOLD_FILEMARK, 1)),
    /* The beginning has its EOM whatever the zone. */
    ALIKE("SPACE blocks -2 from N", LEFT_3, LEFT_2, SIX(SPACE, BLOCKS, -2), AT(1), .after = AT(0), .crossed = 1,
          .told = RESIDUE(TOLD_BEGINNING, 0xffffffff)),
    ALIKE("SPACE (16) filemarks -1 from N", LEFT_3, LEFT_2, SPACE_16(FILEMARKS, -1), AT(1), .after = AT(0),
          .crossed = 1, .told = RESIDUE(TOLD_BEGINNING, 0xffffffff)),
};

/* ---- LOCATE in both lengths */

static const struct edge end_located[] = {
    MET_PLAIN("LOCATE to N + 1 from 0", LEFT_3, LEFT_2, LOCATE(0, 2, 0), AT(0), .after = AT(1)),
    MET_PLAIN("LOCATE to N + 1 from N", LEFT_3, LEFT_2, LOCATE(0, 2, 0), AT(1), .after = AT(1)),
    MET_PLAIN("LOCATE to N + 1 with IMMED", LEFT_3, LEFT_2, LOCATE(IMMED, 2, 0), AT(0), .after = AT(1)),
    MET_PLAIN("LOCATE to FFFFFFFFh", LEFT_3, LEFT_2, LOCATE(0, UINT32_MAX, 0), AT(0), .after = AT(1)),
    MET_PLAIN("LOCATE behind a filemark", MARKED_3, MARKED_2, LOCATE(0, 3, 0), AT(1), .after = AT(2)),
    MET_PLAIN("LOCATE (16) to N + 1 from 0", LEFT_3, LEFT_2, LOCATE_16(TO_OBJECT, 2, 0), AT(0), .after = AT(1)),
    MET_PLAIN("LOCATE (16) to N + 1 from N", LEFT_3, LEFT_2, LOCATE_16(TO_OBJECT, 2, 0), AT(1), .after = AT(1)),
    MET_PLAIN("LOCATE (16) to N + 1 with IMMED", LEFT_3, LEFT_2, LOCATE_16(TO_OBJECT | IMMED, 2, 0), AT(0),
              .after = AT(1)),
    MET_PLAIN("LOCATE (16) to 2^32", LEFT_3, LEFT_2, LOCATE_16(TO_OBJECT, POWER_32, 0), AT(0), .after = AT(1)),
    MET_PLAIN("LOCATE (16) to all FFh", LEFT_3, LEFT_2, LOCATE_16(TO_OBJECT, ALL_BITS, 0), AT(0), .after = AT(1)),
    MET_PLAIN("LOCATE (16) to file 1 of none", LEFT_3, LEFT_2, LOCATE_16(TO_FILE, 1, 0), AT(0), .after = AT(1)),
    MET_PLAIN("LOCATE (16) to file 1 of none, from N", LEFT_3, LEFT_2, LOCATE_16(TO_FILE, 1, 0), AT(1), .after = AT(1)),
    MET_PLAIN("LOCATE (16) to file 2 of one", MARKED_3, MARKED_2, LOCATE_16(TO_FILE, 2, 0), AT(0), .after = AT(2)),
    MET_PLAIN("LOCATE (16) to file 2^32", MARKED_3, MARKED_2, LOCATE_16(TO_FILE, POWER_32, 0), AT(0), .after = AT(2)),
    MET_PLAIN("LOCATE (16) to file all FFh", LEFT_3, LEFT_2, LOCATE_16(TO_FILE, ALL_BITS, 0), AT(0), .after = AT(1)),
    /* What is there is GOOD, also where it is N. */
    ALIKE("LOCATE to N", LEFT_3, LEFT_2, LOCATE(0, 1, 0), AT(0), .after = AT(1)),
    ALIKE("LOCATE to 0", LEFT_3, LEFT_2, LOCATE(0, 0, 0), AT(1), .after = AT(0)),
    ALIKE("LOCATE (16) to N", LEFT_3, LEFT_2, LOCATE_16(TO_OBJECT, 1, 0), AT(0), .after = AT(1)),
    ALIKE("LOCATE (16) to file 0", LEFT_3, LEFT_2, LOCATE_16(TO_FILE, 0, 0), AT(1), .after = AT(0)),
    ALIKE("LOCATE (16) to file 1 at N", MARKED_3, MARKED_2, LOCATE_16(TO_FILE, 1, 0), AT(0), .after = AT(2)),
    ALIKE("LOCATE (16) to end of data from 0", LEFT_3, LEFT_2, LOCATE_16(TO_END, 0, 0), AT(0), .after = AT(1)),
    ALIKE("LOCATE (16) to end of data, all FFh ignored", LEFT_3, LEFT_2, LOCATE_16(TO_END, ALL_BITS, 0), AT(1),
          .after = AT(1)),
};

/* ---- two partitions of which one alone ends in the zone: that in which end of data is met decides */

/* From either partition to the other: the command to partition 0, and the one to partition 1. It begins in the zone
 * where it leaves it, and before it where it goes in. */
#define ACROSS(what, to_0, to_1)                                                              \
    {what " into the zone of 1", LEFT_3, to_1, TWO(0, 1), .p1 = LEFT_2, .after = TWO(1, 1),   \
     .told = PAST_END_IN_ZONE},                                                               \
    {what " out of the zone to 1", LEFT_2, to_1, TWO(0, 1), .p1 = LEFT_3, .after = TWO(1, 1), \
     .told = PAST_END},                                                                       \
    {what " into the zone of 0", LEFT_2, to_0, TWO(1, 1), .p1 = LEFT_3, .after = TWO(0, 1),   \
     .told = PAST_END_IN_ZONE},                                                               \
    {what " out of the zone to 0", LEFT_3, to_0, TWO(1, 1), .p1 = LEFT_2, .after = TWO(0, 1), \
     .told = PAST_END}

/* GOOD either way. */
#define ACROSS_GOOD(what, to_0, to_1)                                                          \
    {what " into the zone of 1", LEFT_3, to_1, TWO(0, 1), .p1 = LEFT_2, .after = TWO(1, 1)},   \
    {what " out of the zone to 1", LEFT_2, to_1, TWO(0, 1), .p1 = LEFT_3, .after = TWO(1, 1)}, \
    {what " into the zone of 0", LEFT_2, to_0, TWO(1, 1), .p1 = LEFT_3, .after = TWO(0, 1)},   \
    {what " out of the zone to 0", LEFT_3, to_0, TWO(1, 1), .p1 = LEFT_2, .after = TWO(0, 1)}

/* On the current one, beside the other; how it tells is PLAIN, or one of these. */
#define OF_1(number) RESIDUE(number, 1)
#define OF_5(number) RESIDUE(number, 5)
#define BESIDE(what, tell, command)                                                           \
    {what " on 0, which is in the zone", LEFT_2, command, TWO(0, 1), .p1 = LEFT_3, .room = 5, \
     .after = TWO(0, 1), .told = tell(TOLD_END_IN_ZONE)},                                     \
    {what " on 0, beside one that is", LEFT_3, command, TWO(0, 1), .p1 = LEFT_2, .room = 5,   \
     .after = TWO(0, 1), .told = tell(TOLD_END_OF_DATA)},                                     \
    {what " on 1, which is in the zone", LEFT_3, command, TWO(1, 1), .p1 = LEFT_2, .room = 5, \
     .after = TWO(1, 1), .told = tell(TOLD_END_IN_ZONE)},                                     \
    {what " on 1, beside one that is", LEFT_2, command, TWO(1, 1), .p1 = LEFT_3, .room = 5,   \
     .after = TWO(1, 1), .told = tell(TOLD_END_OF_DATA)}

static const struct edge end_of_two[] = {
    ACROSS("LOCATE to N + 1", LOCATE(CP, 2, 0), LOCATE(CP, 2, 1)),
    ACROSS("LOCATE to FFFFFFFFh", LOCATE(CP, UINT32_MAX, 0), LOCATE(CP, UINT32_MAX, 1)),
    ACROSS("LOCATE (16) to N + 1", LOCATE_16(CP, 2, 0), LOCATE_16(CP, 2, 1)),
    ACROSS("LOCATE (16) to all FFh", LOCATE_16(CP, ALL_BITS, 0), LOCATE_16(CP, ALL_BITS, 1)),
    ACROSS("LOCATE (16) to file 1", LOCATE_16(CP | TO_FILE, 1, 0), LOCATE_16(CP | TO_FILE, 1, 1)),
    ACROSS("LOCATE (16) to file 2^63", LOCATE_16(CP | TO_FILE, POWER_63, 0), LOCATE_16(CP | TO_FILE, POWER_63, 1)),
    ACROSS_GOOD("LOCATE to N", LOCATE(CP, 1, 0), LOCATE(CP, 1, 1)),
    ACROSS_GOOD("LOCATE (16) to N", LOCATE_16(CP, 1, 0), LOCATE_16(CP, 1, 1)),
    ACROSS_GOOD("LOCATE (16) to end of data", LOCATE_16(CP | TO_END, 2, 0), LOCATE_16(CP | TO_END, 2, 1)),
    BESIDE("READ 5", OF_5, SIX(READ, 0, 5)),
    BESIDE("SPACE blocks 1", OF_1, SIX(SPACE, BLOCKS, 1)),
    BESIDE("SPACE filemarks 1", OF_1, SIX(SPACE, FILEMARKS, 1)),
    BESIDE("SPACE (16) blocks 1", OF_1, SPACE_16(BLOCKS, 1)),
    BESIDE("SPACE (16) filemarks 1", OF_1, SPACE_16(FILEMARKS, 1)),
    /* Without CP the partition that is named is none. */
    BESIDE("LOCATE naming 0", PLAIN, LOCATE(0, 2, 0)),
    BESIDE("LOCATE naming 1", PLAIN, LOCATE(0, 2, 1)),
    BESIDE("LOCATE (16) naming 0", PLAIN, LOCATE_16(0, 2, 0)),
    BESIDE("LOCATE (16) naming 1", PLAIN, LOCATE_16(TO_FILE, 1, 1)),
    /* The same room, where lengths of 64 and 65 bytes lie side by side: 48 is below 49 and not below 48. */
    {"room 3 of 65, come from room 3 of 64", LEFT_3, LOCATE(CP, 2, 1), TWO(0, 1), .p1 = LEFT_3_OF_65,
     .after = TWO(1, 1), .told = PAST_END_IN_ZONE},
    {"room 3 of 64, come from room 3 of 65", LEFT_3, LOCATE(CP, 2, 0), TWO(1, 1), .p1 = LEFT_3_OF_65,
     .after = TWO(0, 1), .told = PAST_END},
    {"room 3 of 65, come from room 3 of 64, by LOCATE (16)", LEFT_3, LOCATE_16(CP, 2, 1), TWO(0, 1),
     .p1 = LEFT_3_OF_65, .after = TWO(1, 1), .told = PAST_END_IN_ZONE},
    {"room 3 of 64, come from room 3 of 65, by LOCATE (16)", LEFT_3, LOCATE_16(CP | TO_FILE, 1, 0), TWO(1, 1),
     .p1 = LEFT_3_OF_65, .after = TWO(0, 1), .told = PAST_END},
    {"past the end of a partition that is not there", LEFT_2, LOCATE(CP, 2, 1), AT(1), .after = AT(1),
     .told = PLAIN(TOLD_FIELD)},
    {"past the end of a partition that is not there, by LOCATE (16)", LEFT_2, LOCATE_16(CP, 2, 2), TWO(1, 1),
     .p1 = LEFT_2, .after = TWO(1, 1), .told = PLAIN(TOLD_FIELD)},
};

/* ---- other partitions: those of 65 bytes have their bound between rooms, those of 80, 131,136 and 2,097,216 on one */

static const struct edge end_of_others[] = {
    MET("READ of 65 bytes", LEFT_4_OF_65, LEFT_3_OF_65, SIX(READ, 0, 5), AT(1), 5, .room = 5, .after = AT(1)),
    MET("SPACE of 65 bytes", LEFT_4_OF_65, LEFT_3_OF_65, SIX(SPACE, BLOCKS, 1), AT(1), 1, .after = AT(1)),
    MET_PLAIN("LOCATE of 65 bytes", LEFT_4_OF_65, LEFT_3_OF_65, LOCATE(0, 2, 0), AT(0), .after = AT(1)),
    MET("READ of 80 bytes", LEFT_4_OF_80, LEFT_3_OF_80, SIX(READ, 0, 5), AT(1), 5, .room = 5, .after = AT(1)),
    MET("SPACE (16) of 80 bytes", LEFT_4_OF_80, LEFT_3_OF_80, SPACE_16(FILEMARKS, 1), AT(0), 1, .after = AT(1),
        .crossed = 1),
    MET_PLAIN("LOCATE (16) of 80 bytes", LEFT_4_OF_80, LEFT_3_OF_80, LOCATE_16(TO_FILE, 1, 0), AT(0), .after = AT(1)),
    MET("READ of 131,136 bytes", FORMER_BEFORE, FORMER_IN, SIX(READ, 0, 5), AT(2), 5, .room = 5, .after = AT(2)),
    MET("SPACE of 131,136 bytes", FORMER_BEFORE, FORMER_IN, SIX(SPACE, BLOCKS, 3), AT(0), 1, .after = AT(2),
        .crossed = 2),
    MET_PLAIN("LOCATE (16) of 131,136 bytes", FORMER_BEFORE, FORMER_IN, LOCATE_16(TO_OBJECT, 3, 0), AT(0),
              .after = AT(2)),
    MET("READ of 2,097,216 bytes", BIG_BEFORE, BIG_IN, SIX(READ, 0, 5), MOUNTED(2), 5, .room = 5,
        .after = MOUNTED(2)),
    MET("SPACE of 2,097,216 bytes", BIG_BEFORE, BIG_IN, SIX(SPACE, BLOCKS, 3), SET(0, 0), 1, .after = SET(0, 2),
        .crossed = 2),
    MET_PLAIN("LOCATE (16) of 2,097,216 bytes", BIG_BEFORE, BIG_IN, LOCATE_16(TO_OBJECT, 3, 0), MOUNTED(0),
              .after = MOUNTED(2)),
    MET("READ of a protected one", GUARDED_3, GUARDED_2, SIX(READ, 0, 5), AT(1), 5, .room = 5, .after = AT(1)),
    MET("SPACE of a protected one", GUARDED_3, GUARDED_2, SIX(SPACE, FILEMARKS, 1), AT(0), 1, .after = AT(1),
        .crossed = 1),
    MET_PLAIN("LOCATE of a protected one", GUARDED_3, GUARDED_2, LOCATE(0, 2, 0), AT(0), .after = AT(1)),
    /* An empty one has all its room at N: 16 (L - 16) is not below L - 16 for any L, so it never ends in the zone. */
    {"FIXED READ of a blank", BLANK, SIX(READ, FIXED, 2), SET(3, 0), .room = 6, .after = SET(3, 0),
     .told = RESIDUE(TOLD_END_OF_DATA, 2)},
    {"READ of a blank of 65", BLANK_65, SIX(READ, 0, 5), AT(0), .room = 5, .after = AT(0),
     .told = RESIDUE(TOLD_END_OF_DATA, 5)},
    {"SPACE blocks 1 of a blank", BLANK, SIX(SPACE, BLOCKS, 1), AT(0), .after = AT(0),
     .told = RESIDUE(TOLD_END_OF_DATA, 1)},
    {"SPACE filemarks 1 of a blank", BLANK, SIX(SPACE, FILEMARKS, 1), AT(0), .after = AT(0),
     .told = RESIDUE(TOLD_END_OF_DATA, 1)},
    {"SPACE (16) blocks 1 of a blank", BLANK, SPACE_16(BLOCKS, 1), AT(0), .after = AT(0),
     .told = RESIDUE(TOLD_END_OF_DATA, 1)},
    {"SPACE (16) filemarks 2^63 - 1 of a blank", BLANK, SPACE_16(FILEMARKS, MOST), AT(0), .after = AT(0),
     .told = NO_RESIDUE(TOLD_END_OF_DATA)},
    {"LOCATE to object 1 of a blank", BLANK, LOCATE(0, 1, 0), AT(0), .after = AT(0), .told = PAST_END},
    {"LOCATE to a blank from the zone", LEFT_2, LOCATE(CP, 1, 1), TWO(0, 1), .p1 = BLANK, .after = TWO(1, 0),
     .told = PAST_END},
    {"LOCATE from a blank to the zone", LEFT_2, LOCATE(CP, 2, 0), TWO(1, 0), .p1 = BLANK, .after = TWO(0, 1),
     .told = PAST_END_IN_ZONE},
    {"LOCATE (16) to a blank from the zone", BLANK, LOCATE_16(CP | TO_FILE, 1, 0), TWO(1, 1), .p1 = LEFT_2,
     .after = TWO(0, 0), .told = PAST_END},
    {"LOCATE (16) from a blank to the zone", BLANK, LOCATE_16(CP | TO_FILE, 1, 1), TWO(0, 0), .p1 = LEFT_2,
     .after = TWO(1, 1), .told = PAST_END_IN_ZONE},
    {"READ of a blank beside the zone", LEFT_2, SIX(READ, 0, 5), TWO(1, 0), .p1 = BLANK, .room = 5, .after = TWO(1, 0),
     .told = RESIDUE(TOLD_END_OF_DATA, 5)},
};

static void ends_of_data(void)
{
    run(end_read, COUNT(end_read));
    run(end_spaced, COUNT(end_spaced));
    run(end_located, COUNT(end_located));
    run(end_of_two, COUNT(end_of_two));
    run(end_of_others, COUNT(end_of_others));
}

#endif
