/* merged.h: cases of two moves or one, as Q-12 of document 02 asks: a SPACE by a and one by b, against one by a + b. */
#ifndef EDGES_MERGED_H
#define EDGES_MERGED_H

#include "merged_bounds.h"
#include "order.h"

/* MIXED has filemarks at 1 and 5 of 7 objects, so its blocks from 2 to 4 are a stretch; FILES has them at 2 and 4 of 5,
 * PARTED at 1 of 3, PAIR at 2 of 3. FORMER_BEFORE and FORMER_IN are two blocks, and FORMER_IN ends in the zone. */

/* ---- over blocks "for all signs" */

static const struct merged merged_blocks[] = {
    BY_EACH("blocks 2, 1", MIXED, AT(2), BLOCKS, 2, GOES(4, 2), 1, GOES(5, 1), 3, GOES(5, 3), ONE_WAY),
    BY_EACH("blocks -1, -2", MIXED, AT(5), BLOCKS, -1, GOES(4, 1), -2, GOES(2, 2), -3, GOES(2, 3), ONE_WAY),
    BY_EACH("blocks 3, -1", MIXED, AT(2), BLOCKS, 3, GOES(5, 3), -1, GOES(4, 1), 2, GOES(4, 2), TURNED),
    BY_EACH("blocks -1, 3", MIXED, AT(3), BLOCKS, -1, GOES(2, 1), 3, GOES(5, 3), 2, GOES(5, 2), TURNED),
    BY_EACH("blocks -3, 1", MIXED, AT(5), BLOCKS, -3, GOES(2, 3), 1, GOES(3, 1), -2, GOES(3, 2), TURNED),
    BY_EACH("blocks 1, -2", MIXED, AT(4), BLOCKS, 1, GOES(5, 1), -2, GOES(3, 2), -1, GOES(3, 1), TURNED),
    BY_EACH("blocks 2, -2, home", MIXED, AT(2), BLOCKS, 2, GOES(4, 2), -2, GOES(2, 2), 0, GOES(2, 0), TURNED),
    BY_EACH("blocks -2, 2, home", MIXED, AT(5), BLOCKS, -2, GOES(3, 2), 2, GOES(5, 2), 0, GOES(5, 0), TURNED),
    BY_EACH("blocks 3, -3, home to a filemark", MIXED, AT(2), BLOCKS, 3, GOES(5, 3), -3, GOES(2, 3), 0, GOES(2, 0),
            TURNED),
    BY_EACH("blocks 0, 2", MIXED, AT(3), BLOCKS, 0, GOES(3, 0), 2, GOES(5, 2), 2, GOES(5, 2), ONE_WAY),
    BY_EACH("blocks 2, 0", MIXED, AT(3), BLOCKS, 2, GOES(5, 2), 0, GOES(5, 0), 2, GOES(5, 2), ONE_WAY),
    BY_EACH("blocks 0, -1", MIXED, AT(3), BLOCKS, 0, GOES(3, 0), -1, GOES(2, 1), -1, GOES(2, 1), ONE_WAY),
    BY_EACH("blocks -1, 0", MIXED, AT(3), BLOCKS, -1, GOES(2, 1), 0, GOES(2, 0), -1, GOES(2, 1), ONE_WAY),
    BY_EACH("blocks 0, 0", MIXED, AT(4), BLOCKS, 0, GOES(4, 0), 0, GOES(4, 0), 0, GOES(4, 0), ONE_WAY),
    BY_EACH("blocks 1, 1 to the end in the zone", FORMER_IN, AT(0), BLOCKS, 1, GOES(1, 1), 1, GOES(2, 1), 2, GOES(2, 2),
            ONE_WAY),
    BY_EACH("blocks 2, 1 of partition 1", E, TWO(1, 2), BLOCKS, 2, GOES(4, 2), 1, GOES(5, 1), 3, GOES(5, 3), ONE_WAY,
            .p1 = MIXED),
    BY_EACH("blocks 3, -1 of partition 0 of two", MIXED, TWO(0, 2), BLOCKS, 3, GOES(5, 3), -1, GOES(4, 1), 2,
            GOES(4, 2), TURNED, .p1 = E),
    /* Protection has no say. */
    BY_EACH("blocks 2, 1, protected", GUARDED_MIXED, AT(2), BLOCKS, 2, GOES(4, 2), 1, GOES(5, 1), 3, GOES(5, 3),
            ONE_WAY),
    BY_EACH("blocks 3, -1, protected", GUARDED_MIXED, AT(2), BLOCKS, 3, GOES(5, 3), -1, GOES(4, 1), 2, GOES(4, 2),
            TURNED),
    BY_EACH("blocks -2, 2, home, protected", GUARDED_MIXED, AT(5), BLOCKS, -2, GOES(3, 2), 2, GOES(5, 2), 0,
            GOES(5, 0), TURNED),
};

/* ---- over filemarks "for a and b both at least 0 or both at most 0" */

static const struct merged merged_filemarks[] = {
    BY_EACH("filemarks 1, 1", FILES, AT(0), FILEMARKS, 1, GOES(3, 3), 1, GOES(5, 2), 2, GOES(5, 5), ONE_WAY),
    BY_EACH("filemarks -1, -1", FILES, AT(5), FILEMARKS, -1, GOES(4, 1), -1, GOES(2, 2), -2, GOES(2, 3), ONE_WAY),
    BY_EACH("filemarks 1, 1 from amid", MIXED, AT(0), FILEMARKS, 1, GOES(2, 2), 1, GOES(6, 4), 2, GOES(6, 6), ONE_WAY),
    BY_EACH("filemarks -1, -1 from amid", MIXED, AT(7), FILEMARKS, -1, GOES(5, 2), -1, GOES(1, 4), -2, GOES(1, 6),
            ONE_WAY),
    BY_EACH("filemarks 1, 2 and no block", MARKS, AT(0), FILEMARKS, 1, GOES(1, 1), 2, GOES(3, 2), 3, GOES(3, 3),
            ONE_WAY),
    BY_EACH("filemarks -2, -1 and no block", MARKS, AT(3), FILEMARKS, -2, GOES(1, 2), -1, GOES(0, 1), -3, GOES(0, 3),
            ONE_WAY),
    BY_EACH("filemarks 0, 1", FILES, AT(1), FILEMARKS, 0, GOES(1, 0), 1, GOES(3, 2), 1, GOES(3, 2), ONE_WAY),
    BY_EACH("filemarks 1, 0", FILES, AT(1), FILEMARKS, 1, GOES(3, 2), 0, GOES(3, 0), 1, GOES(3, 2), ONE_WAY),
    BY_EACH("filemarks 0, -1", FILES, AT(4), FILEMARKS, 0, GOES(4, 0), -1, GOES(2, 2), -1, GOES(2, 2), ONE_WAY),
    BY_EACH("filemarks -1, 0", FILES, AT(4), FILEMARKS, -1, GOES(2, 2), 0, GOES(2, 0), -1, GOES(2, 2), ONE_WAY),
    BY_EACH("filemarks 1, 1 of partition 1", E, TWO(1, 0), FILEMARKS, 1, GOES(3, 3), 1, GOES(5, 2), 2, GOES(5, 5),
            ONE_WAY, .p1 = FILES),
    BY_EACH("filemarks 1, 1, protected", GUARDED_FILES, AT(0), FILEMARKS, 1, GOES(3, 3), 1, GOES(5, 2), 2, GOES(5, 5),
            ONE_WAY),
    /* "filemarks a followed by -a need not return": the second stops on the beginning side of the mark that the first
     * has crossed, and the blocks before it are not crossed again. Where there are none it does return. */
    BY_EACH("filemarks 1, -1 do not return", E, AT(0), FILEMARKS, 1, GOES(2, 2), -1, GOES(1, 1), 0, GOES(0, 0),
            ELSEWHERE),
    BY_EACH("filemarks -1, 1 do not return", PARTED, AT(3), FILEMARKS, -1, GOES(1, 2), 1, GOES(2, 1), 0, GOES(3, 0),
            ELSEWHERE),
    BY_EACH("filemarks 1, -1 do not return, protected", GUARDED, AT(0), FILEMARKS, 1, GOES(2, 2), -1, GOES(1, 1), 0,
            GOES(0, 0), ELSEWHERE),
    BY_EACH("filemarks 1, -1 from a filemark", FILES, AT(2), FILEMARKS, 1, GOES(3, 1), -1, GOES(2, 1), 0, GOES(2, 0),
            TURNED),
    /* Mixed signs: all three GOOD, at different places. Where the second goes farther it is the same place, though Q-12
     * has no word on it. */
    BY_EACH("filemarks 2, -1 are not 1", FILES, AT(0), FILEMARKS, 2, GOES(5, 5), -1, GOES(4, 1), 1, GOES(3, 3),
            ELSEWHERE),
    BY_EACH("filemarks -2, 1 are not -1", FILES, AT(5), FILEMARKS, -2, GOES(2, 3), 1, GOES(3, 1), -1, GOES(4, 1),
            ELSEWHERE),
    BY_EACH("filemarks 1, -2 are -1", FILES, AT(3), FILEMARKS, 1, GOES(5, 2), -2, GOES(2, 3), -1, GOES(2, 1), TURNED),
};

/* ---- one way, the first GOOD: the one ends as the second does, sense and residue included */

static const struct merged merged_to_a_stop[] = {
    BY_EACH("blocks 1, 5 to end of data", FORMER_BEFORE, AT(0), BLOCKS, 1, GOES(1, 1), 5,
            STOPS(2, 1, TOLD_END_OF_DATA, 4), 6, STOPS(2, 2, TOLD_END_OF_DATA, 4), ONE_WAY),
    BY_EACH("blocks 1, 5 at end of data", TEN, AT(0), BLOCKS, 1, GOES(1, 1), 5, STOPS(1, 0, TOLD_END_OF_DATA, 5), 6,
            STOPS(1, 1, TOLD_END_OF_DATA, 5), ONE_WAY),
    BY_EACH("blocks 1, 5 to the zone", FORMER_IN, AT(0), BLOCKS, 1, GOES(1, 1), 5, STOPS(2, 1, TOLD_END_IN_ZONE, 4), 6,
            STOPS(2, 2, TOLD_END_IN_ZONE, 4), ONE_WAY),
    BY_EACH("blocks -1, -5 to the beginning", PAIR, AT(2), BLOCKS, -1, GOES(1, 1), -5,
            STOPS(0, 1, TOLD_BEGINNING, 0xfffffffc), -6, STOPS(0, 2, TOLD_BEGINNING, 0xfffffffc), ONE_WAY),
    BY_EACH("blocks 1, 5 to a filemark", PAIR, AT(0), BLOCKS, 1, GOES(1, 1), 5, STOPS(3, 2, TOLD_FILEMARK, 4), 6,
            STOPS(3, 3, TOLD_FILEMARK, 4), ONE_WAY),
    BY_EACH("blocks -1, -5 to a filemark", MIXED, AT(5), BLOCKS, -1, GOES(4, 1), -5,
            STOPS(1, 3, TOLD_FILEMARK, 0xfffffffd), -6, STOPS(1, 4, TOLD_FILEMARK, 0xfffffffd), ONE_WAY),
    BY_EACH("blocks 0, 5 to a filemark", PAIR, AT(0), BLOCKS, 0, GOES(0, 0), 5, STOPS(3, 3, TOLD_FILEMARK, 3), 5,
            STOPS(3, 3, TOLD_FILEMARK, 3), ONE_WAY),
    BY_EACH("filemarks 1, 5 to end of data", FILES, AT(0), FILEMARKS, 1, GOES(3, 3), 5,
            STOPS(5, 2, TOLD_END_OF_DATA, 4), 6, STOPS(5, 5, TOLD_END_OF_DATA, 4), ONE_WAY),
    BY_EACH("filemarks -1, -5 to the beginning", FILES, AT(5), FILEMARKS, -1, GOES(4, 1), -5,
            STOPS(0, 4, TOLD_BEGINNING, 0xfffffffc), -6, STOPS(0, 5, TOLD_BEGINNING, 0xfffffffc), ONE_WAY),
    /* A residue that just fits 32 signed bits, and one that does not. */
    BY_16("blocks 1, 2^31", PAIR, AT(0), BLOCKS, 1, GOES(1, 1), POWER_31, STOPS(3, 2, TOLD_FILEMARK, 0x7fffffff),
          POWER_31 + 1, STOPS(3, 3, TOLD_FILEMARK, 0x7fffffff), ONE_WAY),
    BY_16("blocks 1, 2^31 + 1", PAIR, AT(0), BLOCKS, 1, GOES(1, 1), POWER_31 + 1,
          TELLS(3, 2, NO_RESIDUE(TOLD_FILEMARK)), POWER_31 + 2, TELLS(3, 3, NO_RESIDUE(TOLD_FILEMARK)), ONE_WAY),
    BY_16("blocks -1, -2^31", PARTED, AT(3), BLOCKS, -1, GOES(2, 1), -POWER_31,
          STOPS(1, 1, TOLD_FILEMARK, 0x80000000), -POWER_31 - 1, STOPS(1, 2, TOLD_FILEMARK, 0x80000000), ONE_WAY),
    BY_16("blocks -1, -2^31 - 1", PARTED, AT(3), BLOCKS, -1, GOES(2, 1), -POWER_31 - 1,
          TELLS(1, 1, NO_RESIDUE(TOLD_FILEMARK)), -POWER_31 - 2, TELLS(1, 2, NO_RESIDUE(TOLD_FILEMARK)), ONE_WAY),
    BY_16("filemarks 1, 2^63 - 2", FILES, AT(0), FILEMARKS, 1, GOES(3, 3), MOST - 1,
          TELLS(5, 2, NO_RESIDUE(TOLD_END_OF_DATA)), MOST, TELLS(5, 5, NO_RESIDUE(TOLD_END_OF_DATA)), ONE_WAY),
    BY_16("blocks -1, -2^63 + 1", PAIR, AT(2), BLOCKS, -1, GOES(1, 1), LEAST + 1,
          TELLS(0, 1, NO_RESIDUE(TOLD_BEGINNING)), LEAST, TELLS(0, 2, NO_RESIDUE(TOLD_BEGINNING)), ONE_WAY),
};

/* ---- the first not GOOD: the second goes on from where it stopped, and the one does not */

static const struct merged merged_behind_a_stop[] = {
    BY_EACH("blocks 2, 1 over a filemark", PARTED, AT(0), BLOCKS, 2, STOPS(2, 2, TOLD_FILEMARK, 1), 1, GOES(3, 1), 3,
            STOPS(2, 2, TOLD_FILEMARK, 2), AS_FIRST),
    BY_EACH("blocks -2, -1 over a filemark", PARTED, AT(3), BLOCKS, -2, STOPS(1, 2, TOLD_FILEMARK, 0xffffffff), -1,
            GOES(0, 1), -3, STOPS(1, 2, TOLD_FILEMARK, 0xfffffffe), AS_FIRST),
    BY_EACH("blocks 5, 1 at a filemark", PAIR, AT(0), BLOCKS, 5, STOPS(3, 3, TOLD_FILEMARK, 3), 1,
            STOPS(3, 0, TOLD_END_OF_DATA, 1), 6, STOPS(3, 3, TOLD_FILEMARK, 4), AS_FIRST),
    BY_EACH("blocks 5, 1 at end of data", TEN, AT(0), BLOCKS, 5, STOPS(1, 1, TOLD_END_OF_DATA, 4), 1,
            STOPS(1, 0, TOLD_END_OF_DATA, 1), 6, STOPS(1, 1, TOLD_END_OF_DATA, 5), AS_FIRST),
    BY_EACH("blocks 5, 1 in the zone", LEFT_2, AT(0), BLOCKS, 5, STOPS(1, 1, TOLD_END_IN_ZONE, 4), 1,
            STOPS(1, 0, TOLD_END_IN_ZONE, 1), 6, STOPS(1, 1, TOLD_END_IN_ZONE, 5), AS_FIRST),
    BY_EACH("blocks -5, -1 at the beginning", PAIR, AT(2), BLOCKS, -5, STOPS(0, 2, TOLD_BEGINNING, 0xfffffffd), -1,
            STOPS(0, 0, TOLD_BEGINNING, 0xffffffff), -6, STOPS(0, 2, TOLD_BEGINNING, 0xfffffffc), AS_FIRST),
    BY_EACH("filemarks 5, 1 at end of data", FILES, AT(0), FILEMARKS, 5, STOPS(5, 5, TOLD_END_OF_DATA, 3), 1,
            STOPS(5, 0, TOLD_END_OF_DATA, 1), 6, STOPS(5, 5, TOLD_END_OF_DATA, 4), AS_FIRST),
    BY_EACH("filemarks -5, -1 at the beginning", FILES, AT(5), FILEMARKS, -5,
            STOPS(0, 5, TOLD_BEGINNING, 0xfffffffd), -1, STOPS(0, 0, TOLD_BEGINNING, 0xffffffff), -6,
            STOPS(0, 5, TOLD_BEGINNING, 0xfffffffc), AS_FIRST),
    BY_EACH("blocks 5, 0, of which the 0 is GOOD", PAIR, AT(0), BLOCKS, 5, STOPS(3, 3, TOLD_FILEMARK, 3), 0,
            GOES(3, 0), 5, STOPS(3, 3, TOLD_FILEMARK, 3), AS_FIRST),
    BY_16("blocks 2^31 + 1, 1: the one's residue fits no more", PAIR, AT(0), BLOCKS, POWER_31 + 1,
          STOPS(3, 3, TOLD_FILEMARK, 0x7fffffff), 1, STOPS(3, 0, TOLD_END_OF_DATA, 1), POWER_31 + 2,
          TELLS(3, 3, NO_RESIDUE(TOLD_FILEMARK)), AS_FIRST),
    BY_16("filemarks -2^31 - 2, -1: the one's residue fits no more", FILES, AT(5), FILEMARKS, -POWER_31 - 2,
          STOPS(0, 5, TOLD_BEGINNING, 0x80000000), -1, STOPS(0, 0, TOLD_BEGINNING, 0xffffffff), -POWER_31 - 3,
          TELLS(0, 5, NO_RESIDUE(TOLD_BEGINNING)), AS_FIRST),
    /* Where the two turn, the one is GOOD and hides that the first was not. */
    BY_EACH("blocks 5, -5, stopped at either end", TEN, AT(0), BLOCKS, 5, STOPS(1, 1, TOLD_END_OF_DATA, 4), -5,
            STOPS(0, 1, TOLD_BEGINNING, 0xfffffffc), 0, GOES(0, 0), ELSEWHERE),
    BY_EACH("blocks 5, -5, stopped at end of data", MIXED, AT(6), BLOCKS, 5, STOPS(7, 1, TOLD_END_OF_DATA, 4), -5,
            STOPS(5, 2, TOLD_FILEMARK, 0xfffffffc), 0, GOES(6, 0), ELSEWHERE),
    BY_EACH("blocks -5, 5, stopped at the beginning", PAIR, AT(2), BLOCKS, -5,
            STOPS(0, 2, TOLD_BEGINNING, 0xfffffffd), 5, STOPS(3, 3, TOLD_FILEMARK, 3), 0, GOES(2, 0), ELSEWHERE),
    BY_EACH("blocks 2, -2, the second GOOD", FORMER_BEFORE, AT(1), BLOCKS, 2, STOPS(2, 1, TOLD_END_OF_DATA, 1), -2,
            GOES(0, 2), 0, GOES(1, 0), ELSEWHERE),
    BY_EACH("filemarks 3, -2, stopped at end of data", FILES, AT(0), FILEMARKS, 3, STOPS(5, 5, TOLD_END_OF_DATA, 1),
            -2, GOES(2, 3), 1, GOES(3, 3), ELSEWHERE),
};

/* ---- the first ended before it acts, so that the second moves alone; and calls that are no neighbours */

/* A block of SPACE, a byte short or with a control byte, and what moves in its place. */
#define SHORT_SPACE(count) {BYTES_6 - 1, {SPACE, BLOCKS, 0, 0, count}}
#define SHORT_SPACE_16(count) {BYTES_16 - 1, {SPACE_16, BLOCKS, [11] = count}}
#define WRONG_SPACE(count) {BYTES_6, {SPACE, BLOCKS, 0, 0, count, 1}}
#define WRONG_SPACE_16(count) {BYTES_16, {SPACE_16, BLOCKS, [11] = count, [15] = 1}}
static const struct merged merged_apart[] = {
    BY_EACH("28h before blocks 2, 1", MIXED, WAITING(ATTENTION_MOUNTED, 2), BLOCKS, 2,
            TELLS(2, 0, PLAIN(TOLD_MOUNTED)), 1, GOES(3, 1), 3, TELLS(2, 0, PLAIN(TOLD_MOUNTED)), ELSEWHERE),
    BY_EACH("29h before filemarks 1, 1", FILES, WAITING(ATTENTION_FRESH, 0), FILEMARKS, 1,
            TELLS(0, 0, PLAIN(TOLD_FRESH)), 1, GOES(3, 3), 2, TELLS(0, 0, PLAIN(TOLD_FRESH)), ELSEWHERE),
    BY_EACH("28h before blocks 2, -2", MIXED, WAITING(ATTENTION_MOUNTED, 4), BLOCKS, 2,
            TELLS(4, 0, PLAIN(TOLD_MOUNTED)), -2, GOES(2, 2), 0, TELLS(4, 0, PLAIN(TOLD_MOUNTED)), ELSEWHERE),
    BY_EACH("blocks 2, 1 with nothing loaded", MIXED, EMPTY(9), BLOCKS, 2, TELLS(0, 0, NOT_LOADED), 1,
            TELLS(0, 0, NOT_LOADED), 3, TELLS(0, 0, NOT_LOADED), ONE_WAY),
    {"blocks 2 of five bytes, 1", MIXED, AT(2), {SHORT_SPACE(2), .refusal = BY_COMMAND},
     {SIX(SPACE, BLOCKS, 1), GOES(3, 1)}, {SIX(SPACE, BLOCKS, 3), GOES(5, 3)}, .relation = ELSEWHERE},
    {"blocks 2 of fifteen bytes, 1", MIXED, AT(2), {SHORT_SPACE_16(2), .refusal = BY_COMMAND},
     {SPACE_16(BLOCKS, 1), GOES(3, 1)}, {SPACE_16(BLOCKS, 3), GOES(5, 3)}, .relation = ELSEWHERE},
    {"blocks 2 with a control byte, 1", MIXED, AT(2), {WRONG_SPACE(2), TELLS(2, 0, FIELD)},
     {SIX(SPACE, BLOCKS, 1), GOES(3, 1)}, {SIX(SPACE, BLOCKS, 3), GOES(5, 3)}, .relation = ELSEWHERE},
    {"blocks 2 with a control byte, 1, by SPACE (16)", MIXED, AT(2), {WRONG_SPACE_16(2), TELLS(2, 0, FIELD)},
     {SPACE_16(BLOCKS, 1), GOES(3, 1)}, {SPACE_16(BLOCKS, 3), GOES(5, 3)}, .relation = ELSEWHERE},
    BY_EACH("blocks 1, REWIND, 1", MIXED, AT(2), BLOCKS, 1, GOES(3, 1), 1, GOES(1, 1), 2, GOES(4, 2), ELSEWHERE,
            .between = {SIX(REWIND, 0, 0), GOES(0, 0)}),
    BY_EACH("blocks 1, READ of a block, -1", MIXED, AT(2), BLOCKS, 1, GOES(3, 1), -1, GOES(3, 1), 0, GOES(2, 0),
            ELSEWHERE, .between = {SIX(READ, 0, 3), GOES(4, 0), .reads = 3}),
    BY_EACH("blocks 2, what does not move, 1", MIXED, AT(2), BLOCKS, 2, GOES(4, 2), 1, GOES(5, 1), 3, GOES(5, 3),
            ONE_WAY, .between = {SIX(TEST_UNIT_READY, 0, 0), GOES(4, 0)}),
};

static void merged_moves(void)
{
    run_merged(merged_blocks, COUNT(merged_blocks));
    run_merged(merged_filemarks, COUNT(merged_filemarks));
    run_merged(merged_to_a_stop, COUNT(merged_to_a_stop));
    run_merged(merged_behind_a_stop, COUNT(merged_behind_a_stop));
    run_merged(merged_apart, COUNT(merged_apart));
    moves_at_the_bounds();
}

#endif
