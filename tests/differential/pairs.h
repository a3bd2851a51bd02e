/* pairs.h: what pairs of SPACE and the one in their place have come to, kind by kind, counted by what the library
 * left. */
#ifndef PAIRS_H
#define PAIRS_H

#include "rule.h"

/* ---- the kinds */

/* Those of two GOOD moves, then of those one way of which one was stopped, then of the counts, then the others. */
enum pair_kind {
    BLOCKS_ON, BLOCKS_BACK, BLOCKS_ON_THEN_BACK, BLOCKS_BACK_THEN_ON, BLOCKS_HOME, BLOCKS_BACK_HOME, BLOCKS_NONE_FIRST,
    BLOCKS_NONE_SECOND, MARKS_ON, MARKS_BACK, MARKS_NONE_FIRST, MARKS_NONE_SECOND, MARKS_ELSEWHERE, MARKS_THERE,
    MARKS_NOT_HOME, MARKS_HOME, ON_A_PROTECTED, ON_PARTITION_1,
    SECOND_AT_MARK, SECOND_AT_END, SECOND_IN_ZONE, SECOND_AT_BEGINNING, SECOND_WITHOUT_RESIDUE,
    FIRST_AT_MARK, FIRST_AT_END, FIRST_IN_ZONE, FIRST_AT_BEGINNING, FIRST_WITHOUT_RESIDUE, ONE_WITHOUT_RESIDUE,
    SECOND_GOOD_ALONE, STOPPED_THEN_NONE, STOP_HIDDEN, MARKS_STOPPED_AND_TURNED,
    SUM_PAST_24_BITS, SUM_PAST_64_BITS, LEAST_OF_24_BITS, LENGTHS_DIFFER,
    FIRST_MET_ATTENTION, FIRST_MET_NOTHING_LOADED, FIRST_REFUSED_BY_4, FIRST_OUTSIDE_MASK, FIRST_TOO_SHORT,
    SECOND_OUTSIDE_MASK, ONE_OUTSIDE_MASK, PAIR_KINDS
};
static const char *const pair_names[PAIR_KINDS] = {
    [BLOCKS_ON] = "blocks on, both GOOD",
    [BLOCKS_BACK] = "blocks back, both GOOD",
    [BLOCKS_ON_THEN_BACK] = "blocks on and back, both GOOD",
    [BLOCKS_BACK_THEN_ON] = "blocks back and on, both GOOD",
    [BLOCKS_HOME] = "blocks on and home, both GOOD",
    [BLOCKS_BACK_HOME] = "blocks back and home, both GOOD",
    [BLOCKS_NONE_FIRST] = "no blocks and then some, both GOOD",
    [BLOCKS_NONE_SECOND] = "blocks and then none, both GOOD",
    [MARKS_ON] = "filemarks on, both GOOD",
    [MARKS_BACK] = "filemarks back, both GOOD",
    [MARKS_NONE_FIRST] = "no filemarks and then some, both GOOD",
    [MARKS_NONE_SECOND] = "filemarks and then none, both GOOD",
    [MARKS_ELSEWHERE] = "filemarks of mixed signs, all GOOD, and elsewhere",
    [MARKS_THERE] = "filemarks of mixed signs, all GOOD, and the same",
    [MARKS_NOT_HOME] = "filemarks a and -a, both GOOD, not home",
    [MARKS_HOME] = "filemarks a and -a, both GOOD, home",
    [ON_A_PROTECTED] = "both GOOD on a protected partition",
    [ON_PARTITION_1] = "both GOOD on partition 1",
    [SECOND_AT_MARK] = "one way, the second stopped at a filemark",
    [SECOND_AT_END] = "one way, the second stopped at end of data",
    [SECOND_IN_ZONE] = "one way, the second stopped at end of data in the zone",
    [SECOND_AT_BEGINNING] = "one way, the second stopped at the beginning",
    [SECOND_WITHOUT_RESIDUE] = "one way, the second's residue fits not",
    [FIRST_AT_MARK] = "one way, the first stopped at a filemark",
    [FIRST_AT_END] = "one way, the first stopped at end of data",
    [FIRST_IN_ZONE] = "one way, the first stopped at end of data in the zone",
    [FIRST_AT_BEGINNING] = "one way, the first stopped at the beginning",
    [FIRST_WITHOUT_RESIDUE] = "one way, the first's residue fits not",
    [ONE_WITHOUT_RESIDUE] = "one way, the first's residue fits, the one's does not",
    [SECOND_GOOD_ALONE] = "one way, the first stopped, the second GOOD",
    [STOPPED_THEN_NONE] = "the first stopped, the second by 0",
    [STOP_HIDDEN] = "blocks that turn, one of the two stopped, the one GOOD",
    [MARKS_STOPPED_AND_TURNED] = "filemarks that turn, one of the two stopped",
    [SUM_PAST_24_BITS] = "both fit 24 bits, the sum does not",
    [SUM_PAST_64_BITS] = "the sum does not fit 64 bits",
    [LEAST_OF_24_BITS] = "-2^23 by 24 bits, and its opposite",
    [LENGTHS_DIFFER] = "of both lengths",
    [FIRST_MET_ATTENTION] = "an attention first",
    [FIRST_MET_NOTHING_LOADED] = "nothing loaded",
    [FIRST_REFUSED_BY_4] = "refused by 4",
    [FIRST_OUTSIDE_MASK] = "the first with a bit outside its mask",
    [FIRST_TOO_SHORT] = "the first too short, refused by 1",
    [SECOND_OUTSIDE_MASK] = "the second with a bit outside its mask, or too short",
    [ONE_OUTSIDE_MASK] = "the one with a bit outside its mask, or too short",
};

static struct {
    unsigned long made, kinds[PAIR_KINDS];
} pairs;

static inline void note_pair(enum pair_kind kind, int holds)
{
    pairs.kinds[kind] += holds != 0;
}

static inline int has_residue(const struct move *move)
{
    return move->left[RECORD][STORMTOGGLE_RECORD_SENSE] == STORMTOGGLE_VALID;
}

/* ---- counting them */

static inline void count_good_blocks(int64_t a, int64_t b)
{
    note_pair(BLOCKS_ON, a > 0 && b > 0);
    note_pair(BLOCKS_BACK, a < 0 && b < 0);
    note_pair(BLOCKS_ON_THEN_BACK, a > 0 && b < 0 && a + b != 0);
    note_pair(BLOCKS_BACK_THEN_ON, a < 0 && b > 0 && a + b != 0);
    note_pair(BLOCKS_HOME, a > 0 && a + b == 0);
    note_pair(BLOCKS_BACK_HOME, a < 0 && a + b == 0);
    note_pair(BLOCKS_NONE_FIRST, a == 0 && b != 0);
    note_pair(BLOCKS_NONE_SECOND, a != 0 && b == 0);
}

static inline void count_good_marks(int64_t a, int64_t b)
{
    int is_there = position_in(pair.one.left[RECORD]) == position_in(pair.second.left[RECORD]);
    int is_mixed = !goes_one_way(), all_good = was_good(&pair.one);
    note_pair(MARKS_ON, a > 0 && b > 0);
    note_pair(MARKS_BACK, a < 0 && b < 0);
    note_pair(MARKS_NONE_FIRST, a == 0 && b != 0);
    note_pair(MARKS_NONE_SECOND, a != 0 && b == 0);
    note_pair(MARKS_ELSEWHERE, is_mixed && all_good && a + b != 0 && !is_there);
    note_pair(MARKS_THERE, is_mixed && all_good && a + b != 0 && is_there);
    note_pair(MARKS_NOT_HOME, is_mixed && a + b == 0 && !is_there);
    note_pair(MARKS_HOME, is_mixed && a + b == 0 && is_there);
}

static inline void count_both_good(void)
{
    enum slice slice = slice_of(pair.record);
    if (pair.of == BLOCKS)
        count_good_blocks(pair.first.count, pair.second.count);
    else
        count_good_marks(pair.first.count, pair.second.count);
    note_pair(ON_A_PROTECTED, get32(bytes_of(slice, MODEL) + twins[slice].length - TRAILER_FLAGS) == FLAG_PROTECTED);
    note_pair(ON_PARTITION_1, slice == P1);
}

/* One of the two came to its act and was stopped. */
static inline void count_stopped(void)
{
    const struct move *first = &pair.first, *second = &pair.second, *one = &pair.one;
    uint32_t told = told_behind(was_good(first) ? second : first);
    int one_way = goes_one_way(), by_second = was_good(first) && one_way, by_first = !was_good(first) && one_way;
    note_pair(SECOND_AT_MARK, by_second && told == TOLD_FILEMARK);
    note_pair(SECOND_AT_END, by_second && told == TOLD_END_OF_DATA);
    note_pair(SECOND_IN_ZONE, by_second && told == TOLD_END_IN_ZONE);
    note_pair(SECOND_AT_BEGINNING, by_second && told == TOLD_BEGINNING);
    note_pair(SECOND_WITHOUT_RESIDUE, by_second && !has_residue(second));
    note_pair(FIRST_AT_MARK, by_first && told == TOLD_FILEMARK);
    note_pair(FIRST_AT_END, by_first && told == TOLD_END_OF_DATA);
    note_pair(FIRST_IN_ZONE, by_first && told == TOLD_END_IN_ZONE);
    note_pair(FIRST_AT_BEGINNING, by_first && told == TOLD_BEGINNING);
    note_pair(FIRST_WITHOUT_RESIDUE, by_first && !has_residue(first));
    note_pair(ONE_WITHOUT_RESIDUE, by_first && has_residue(first) && !has_residue(one));
    note_pair(SECOND_GOOD_ALONE, by_first && was_good(second));
    note_pair(STOPPED_THEN_NONE, by_first && second->count == 0);
    note_pair(STOP_HIDDEN, pair.of == BLOCKS && !one_way && was_good(one));
    note_pair(MARKS_STOPPED_AND_TURNED, pair.of == FILEMARKS && !one_way);
}

static inline void count_pair(void)
{
    const struct move *first = &pair.first, *second = &pair.second, *one = &pair.one;
    int is_lawful = first->wrong == LAWFUL && second->wrong == LAWFUL && one->wrong == LAWFUL;
    int both_24 = fits_24_bits(first->count) && fits_24_bits(second->count);
    note_pair(FIRST_OUTSIDE_MASK, first->wrong == OUTSIDE_ITS_MASK && told_behind(first) == TOLD_FIELD);
    note_pair(FIRST_TOO_SHORT, first->wrong == TOO_SHORT && STORMTOGGLE_REFUSAL(first->answer) == BY_COMMAND);
    note_pair(SECOND_OUTSIDE_MASK, second->wrong != LAWFUL);
    note_pair(ONE_OUTSIDE_MASK, one->wrong != LAWFUL);
    if (!is_lawful)
        return;
    note_pair(FIRST_MET_ATTENTION, was_told_attention(first));
    note_pair(FIRST_MET_NOTHING_LOADED, !was_refused(first) && told_behind(first) == TOLD_NOT_LOADED);
    note_pair(FIRST_REFUSED_BY_4, STORMTOGGLE_REFUSAL(first->answer) == BY_DRIVE);
    if (!came_to_act(first))
        return;
    note_pair(SUM_PAST_24_BITS, both_24 && !fits_24_bits(one->count));
    note_pair(LEAST_OF_24_BITS, first->code == SPACE && first->count == -COUNT_SIGN && second->count == COUNT_SIGN);
    note_pair(LENGTHS_DIFFER, first->code != second->code || first->code != one->code);
    if (was_good(first) && was_good(second))
        count_both_good();
    else
        count_stopped();
}

#endif
