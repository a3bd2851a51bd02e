/* crossed.h: how far SPACE has gone, in either length, and what came right after it, kind by kind, counted by the
 * model's answers, the records and the partitions' own bytes. */
#ifndef CROSSED_H
#define CROSSED_H

#include "ends.h"

/* Of a SPACE that acted. */
enum crossing {
    NO_BLOCKS_ASKED, NO_MARKS_ASKED, NOTHING_LEFT, CROSSED_GOOD, CROSSED_AND_TOLD, MARK_AT_END, MARK_AT_END_BACK,
    BLOCKS_BETWEEN, BLOCKS_BETWEEN_BACK, BLOCKS_TO_THE_END, BLOCKS_TO_THE_BEGINNING, WENT_TO_END, WENT_BY_NONE,
    WAS_AT_END, FROM_0_TO_N, FROM_N_TO_0, IN_PARTITION_0, IN_PARTITION_1, CROSSINGS
};
static const char *const crossing_names[CROSSINGS] = {
    [NO_BLOCKS_ASKED] = "none, by a count of 0 blocks amid objects",
    [NO_MARKS_ASKED] = "none, by a count of 0 filemarks amid objects",
    [NOTHING_LEFT] = "none, where nothing is left",
    [CROSSED_GOOD] = "some, GOOD",
    [CROSSED_AND_TOLD] = "some, CHECK CONDITION",
    [MARK_AT_END] = "blocks, and the filemark that ends them",
    [MARK_AT_END_BACK] = "blocks back, and the filemark that ends them",
    [BLOCKS_BETWEEN] = "filemarks, and blocks between",
    [BLOCKS_BETWEEN_BACK] = "filemarks back, and blocks between",
    [BLOCKS_TO_THE_END] = "blocks, for a filemark that is not there",
    [BLOCKS_TO_THE_BEGINNING] = "blocks back, for a filemark that is not there",
    [WENT_TO_END] = "some, to end of data",
    [WENT_BY_NONE] = "some, to end of data by a count of 0",
    [WAS_AT_END] = "none, to end of data from there",
    [FROM_0_TO_N] = "N, from 0",
    [FROM_N_TO_0] = "N, back to 0",
    [IN_PARTITION_0] = "some in partition 0 of two",
    [IN_PARTITION_1] = "some in partition 1",
};

/* What became of a SPACE whose call before was a SPACE that crossed something. A number left over would show here. */
enum aftermath { CROSSED_NOTHING, MET_ATTENTION, MET_FIELD, MET_NO_CARTRIDGE, REFUSED_BY_1, REFUSED_BY_4, AFTERMATHS };
static const char *const aftermath_names[AFTERMATHS] = {
    "crosses nothing", "attention", "5/24/00", "2/3A/00", "refused by 1", "by 4"};

/* Those with two have SPACE first, and then SPACE (16). */
static struct {
    unsigned long kinds[2][CROSSINGS], after[2][AFTERMATHS];
    unsigned long command_after[256], refused_after; /* of the other commands */
    uint64_t just_before;                            /* by the call before */
} crossings;

/* ---- a SPACE */

/* The position of a command that was refused, or ended by a test, has not moved. */
static inline uint64_t distance_between(const uint8_t *before, const uint8_t *after)
{
    uint64_t from = position_in(before), to = position_in(after);
    return from < to ? to - from : from - to;
}

static inline int has_acted(uint32_t told)
{
    return TOLD_KEY(told) == KEY_NONE || TOLD_KEY(told) == KEY_BLANK;
}

static inline int64_t space_count_of(const uint8_t *block)
{
    return block[0] == SPACE ? signed_count_of(block) : (int64_t)get64(block + AT_COUNT_16);
}

/* Of one that crossed something by its count: what it was for, and what else it met. */
static inline void count_walk(unsigned long *kinds, int code, uint32_t told, int back, uint64_t blocks, uint64_t marks)
{
    int is_good = told == TOLD_GOOD;
    if (code == BLOCKS)
        kinds[back ? MARK_AT_END_BACK : MARK_AT_END] += told == TOLD_FILEMARK && blocks > 0;
    if (code == FILEMARKS && blocks > 0) {
        kinds[back ? BLOCKS_BETWEEN_BACK : BLOCKS_BETWEEN] += is_good && marks > 0;
        kinds[back ? BLOCKS_TO_THE_BEGINNING : BLOCKS_TO_THE_END] += !is_good;
    }
}

static inline void count_distance(const uint8_t *block, uint32_t told, const uint8_t *before, const uint8_t *after)
{
    unsigned long *kinds = crossings.kinds[block[0] == SPACE_16];
    enum slice slice = slice_of(after);
    uint64_t from = position_in(before), to = position_in(after), low = smaller(from, to), all = objects_in(slice);
    uint64_t crossed = distance_between(before, after), marks = filemarks_in(slice, low, low + crossed);
    int is_none = space_count_of(block) == 0, to_end = block[1] == TO_END_OF_DATA, amid = from > 0 && from < all;
    kinds[NO_BLOCKS_ASKED] += block[1] == BLOCKS && is_none && amid;
    kinds[NO_MARKS_ASKED] += block[1] == FILEMARKS && is_none && amid;
    kinds[NOTHING_LEFT] += crossed == 0 && told != TOLD_GOOD;
    kinds[WAS_AT_END] += crossed == 0 && to_end && all > 0;
    if (crossed == 0)
        return;
    kinds[told == TOLD_GOOD ? CROSSED_GOOD : CROSSED_AND_TOLD]++;
    kinds[WENT_TO_END] += (unsigned long)to_end;
    kinds[WENT_BY_NONE] += to_end && is_none;
    kinds[FROM_0_TO_N] += from == 0 && crossed == all && all > 1;
    kinds[FROM_N_TO_0] += to == 0 && crossed == all && all > 1;
    kinds[IN_PARTITION_0] += after[STORMTOGGLE_RECORD_PARTITIONS] == 2 && slice == P0;
    kinds[IN_PARTITION_1] += slice == P1;
    count_walk(kinds, block[1], told, to < from, crossed - marks, marks);
}

/* ---- what comes right after one */

static inline void count_aftermath(const uint8_t *block, unsigned refusal, uint32_t told, uint64_t crossed)
{
    unsigned long *after = crossings.after[block[0] == SPACE_16];
    if (refusal != 0) {
        after[REFUSED_BY_1] += refusal == BY_COMMAND;
        after[REFUSED_BY_4] += refusal == BY_DRIVE;
        return;
    }
    after[CROSSED_NOTHING] += has_acted(told) && crossed == 0;
    after[MET_ATTENTION] += TOLD_KEY(told) == KEY_ATTENTION;
    after[MET_FIELD] += told == TOLD_FIELD;
    after[MET_NO_CARTRIDGE] += told == TOLD_NOT_LOADED;
}

/* Of any command: by what it was refused, or what it told, and the record before and after. Returns how many objects it
 * crossed. */
static inline uint64_t count_crossing(const uint8_t *block, unsigned refusal, uint32_t told, const uint8_t *before,
                                      const uint8_t *after)
{
    int acts = is_space(block[0]) && refusal == 0 && has_acted(told);
    uint64_t crossed = acts ? distance_between(before, after) : 0;
    if (acts)
        count_distance(block, told, before, after);
    if (crossings.just_before > 0 && is_space(block[0]))
        count_aftermath(block, refusal, told, crossed);
    else if (crossings.just_before > 0 && refusal == 0)
        crossings.command_after[block[0]]++;
    else if (crossings.just_before > 0)
        crossings.refused_after++;
    return crossed;
}

#endif
