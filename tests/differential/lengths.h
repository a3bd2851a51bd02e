/* lengths.h: what calls have come to under the block length that a mount sets, with no MODE SELECT since, and under one
 * that was selected then, kind by kind, counted by the model's answers, the records and the partitions' own bytes. */
#ifndef LENGTHS_H
#define LENGTHS_H

#include "crossed.h"

/* The block length of a record at its mount, be it done or refused. */
enum length_before { OVER_0, OVER_ITS_OWN, OVER_ANOTHER, LENGTHS_BEFORE };
static const char *const length_names[LENGTHS_BEFORE] = {"0", "32,768", "another"};

/* Under the length of a mount but for the last ones, which are under one that was selected. */
enum length_kind {
    PUT_1, PUT_2, PUT_SEVERAL, PUT_INTO_ZONE, PUT_SOME, PUT_NONE, PUT_0, PUT_A_BYTE_SHORT,
    GOT_1, GOT_2, GOT_SEVERAL, GOT_ODD, GOT_THEN_ODD, GOT_THEN_MARK, GOT_THEN_END, GOT_0, GOT_A_BYTE_SHORT,
    FIXED_IN_1, FIXED_UNDER_ATTENTION, FIXED_NOT_READY, FIXED_WITH_SILI, SILI_TELLS, SILI_HIDES, VARIABLE_PUT,
    VARIABLE_GOT, SENSED_AT_ONCE, SENSED_AT_ONCE_DBD, SENSED_UNLOADED, LOADED_AS_MOUNTED, UNLOADED_AS_MOUNTED,
    MOUNTED_AGAIN, SILI_HIDES_AT_0, FIXED_AT_0, LOADED_AS_SELECTED, UNLOADED_AS_SELECTED, MOUNTED_OVER_SELECTED,
    LENGTH_KINDS
};
static const char *const length_kind_names[LENGTH_KINDS] = {
    [PUT_1] = "FIXED WRITE of 1, put",
    [PUT_2] = "FIXED WRITE of 2, both put",
    [PUT_SEVERAL] = "FIXED WRITE of more, all put",
    [PUT_INTO_ZONE] = "FIXED WRITE, all put, into the zone",
    [PUT_SOME] = "FIXED WRITE, some put and not all",
    [PUT_NONE] = "FIXED WRITE, none put",
    [PUT_0] = "FIXED WRITE of 0",
    [PUT_A_BYTE_SHORT] = "FIXED WRITE, a byte short, refused by 2",
    [GOT_1] = "FIXED READ of 1",
    [GOT_2] = "FIXED READ of 2",
    [GOT_SEVERAL] = "FIXED READ of more",
    [GOT_ODD] = "FIXED READ of a block of another length",
    [GOT_THEN_ODD] = "FIXED READ of some, then of such a block",
    [GOT_THEN_MARK] = "FIXED READ of some, then a filemark",
    [GOT_THEN_END] = "FIXED READ of some, then end of data",
    [GOT_0] = "FIXED READ of 0",
    [GOT_A_BYTE_SHORT] = "FIXED READ, a byte short, refused by 3",
    [FIXED_IN_1] = "FIXED in partition 1, some carried",
    [FIXED_UNDER_ATTENTION] = "FIXED, the mount's attention first",
    [FIXED_NOT_READY] = "FIXED with nothing loaded, 2/3A/00",
    [FIXED_WITH_SILI] = "FIXED with SILI, 5/24/00",
    [SILI_TELLS] = "SILI, a longer block, ILI",
    [SILI_HIDES] = "SILI, a shorter block, GOOD",
    [VARIABLE_PUT] = "variable WRITE, put",
    [VARIABLE_GOT] = "variable READ of a whole block",
    [SENSED_AT_ONCE] = "MODE SENSE right behind the mount",
    [SENSED_AT_ONCE_DBD] = "MODE SENSE right behind the mount, DBD",
    [SENSED_UNLOADED] = "MODE SENSE behind an unload",
    [LOADED_AS_MOUNTED] = "LOAD",
    [UNLOADED_AS_MOUNTED] = "unload",
    [MOUNTED_AGAIN] = "unload, and a mount again",
    [SILI_HIDES_AT_0] = "0 selected: SILI, a longer block, GOOD",
    [FIXED_AT_0] = "0 selected: FIXED, 5/24/00",
    [LOADED_AS_SELECTED] = "another selected: LOAD",
    [UNLOADED_AS_SELECTED] = "another selected: unload",
    [MOUNTED_OVER_SELECTED] = "another selected: unload, and a mount again",
};

/* Where the block length of a record comes from, as long as its calls follow each other. */
enum source { FROM_ELSEWHERE, FROM_MOUNT, FROM_SELECT };

static struct {
    unsigned long mounted[2][LENGTHS_BEFORE]; /* of one partition, and of two */
    unsigned long refused[BY_MOST + 1][LENGTHS_BEFORE];
    unsigned long kinds[LENGTH_KINDS];
    enum source source;
    int is_new;                 /* nothing but its attention was told since the mount */
    uint8_t left[RECORD_BYTES]; /* the record as the call before left it */
} mounts;

static inline void note_length(enum length_kind kind, int holds)
{
    mounts.kinds[kind] += holds != 0;
}

static inline uint32_t length_in(const uint8_t *record)
{
    return get32(record + STORMTOGGLE_RECORD_BLOCK_LENGTH);
}

/* A length other than the mount's, so that one in the place of the other shows. */
static inline int is_selected(const uint8_t *record)
{
    return mounts.source == FROM_SELECT && length_in(record) != MOUNTED_LENGTH;
}

/* ---- FIXED */

static inline void count_put(uint64_t asked, uint32_t told, uint64_t blocks)
{
    int all = blocks == asked && blocks > 0;
    note_length(PUT_1, all && blocks == 1);
    note_length(PUT_2, all && blocks == 2);
    note_length(PUT_SEVERAL, all && blocks > 2);
    note_length(PUT_INTO_ZONE, all && told == TOLD_ZONE);
    note_length(PUT_SOME, told == TOLD_OVERFLOW && blocks > 0);
    note_length(PUT_NONE, told == TOLD_OVERFLOW && blocks == 0);
    note_length(PUT_0, told == TOLD_GOOD && asked == 0);
}

static inline void count_got(uint64_t asked, uint32_t told, uint64_t blocks)
{
    note_length(GOT_1, told == TOLD_GOOD && blocks == 1);
    note_length(GOT_2, told == TOLD_GOOD && blocks == 2);
    note_length(GOT_SEVERAL, told == TOLD_GOOD && blocks > 2);
    note_length(GOT_ODD, told == TOLD_LENGTH && blocks == 0);
    note_length(GOT_THEN_ODD, told == TOLD_LENGTH && blocks > 0);
    note_length(GOT_THEN_MARK, told == TOLD_FILEMARK && blocks > 0);
    note_length(GOT_THEN_END, is_end_of_data(told) && blocks > 0);
    note_length(GOT_0, told == TOLD_GOOD && asked == 0);
}

static inline void count_fixed(const uint8_t *block, uint32_t told, uint64_t carried, const uint8_t *before)
{
    uint64_t blocks = carried / MOUNTED_LENGTH;
    if (block[0] == WRITE)
        count_put(count_of(block), told, blocks);
    else
        count_got(count_of(block), told, blocks);
    note_length(FIXED_IN_1, blocks > 0 && slice_of(before) == P1);
    note_length(FIXED_UNDER_ATTENTION, told == TOLD_MOUNTED);
    note_length(FIXED_NOT_READY, told == TOLD_NOT_LOADED);
    note_length(FIXED_WITH_SILI, told == TOLD_FIELD && block[0] == READ && block[1] == (FIXED | SILI));
}

/* Of one that is refused by 2 or 3. */
static inline void count_short(const uint8_t *block)
{
    uint64_t asked = (uint64_t)count_of(block) * MOUNTED_LENGTH;
    note_length(PUT_A_BYTE_SHORT, block[0] == WRITE && twins[SENT].length + 1 == asked);
    note_length(GOT_A_BYTE_SHORT, block[0] == READ && twins[RECEIVED].length + 1 == asked);
}

/* ---- the other commands */

static inline void count_variable(const uint8_t *block, uint32_t told, uint64_t carried)
{
    int is_read = block[0] == READ, hides = is_read && block[1] & SILI;
    uint64_t asked = count_of(block);
    note_length(SILI_TELLS, hides && told == TOLD_LENGTH);
    note_length(SILI_HIDES, hides && told == TOLD_GOOD && carried < asked);
    note_length(VARIABLE_PUT, !is_read && carried > 0);
    note_length(VARIABLE_GOT, is_read && told == TOLD_GOOD && carried > 0 && carried == asked);
}

/* Of a command that was not refused, under the length that the mount set. */
static inline void count_as_mounted(const uint8_t *block, uint32_t told, uint64_t carried, const uint8_t *before)
{
    int is_good = told == TOLD_GOOD;
    switch (block[0]) {
    case READ: case WRITE:
        if (is_fixed(block))
            count_fixed(block, told, carried, before);
        else
            count_variable(block, told, carried);
        break;
    case MODE_SENSE:
        note_length(SENSED_AT_ONCE, mounts.is_new && carried == MODE_BYTES);
        note_length(SENSED_AT_ONCE_DBD, mounts.is_new && is_good && block[1] & DBD);
        note_length(SENSED_UNLOADED, before[STORMTOGGLE_RECORD_LOADED] == 0 && carried == MODE_BYTES);
        break;
    case LOAD_UNLOAD: note_length(block[AT_LOAD] & LOAD ? LOADED_AS_MOUNTED : UNLOADED_AS_MOUNTED, is_good); break;
    default: break;
    }
}

/* The same under another that was selected then. The block that a READ has just passed tells how long it is. */
static inline void count_as_selected(const uint8_t *block, uint32_t told, const uint8_t *before, const uint8_t *after)
{
    int is_good = told == TOLD_GOOD, is_transfer = block[0] == READ || block[0] == WRITE;
    if (block[0] == LOAD_UNLOAD)
        note_length(block[AT_LOAD] & LOAD ? LOADED_AS_SELECTED : UNLOADED_AS_SELECTED, is_good);
    if (!is_transfer || length_in(before) != 0)
        return;
    note_length(FIXED_AT_0, told == TOLD_FIELD && block[1] == FIXED);
    if (block[0] == READ && block[1] == SILI && is_good) {
        enum slice slice = slice_of(after);
        uint64_t size = end_in(slice, position_in(after)) - end_in(slice, position_in(before));
        note_length(SILI_HIDES_AT_0, size > count_of(block));
    }
}

/* ---- the calls */

/* Before a call is counted: whether its record is the one that the call before left. */
static inline void look_at_source(const uint8_t *before)
{
    if (twins[RECORD].length != RECORD_BYTES || memcmp(before, mounts.left, RECORD_BYTES) != 0)
        mounts.source = FROM_ELSEWHERE;
}

/* And when it is counted. */
static inline void keep_source(const uint8_t *after)
{
    if (twins[RECORD].length == RECORD_BYTES)
        memcpy(mounts.left, after, RECORD_BYTES);
}

/* Of a mount with a record of thirty bytes. */
static inline void count_mount(unsigned refusal, const uint8_t *before, const uint8_t *after)
{
    uint32_t length = length_in(before);
    enum length_before over = length == 0 ? OVER_0 : length == MOUNTED_LENGTH ? OVER_ITS_OWN : OVER_ANOTHER;
    mounts.refused[refusal][over]++;
    if (refusal != 0)
        return;
    mounts.mounted[after[STORMTOGGLE_RECORD_PARTITIONS] - 1][over]++;
    note_length(MOUNTED_AGAIN, mounts.source == FROM_MOUNT);
    note_length(MOUNTED_OVER_SELECTED, is_selected(before));
    mounts.source = FROM_MOUNT;
    mounts.is_new = 1;
}

/* Of any command: by what it was refused, or what it told; carried is what the answer says. */
static inline void count_length(const uint8_t *block, unsigned refusal, uint32_t told, uint64_t carried,
                                const uint8_t *before, const uint8_t *after)
{
    if (refusal != 0) {
        if (mounts.source == FROM_MOUNT && (refusal == BY_SENT || refusal == BY_RECEIVED) && is_fixed(block))
            count_short(block);
        return;
    }
    if (mounts.source == FROM_MOUNT)
        count_as_mounted(block, told, carried, before);
    else if (is_selected(before))
        count_as_selected(block, told, before, after);
    if (told != TOLD_MOUNTED && block[0] != REQUEST_SENSE)
        mounts.is_new = 0;
    if (block[0] == MODE_SELECT && carried == MODE_BYTES)
        mounts.source = FROM_SELECT;
}

#endif
