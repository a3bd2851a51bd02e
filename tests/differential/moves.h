/* moves.h: what LOCATE (16) and SPACE (16) have come to, kind by kind, counted by the model's answers. */
#ifndef MOVES_H
#define MOVES_H

#include "rooms.h"

/* How LOCATE (16) ended, by its destination. */
enum outcome { GOES_THERE, GOES_TO_N, HAS_NO_PARTITION, IS_NOT_READY, IS_WRONG_LOADED, IS_WRONG_UNLOADED, OUTCOMES };
static const char *const outcome_names[OUTCOMES] = {
    "good", "8/00/05", "no partition", "2/3A/00", "5/24/00 loaded", "and unloaded",
};

/* What stopped SPACE (16), and how its residue lies to those that fit 32 signed bits. */
enum stop {
    BLOCKS_TO_MARK, BLOCKS_TO_END, BLOCKS_BACK_TO_MARK, BLOCKS_TO_BEGINNING, MARKS_TO_END, MARKS_TO_BEGINNING, STOPS
};
enum residue { FITS, FITS_JUST, FITS_NOT_BY_ONE, FITS_NOT, RESIDUES };
static const char *const stop_names[STOPS] = {
    "blocks, at a filemark", "blocks, at end of data", "blocks back, at a filemark", "blocks back, at the beginning",
    "filemarks, at end of data", "filemarks back, at the beginning",
};
static const char *const residue_names[RESIDUES] = {"fits", "just fits", "by one not", "fits not"};

enum move_kind {
    OBJECT_N, OBJECT_NEXT, OBJECT_BY_LOW_BITS, FILE_0, FILE_BACK, FILE_LAST, FILE_LAST_AT_N, FILE_NEXT,
    FILE_BY_LOW_BITS, END_WITH_IDENTIFIER, PARTITION_CHANGED, PARTITION_CHANGED_PAST, PARTITION_IGNORED, BYTE_8_SET,
    BLOCKS_DONE, BLOCKS_DONE_BACK, MARKS_DONE, MARKS_DONE_BACK, NONE_TO_SPACE, SPACED_TO_END, CODE_WRONG,
    SPACE_NOT_READY, COUNT_LEAST_OF_ALL, COUNT_MOST_OF_ALL, ATTENTION_FIRST, OUTSIDE_MASK, ONE_BYTE_SHORT, MOVE_KINDS
};
static const char *const move_names[MOVE_KINDS] = {
    [OBJECT_N] = "LOCATE (16) to object N",
    [OBJECT_NEXT] = "LOCATE (16) to object N + 1",
    [OBJECT_BY_LOW_BITS] = "LOCATE (16) to an object that is there by its low 32 bits alone",
    [FILE_0] = "LOCATE (16) to file 0",
    [FILE_BACK] = "LOCATE (16) to a file that starts before the position",
    [FILE_LAST] = "LOCATE (16) to the last file",
    [FILE_LAST_AT_N] = "LOCATE (16) to the last file, which is empty",
    [FILE_NEXT] = "LOCATE (16) to the file behind the last",
    [FILE_BY_LOW_BITS] = "LOCATE (16) to a file that is there by its low 32 bits alone",
    [END_WITH_IDENTIFIER] = "LOCATE (16) to end of data, with an identifier past it",
    [PARTITION_CHANGED] = "LOCATE (16) to the other partition",
    [PARTITION_CHANGED_PAST] = "LOCATE (16) past the end of the other partition",
    [PARTITION_IGNORED] = "LOCATE (16) without CP, a partition that is not there",
    [BYTE_8_SET] = "LOCATE (16) with byte 8 set, and another partition named",
    [BLOCKS_DONE] = "SPACE (16) of blocks, done",
    [BLOCKS_DONE_BACK] = "SPACE (16) of blocks back, done",
    [MARKS_DONE] = "SPACE (16) of filemarks, done",
    [MARKS_DONE_BACK] = "SPACE (16) of filemarks back, done",
    [NONE_TO_SPACE] = "SPACE (16) of none of them",
    [SPACED_TO_END] = "SPACE (16) to end of data",
    [CODE_WRONG] = "SPACE (16) with a code that is not served",
    [SPACE_NOT_READY] = "SPACE (16) with nothing loaded, 2/3A/00",
    [COUNT_LEAST_OF_ALL] = "SPACE (16) by -2^63",
    [COUNT_MOST_OF_ALL] = "SPACE (16) by 2^63 - 1",
    [ATTENTION_FIRST] = "either, an attention first",
    [OUTSIDE_MASK] = "either, a bit outside the mask",
    [ONE_BYTE_SHORT] = "either, of fifteen bytes",
};

static struct {
    unsigned long ended[DESTINATIONS][OUTCOMES], stopped[STOPS][RESIDUES], kinds[MOVE_KINDS];
} long_moves;

static inline void note_move(enum move_kind kind, int holds)
{
    long_moves.kinds[kind] += holds != 0;
}

/* ---- the cartridge, by its bytes */

static inline enum slice slice_of(const uint8_t *record)
{
    return record[STORMTOGGLE_RECORD_CURRENT] == 0 ? P0 : P1;
}

static inline uint64_t position_in(const uint8_t *record)
{
    return get32(record + STORMTOGGLE_RECORD_POSITION);
}

static inline uint64_t objects_in(enum slice slice)
{
    return get32(bytes_of(slice, MODEL) + twins[slice].length - TRAILER_N);
}

static inline uint64_t end_in(enum slice slice, uint64_t n)
{
    return n == 0 ? 0 : end_in_entry(bytes_of(slice, MODEL), twins[slice].length, n - 1);
}

static inline uint64_t room_in(enum slice slice, uint64_t n)
{
    return twins[slice].length - TRAILER - ENTRY * n - end_in(slice, n);
}

static inline uint64_t filemarks_in(enum slice slice, uint64_t from, uint64_t to)
{
    uint64_t filemarks = 0;
    for (uint64_t i = from; i < to; i++)
        filemarks += get32(bytes_of(slice, MODEL) + entry_at(twins[slice].length, i)) >= ENTRY_FILEMARK;
    return filemarks;
}

/* ---- LOCATE (16) */

static inline int is_end_of_data(uint32_t told)
{
    return told == TOLD_END_OF_DATA || told == TOLD_END_IN_ZONE;
}

static inline int is_there_by_low_bits(uint64_t identifier, uint64_t most)
{
    return identifier > UINT32_MAX && (uint32_t)identifier <= most;
}

/* Of one that went as far as it could, or just there. */
static inline void count_arrival(const uint8_t *block, int is_good, const uint8_t *before, const uint8_t *after)
{
    uint64_t identifier = get64(block + AT_IDENTIFIER), count = objects_in(slice_of(after));
    uint64_t position = position_in(after), filemarks;
    uint8_t destination = block[1] & DESTINATION;
    int is_other = slice_of(before) != slice_of(after);
    note_move(OBJECT_N, is_good && destination == TO_OBJECT && identifier == count);
    note_move(OBJECT_NEXT, !is_good && destination == TO_OBJECT && identifier == count + 1);
    note_move(OBJECT_BY_LOW_BITS, !is_good && destination == TO_OBJECT && is_there_by_low_bits(identifier, count));
    note_move(END_WITH_IDENTIFIER, is_good && destination == TO_END && identifier > count);
    note_move(PARTITION_CHANGED, is_good && is_other);
    note_move(PARTITION_CHANGED_PAST, !is_good && is_other);
    note_move(PARTITION_IGNORED,
              is_good && !(block[1] & CP) && block[AT_PARTITION_16] >= before[STORMTOGGLE_RECORD_PARTITIONS]);
    note_move(BYTE_8_SET, block[1] & CP && block[AT_PARTITION] == 1 && block[AT_PARTITION_16] == 0);
    if (destination != TO_FILE)
        return;
    filemarks = filemarks_in(slice_of(after), 0, count);
    note_move(FILE_0, is_good && identifier == 0 && position_in(before) > 0);
    note_move(FILE_BACK, is_good && identifier > 0 && !is_other && position < position_in(before));
    note_move(FILE_LAST, is_good && identifier > 0 && identifier == filemarks && position < count);
    note_move(FILE_LAST_AT_N, is_good && identifier > 0 && identifier == filemarks && position == count);
    note_move(FILE_NEXT, !is_good && identifier == filemarks + 1);
    note_move(FILE_BY_LOW_BITS, !is_good && is_there_by_low_bits(identifier, filemarks));
}

static inline void count_locate_16(const uint8_t *block, uint32_t told, const uint8_t *before, const uint8_t *after)
{
    unsigned long *ended = long_moves.ended[(block[1] & DESTINATION) / DESTINED(1)];
    int is_served = !destination_is_wrong(block), loaded = before[STORMTOGGLE_RECORD_LOADED] == 1;
    switch (told) {
    case TOLD_GOOD: ended[GOES_THERE]++; break;
    case TOLD_END_OF_DATA: case TOLD_END_IN_ZONE: ended[GOES_TO_N]++; break;
    case TOLD_NOT_LOADED: ended[IS_NOT_READY]++; break;
    default: ended[is_served ? HAS_NO_PARTITION : loaded ? IS_WRONG_LOADED : IS_WRONG_UNLOADED]++; break;
    }
    if (told == TOLD_GOOD || is_end_of_data(told))
        count_arrival(block, told == TOLD_GOOD, before, after);
}

/* ---- SPACE (16) */

static inline enum residue residue_kind(int64_t residue)
{
    if (residue == INT32_MAX || residue == INT32_MIN)
        return FITS_JUST;
    if (residue == (int64_t)INT32_MAX + 1 || residue == (int64_t)INT32_MIN - 1)
        return FITS_NOT_BY_ONE;
    return residue > INT32_MIN && residue < INT32_MAX ? FITS : FITS_NOT;
}

static inline enum stop stop_kind(int of_blocks, int back, int at_filemark)
{
    if (!of_blocks)
        return back ? MARKS_TO_BEGINNING : MARKS_TO_END;
    if (at_filemark)
        return back ? BLOCKS_BACK_TO_MARK : BLOCKS_TO_MARK;
    return back ? BLOCKS_TO_BEGINNING : BLOCKS_TO_END;
}

static inline void count_stop(const uint8_t *block, uint32_t told, const uint8_t *before, const uint8_t *after)
{
    int64_t count = (int64_t)get64(block + AT_COUNT_16), counted;
    uint64_t from = position_in(before), to = position_in(after);
    uint64_t filemarks = filemarks_in(slice_of(after), smaller(from, to), from + to - smaller(from, to));
    int of_blocks = block[1] == BLOCKS, back = count < 0;
    enum stop stop = stop_kind(of_blocks, back, told == TOLD_FILEMARK);
    /* A filemark that stops the blocks is crossed, and not counted. */
    counted = (int64_t)(of_blocks ? (back ? from - to : to - from) - filemarks : filemarks);
    long_moves.stopped[stop][residue_kind(back ? count + counted : count - counted)]++;
}

static inline void count_space_16(const uint8_t *block, uint32_t told, const uint8_t *before, const uint8_t *after)
{
    int64_t count = (int64_t)get64(block + AT_COUNT_16);
    int is_good = told == TOLD_GOOD && count != 0;
    note_move(CODE_WRONG, told == TOLD_FIELD);
    note_move(SPACE_NOT_READY, told == TOLD_NOT_LOADED);
    note_move(SPACED_TO_END, told == TOLD_GOOD && block[1] == TO_END_OF_DATA);
    if (told == TOLD_FIELD || told == TOLD_NOT_LOADED || block[1] == TO_END_OF_DATA)
        return;
    note_move(NONE_TO_SPACE, count == 0);
    note_move(BLOCKS_DONE, is_good && block[1] == BLOCKS && count > 0);
    note_move(BLOCKS_DONE_BACK, is_good && block[1] == BLOCKS && count < 0);
    note_move(MARKS_DONE, is_good && block[1] == FILEMARKS && count > 0);
    note_move(MARKS_DONE_BACK, is_good && block[1] == FILEMARKS && count < 0);
    note_move(COUNT_LEAST_OF_ALL, count == INT64_MIN);
    note_move(COUNT_MOST_OF_ALL, count == INT64_MAX);
    if (told != TOLD_GOOD)
        count_stop(block, told, before, after);
}

/* ---- either */

static inline int is_long_move(uint8_t code)
{
    return code == LOCATE_16 || code == SPACE_16;
}

static inline int is_outside_mask(const uint8_t *block)
{
    int outside = 0;
    for (unsigned i = 1; i < BYTES_16; i++)
        outside |= block[i] & ~served_as(block[0])->mask[i];
    return outside != 0;
}

/* Of one that was not refused: what it told, and the record before and after. */
static inline void count_move(const uint8_t *block, uint32_t told, const uint8_t *before, const uint8_t *after)
{
    int attention = told == TOLD_MOUNTED || told == TOLD_FRESH, outside = is_outside_mask(block);
    note_move(ATTENTION_FIRST, attention);
    note_move(OUTSIDE_MASK, !attention && outside);
    if (attention || outside)
        return;
    if (block[0] == LOCATE_16)
        count_locate_16(block, told, before, after);
    else
        count_space_16(block, told, before, after);
}

#endif
