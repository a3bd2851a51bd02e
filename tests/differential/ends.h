/* ends.h: where commands have met end of data, or come to it GOOD, by how N of the partition lies to the zone, counted
 * by the model's answers and the partitions' own bytes. */
#ifndef ENDS_H
#define ENDS_H

#include "moves.h"

/* By which command end of data is met. */
enum ending {
    BY_READ, BY_FIXED_READ, BY_SPACE_OF_BLOCKS, BY_SPACE_OF_MARKS, BY_SPACE_16_OF_BLOCKS, BY_SPACE_16_OF_MARKS,
    BY_LOCATE, BY_LOCATE_16_TO_OBJECT, BY_LOCATE_16_TO_FILE, ENDINGS
};
static const char *const ending_names[ENDINGS] = {
    [BY_READ] = "READ",
    [BY_FIXED_READ] = "FIXED READ",
    [BY_SPACE_OF_BLOCKS] = "SPACE of blocks",
    [BY_SPACE_OF_MARKS] = "SPACE of filemarks",
    [BY_SPACE_16_OF_BLOCKS] = "SPACE (16) of blocks",
    [BY_SPACE_16_OF_MARKS] = "SPACE (16) of filemarks",
    [BY_LOCATE] = "LOCATE",
    [BY_LOCATE_16_TO_OBJECT] = "LOCATE (16) to an object",
    [BY_LOCATE_16_TO_FILE] = "LOCATE (16) to a file",
};

/* How N lies to the zone: by more bytes of room than one before it, by one, or on the very bound; in it by a byte of
 * room, so that with one more N were before it or on the bound, or by more. */
enum place { BEFORE, JUST_BEFORE, ON_THE_BOUND, JUST_IN, FURTHER_IN, PLACES };
static const char *const place_names[PLACES] = {
    "before the zone", "by a byte", "on its bound", "in it by a byte", "by more"};

/* GOOD, at N. */
enum arrival {
    SPACED_TO_N, SPACED_16_TO_N, OBJECT_AT_N, OBJECT_16_AT_N, FILE_16_AT_N, END_16_AT_N, BLOCKS_AT_N, MARKS_AT_N,
    ARRIVALS
};
static const char *const arrival_names[ARRIVALS] = {
    [SPACED_TO_N] = "SPACE to end of data",
    [SPACED_16_TO_N] = "SPACE (16) to end of data",
    [OBJECT_AT_N] = "LOCATE",
    [OBJECT_16_AT_N] = "LOCATE (16) to an object",
    [FILE_16_AT_N] = "LOCATE (16) to a file",
    [END_16_AT_N] = "LOCATE (16) to end of data",
    [BLOCKS_AT_N] = "SPACE of blocks, either length",
    [MARKS_AT_N] = "SPACE of filemarks, either length",
};

/* Those with two have the number of ends before the zone first, and then of those in it. */
static struct {
    unsigned long met[ENDINGS][PLACES];
    unsigned long beside[ENDINGS][2];    /* where the other partition ends on the zone's other side */
    unsigned long changed[ENDINGS][2];   /* the same, and LOCATE came from there */
    unsigned long begun_before[ENDINGS]; /* in the zone, from a position of the same partition that is not */
    unsigned long good[ARRIVALS][2];
    unsigned long without_residue[2]; /* in the zone by SPACE (16), by its code */
} ends;

/* ---- the zone, by the bytes */

static inline int is_in_zone(enum slice slice, uint64_t n)
{
    return room_in(slice, n) * ZONE_SHARE < twins[slice].length - TRAILER;
}

static inline enum place place_of_end(enum slice slice)
{
    uint64_t share = room_in(slice, objects_in(slice)) * ZONE_SHARE, bound = twins[slice].length - TRAILER;
    if (share == bound)
        return ON_THE_BOUND;
    if (share > bound)
        return share - ZONE_SHARE < bound ? JUST_BEFORE : BEFORE;
    return share + ZONE_SHARE >= bound ? JUST_IN : FURTHER_IN;
}

/* ---- the commands */

static inline int is_locating(enum ending ending)
{
    return ending >= BY_LOCATE;
}

/* Of a command that has met end of data. */
static inline enum ending ending_of(const uint8_t *block)
{
    switch (block[0]) {
    case READ: return is_fixed(block) ? BY_FIXED_READ : BY_READ;
    case SPACE: return block[1] == BLOCKS ? BY_SPACE_OF_BLOCKS : BY_SPACE_OF_MARKS;
    case SPACE_16: return block[1] == BLOCKS ? BY_SPACE_16_OF_BLOCKS : BY_SPACE_16_OF_MARKS;
    case LOCATE: return BY_LOCATE;
    default: return (block[1] & DESTINATION) == TO_FILE ? BY_LOCATE_16_TO_FILE : BY_LOCATE_16_TO_OBJECT;
    }
}

/* Of a command that has ended GOOD at N; ARRIVALS if it is none that was sent there. */
static inline enum arrival arrival_of(const uint8_t *block)
{
    switch (block[0]) {
    case SPACE: case SPACE_16:
        if (block[1] == TO_END_OF_DATA)
            return block[0] == SPACE ? SPACED_TO_N : SPACED_16_TO_N;
        return block[1] == BLOCKS ? BLOCKS_AT_N : MARKS_AT_N;
    case LOCATE: return OBJECT_AT_N;
    case LOCATE_16:
        if ((block[1] & DESTINATION) == TO_END)
            return END_16_AT_N;
        return (block[1] & DESTINATION) == TO_FILE ? FILE_16_AT_N : OBJECT_16_AT_N;
    default: return ARRIVALS;
    }
}

static inline void count_meeting(const uint8_t *block, const uint8_t *before, const uint8_t *after)
{
    enum ending ending = ending_of(block);
    enum slice slice = slice_of(after), other = (enum slice)(P0 + P1 - slice);
    int in = is_in_zone(slice, objects_in(slice)), is_other = slice_of(before) != slice;
    ends.met[ending][place_of_end(slice)]++;
    ends.begun_before[ending] += in && !is_other && !is_in_zone(slice, position_in(before));
    if (after[STORMTOGGLE_RECORD_PARTITIONS] == 2 && is_in_zone(other, objects_in(other)) != in) {
        ends.beside[ending][in]++;
        ends.changed[ending][in] += (unsigned long)is_other;
    }
    if (in && block[0] == SPACE_16)
        ends.without_residue[block[1]] +=
            after[STORMTOGGLE_RECORD_SENSE + STORMTOGGLE_SENSE_FIRST] == STORMTOGGLE_NOT_VALID;
}

/* A SPACE of blocks or filemarks that was none, or back, has not come to N. */
static inline void count_arrival_at_n(const uint8_t *block, const uint8_t *before, const uint8_t *after)
{
    enum slice slice = slice_of(after);
    enum arrival arrival = arrival_of(block);
    int is_counted = arrival == BLOCKS_AT_N || arrival == MARKS_AT_N;
    if (arrival == ARRIVALS || position_in(after) != objects_in(slice))
        return;
    if (!is_counted || position_in(before) < position_in(after))
        ends.good[arrival][is_in_zone(slice, position_in(after))]++;
}

/* Of a command that was not refused and left its cartridge loaded: what it told, and the record before and after. */
static inline void count_end(const uint8_t *block, uint32_t told, const uint8_t *before, const uint8_t *after)
{
    if (is_end_of_data(told))
        count_meeting(block, before, after);
    else if (told == TOLD_GOOD)
        count_arrival_at_n(block, before, after);
}

#endif
