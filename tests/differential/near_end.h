/* near_end.h: work at end of data: partitions that end before the zone, on its bound and in it, under every command
 * that meets their end, and under those that come there GOOD. */
#ifndef NEAR_END_H
#define NEAR_END_H

#include "vast.h"

/* ---- partitions that end at a given room */

/* Lays objects that take just so many bytes, an entry each and their data; none takes less than an entry. */
static inline void lay_objects(enum slice slice, uint64_t bytes)
{
    size_t length = twins[slice].length, count = 0, end = 0;
    uint8_t *image = bytes_of(slice, MODEL);
    lay_noise(slice);
    for (uint64_t rest = bytes; rest > 0; count++) {
        int is_filemark = rest == ENTRY || (rest >= 2 * ENTRY && one_in(3));
        size_t most = (size_t)(rest - ENTRY), size = is_filemark ? 0 : 1 + draw(one_in(2) ? smaller(most, 9) : most);
        if (most - size > 0 && most - size < ENTRY)
            size = most;
        end += size;
        put32(image + entry_at(length, count), (uint32_t)end | (is_filemark ? ENTRY_FILEMARK : 0));
        rest = most - size;
    }
    lay_count(image, length, count);
    put32(image + length - TRAILER_FLAGS, one_in(4) ? FLAG_PROTECTED : 0);
    put32(image + length - TRAILER_L, (uint32_t)length);
    lay(slice, 0, image, length);
}

/* Rooms at N: none, two bytes around the zone's bound on either side, much, and all that there is on a blank. */
enum { ROOMS = 7 };
static inline uint64_t room_to_leave(size_t length, unsigned kind)
{
    /* The least room that is not in the zone; where sixteen divides the length it is on the bound. */
    uint64_t all = length - TRAILER, bound = (all + ZONE_SHARE - 1) / ZONE_SHARE;
    switch (kind) {
    case 0: return 0;
    case 1: return bound - 2;
    case 2: return bound - 1;
    case 3: return bound;
    case 4: return bound + 1;
    case 5: return all / 2;
    default: return all;
    }
}

/* Where sixteen divides the length or not; in the longer ones the zone is wider than an entry. */
static inline size_t length_near_end(void)
{
    switch (draw(4)) {
    case 0: return SHORTEST;
    case 1: return SHORTEST + ZONE_SHARE * draw(60);
    case 2: return SHORTEST + draw(40);
    default: return SHORTEST + draw(1000);
    }
}

static inline void lay_partition(enum slice slice, unsigned room_kind)
{
    place(slice, length_near_end());
    lay_objects(slice, twins[slice].length - TRAILER - room_to_leave(twins[slice].length, room_kind));
}

/* ---- where a command begins */

static inline int is_mark(enum slice slice, uint64_t object)
{
    return filemarks_in(slice, object, object + 1) == 1;
}

/* At N, behind the last filemark, so that blocks can be passed to the end, or anywhere. */
static inline uint64_t place_to_begin(enum slice slice)
{
    uint64_t count = objects_in(slice), from = count;
    if (one_in(3))
        return count;
    if (one_in(3))
        return draw(count + 1);
    while (from > 0 && !is_mark(slice, from - 1))
        from--;
    return from;
}

/* The block length is that of the last block, so that FIXED reads it and then meets the end. */
static inline void begin_in(unsigned current)
{
    enum slice slice = current == 0 ? P0 : P1;
    uint64_t count = objects_in(slice), last = count == 0 ? 0 : end_in(slice, count) - end_in(slice, count - 1);
    uint8_t record[RECORD_BYTES] = {[STORMTOGGLE_RECORD_LOADED] = 1};
    memcpy(record + STORMTOGGLE_RECORD_SENSE, noise + draw(1000), SENSE_BYTES);
    record[STORMTOGGLE_RECORD_PARTITIONS] = twins[P1].length == 0 ? 1 : 2;
    record[STORMTOGGLE_RECORD_CURRENT] = (uint8_t)current;
    put32(record + STORMTOGGLE_RECORD_POSITION, (uint32_t)place_to_begin(slice));
    put32(record + STORMTOGGLE_RECORD_BLOCK_LENGTH, (uint32_t)(last == 0 || one_in(4) ? 1 + draw(9) : last));
    place(RECORD, RECORD_BYTES);
    lay(RECORD, 0, record, RECORD_BYTES);
    look();
}

/* ---- the commands */

/* One more than there is, or far more, in so many bits. */
static inline uint64_t past(uint64_t most, unsigned bits)
{
    return most + 1 + (one_in(2) ? 0 : draw_64() >> (65 - bits));
}

/* The target of LOCATE, named with CP if it is another one, and at times if it is not. */
static inline uint8_t choose_target(unsigned current)
{
    unsigned target = twins[P1].length == 0 ? 0 : draw(2);
    vast = target == 0 ? P0 : P1;
    return target != current || one_in(4) ? CP : 0;
}

static inline void meet_end(enum ending ending, unsigned current)
{
    uint8_t named;
    begin_in(current);
    named = choose_target(current);
    switch (ending) {
    case BY_READ: send(READ, one_in(3) * SILI, 1 + draw(40)); break;
    case BY_FIXED_READ: send(READ, FIXED, seen.tape.count - seen.position + 1 + draw(3)); break;
    case BY_SPACE_OF_BLOCKS: send(SPACE, BLOCKS, past(seen_to_count(BLOCKS, 0), COUNT_BITS - 1)); break;
    case BY_SPACE_OF_MARKS: send(SPACE, FILEMARKS, past(seen_to_count(FILEMARKS, 0), COUNT_BITS - 1)); break;
    case BY_SPACE_16_OF_BLOCKS: send(SPACE_16, BLOCKS, past(seen_to_count(BLOCKS, 0), 63)); break;
    case BY_SPACE_16_OF_MARKS: send(SPACE_16, FILEMARKS, past(seen_to_count(FILEMARKS, 0), 63)); break;
    case BY_LOCATE: send(LOCATE, named, past(objects_in(vast), 32)); break;
    case BY_LOCATE_16_TO_OBJECT: send(LOCATE_16, named | TO_OBJECT, past(objects_in(vast), 64)); break;
    default: send(LOCATE_16, named | TO_FILE, past(filemarks_in(vast, 0, objects_in(vast)), 64)); break;
    }
}

static inline void arrive(enum arrival arrival, unsigned current)
{
    uint8_t named;
    begin_in(current);
    named = choose_target(current);
    switch (arrival) {
    case SPACED_TO_N: send(SPACE, TO_END_OF_DATA, draw_64()); break;
    case SPACED_16_TO_N: send(SPACE_16, TO_END_OF_DATA, draw_64()); break;
    case OBJECT_AT_N: send(LOCATE, named, objects_in(vast)); break;
    case OBJECT_16_AT_N: send(LOCATE_16, named | TO_OBJECT, objects_in(vast)); break;
    case FILE_16_AT_N: send(LOCATE_16, named | TO_FILE, filemarks_in(vast, 0, objects_in(vast))); break;
    case END_16_AT_N: send(LOCATE_16, named | TO_END, draw_64()); break;
    case BLOCKS_AT_N: send(one_in(2) ? SPACE : SPACE_16, BLOCKS, seen_to_count(BLOCKS, 0)); break;
    default: send(one_in(2) ? SPACE : SPACE_16, FILEMARKS, seen_to_count(FILEMARKS, 0)); break;
    }
}

/* ---- the work */

static inline void run_commands_near_end(unsigned current)
{
    for (int ending = 0; ending < ENDINGS; ending++)
        meet_end((enum ending)ending, current);
    for (int arrival = 0; arrival < ARRIVALS; arrival++)
        arrive((enum arrival)arrival, current);
}

/* Every room of either partition, in turn, alone and beside one that ends anywhere. */
static inline void run_near_end(void)
{
    for (unsigned kind = 0; kind < ROOMS; kind++) {
        lay_partition(P0, kind);
        place(P1, 0);
        run_commands_near_end(0);
        lay_partition(P1, draw(ROOMS));
        run_commands_near_end(0);
        lay_partition(P0, draw(ROOMS));
        lay_partition(P1, kind);
        run_commands_near_end(1);
    }
}

#endif
