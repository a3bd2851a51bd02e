/* seen.h: what the drive is in, and numbers for a command block that are mostly to the point there. */
#ifndef SEEN_H
#define SEEN_H

#include "twin.h"

/* ---- what the drive is in, looked up so that most of the work is to the point */

static struct {
    int loaded;
    unsigned partitions, current;
    uint64_t position, block_length;
    struct tape tape; /* of the current partition; no objects if it is unsound */
} seen;

static inline void look(void)
{
    const uint8_t *record = bytes_of(RECORD, MODEL);
    enum slice slice;
    seen.loaded = 0;
    seen.partitions = seen.current = 0;
    seen.position = seen.block_length = 0;
    if (twins[RECORD].length >= RECORD_BYTES) {
        seen.loaded = record[STORMTOGGLE_RECORD_LOADED] == 1;
        seen.partitions = record[STORMTOGGLE_RECORD_PARTITIONS];
        seen.current = record[STORMTOGGLE_RECORD_CURRENT] == 1;
        seen.position = get32(record + STORMTOGGLE_RECORD_POSITION);
        seen.block_length = get32(record + STORMTOGGLE_RECORD_BLOCK_LENGTH);
    }
    slice = seen.current == 1 ? P1 : P0;
    decode(&seen.tape, bytes_of(slice, MODEL), twins[slice].length);
    if (seen.position > seen.tape.count)
        seen.position = seen.tape.count;
}

/* A command on the drive that lies there, as far as it takes to tell how many bytes it takes and gives. */
static inline struct session session_with(const uint8_t *command)
{
    const uint8_t *record = bytes_of(RECORD, MODEL);
    if (twins[RECORD].length < RECORD_BYTES)
        return (struct session){.block = command, .kept = nothing_told};
    return (struct session){
        .block = command,
        .attention = record[STORMTOGGLE_RECORD_ATTENTION],
        .block_length = get32(record + STORMTOGGLE_RECORD_BLOCK_LENGTH),
        .kept = record + STORMTOGGLE_RECORD_SENSE,
    };
}

static inline uint64_t seen_room(void)
{
    return length_is_lawful(seen.tape.length) ? room_at(&seen.tape, seen.position) : 0;
}

/* How many bytes of room the zone takes. */
static inline uint64_t seen_zone(void)
{
    return length_is_lawful(seen.tape.length) ? (seen.tape.length - TRAILER) / ZONE_SHARE : 0;
}

/* ---- the numbers in a command block */

/* Products of 2^32 and more, among them those whose low 32 bits are 0 or whose low 40 are, and merely large ones. */
static inline uint64_t large_count(void)
{
    static const uint32_t counts[] = {0x001000, 0x001001, 0x010000, 0x010001, 0x020000, 0x100000, 0x100001, 0xff0000,
                                      COUNT_SIGN, COUNT_SIGN - 1, COUNT_MOST};
    return one_in(3) ? draw(1 << COUNT_BITS) : counts[draw(COUNT(counts))];
}

static inline uint64_t read_length(int fixed)
{
    uint64_t here = 3;
    if (one_in(40))
        return large_count();
    if (fixed)
        return draw(5);
    if (seen.position < seen.tape.count && !seen.tape.objects[seen.position].is_filemark)
        here = seen.tape.objects[seen.position].end - seen.tape.objects[seen.position].start;
    switch (draw(6)) {
    case 0: return draw(6);
    case 1: case 2: return here;
    case 3: case 4: return near(here);
    default: return draw(2 * here + 2);
    }
}

/* The largest block, or the largest that there was, which has room more often. */
static inline uint64_t bound_of_blocks(void)
{
    return one_in(3) ? LARGEST_BLOCK : LARGEST_BEFORE;
}

static inline uint64_t write_length(int fixed)
{
    uint64_t room = seen_room(), bound;
    if (one_in(60))
        return large_count();
    if (fixed)
        return one_in(4) ? near(room / (seen.block_length + ENTRY)) % 4096 : draw(4);
    bound = bound_of_blocks();
    switch (draw(12)) {
    case 0: return near(less(room, ENTRY)) % (LARGEST_BLOCK + 2);
    case 1: return near(less(room, ENTRY + seen_zone())) % (LARGEST_BLOCK + 2);
    case 2: return draw(room + 6) % (LARGEST_BLOCK + 1);
    case 3: return room > bound || one_in(8) ? near(bound) : draw(30);
    case 4: return room > bound ? bound : draw(room / 4 + 2);
    case 5: return seen.block_length;
    default: return draw(9);
    }
}

/* Tens of thousands at once are rare: each makes every later call on that cartridge slow. */
static inline uint64_t filemark_count(void)
{
    uint64_t room = seen_room();
    if (room > 40000 && !one_in(20))
        return draw(6);
    switch (draw(10)) {
    case 0: return near(room / ENTRY);
    case 1: return near(less(room, seen_zone()) / ENTRY);
    case 2: return one_in(3) ? large_count() : 0;
    default: return draw(5);
    }
}

static inline uint64_t space_count(void)
{
    if (one_in(12))
        return large_count();
    return (draw(15) - 7) & COUNT_MOST;
}

/* ---- the numbers in a block of sixteen bytes */

/* Beside a power of two at which a number could be cut or take a sign; beside 2^64 are all FFh, and the smallest. */
static inline uint64_t near_power(void)
{
    static const uint8_t powers[] = {23, 24, 31, 31, 32, 32, 63, 63, 64};
    uint8_t power = powers[draw(COUNT(powers))];
    return (power == 64 ? 0 : UINT64_C(1) << power) + draw(8) - 3;
}

/* What SPACE would count from the position on, or back from it, until something stops it. */
static inline uint64_t seen_to_count(int code, int back)
{
    uint64_t counted = 0;
    for (uint64_t at = seen.position; back ? at > 0 : at < seen.tape.count; at = back ? at - 1 : at + 1) {
        int is_filemark = seen.tape.objects[back ? at - 1 : at].is_filemark;
        if (is_filemark && code == BLOCKS)
            break;
        counted += is_filemark == (code == FILEMARKS);
    }
    return counted;
}

/* Small; beside what there is to count, so that it is all done or one is left; so far beside it that what is left is
 * the last that fits 32 signed bits, or the first that does not. */
static inline uint64_t space_16_count(int code)
{
    int back = one_in(2);
    uint64_t count;
    switch (draw(6)) {
    case 0: count = near(UINT64_C(1) << 31) + seen_to_count(code, back); break;
    case 1: count = near_power(); break;
    case 2: count = one_in(4) ? draw_64() : near(seen_to_count(code, back)); break;
    default: count = draw(8); break;
    }
    return back ? -count : count;
}

/* Those that are there, those beside the last, and those that are there by some of their bits alone. */
static inline uint64_t likely_identifier(uint64_t most)
{
    switch (draw(10)) {
    case 0: return near_power();
    case 1: return (uint64_t)(1 + draw(4)) << 32 | draw(most + 2);
    case 2: return (uint64_t)draw(4) << 24 | draw(most + 2);
    case 3: return one_in(2) ? draw_64() : (uint64_t)1 << draw(64);
    case 4: case 5: return near(most);
    default: return draw(most + 1);
    }
}

#endif
