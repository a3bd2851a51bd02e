/* tape.h: a tape whose objects follow from a seed and their lengths: put down by a host, and compared by any other. */
#ifndef TAPE_H
#define TAPE_H

#include "host.h"

/* The lengths of its objects; a filemark has length 0. */
struct known_tape {
    uint64_t seed;
    uint32_t count;
    const uint32_t *lengths;
};

static uint8_t block[LARGEST_BLOCK], room[LARGEST_BLOCK];

/* Whether the next object is the filemark or the very block that it must be. */
static inline int reads_as(const struct initiator *i, uint64_t seed, uint64_t number, uint32_t length)
{
    struct reply r = read_block(i, room);
    if (length == 0)
        return condition(&r) == FILEMARK_DETECTED;
    fill_block(block, length, seed, number);
    return condition(&r) == GOOD && r.received == length && memcmp(room, block, length) == 0;
}

/* From where the drive stands, and all of it final. The attention of a drive that has just been started is met. */
static inline int put_tape(const struct initiator *i, const struct known_tape *t)
{
    struct reply r = test_ready(i);
    for (uint32_t o = 0; o < t->count; o++) {
        fill_block(block, t->lengths[o], t->seed, o);
        r = t->lengths[o] == 0 ? write_filemarks(i, 1) : write_block(i, block, t->lengths[o]);
        if (condition(&r) != GOOD)
            return 0;
    }
    r = write_filemarks(i, 0);
    return condition(&r) == GOOD;
}

/* These objects, and then the end of data. */
static inline int is_tape(const struct initiator *i, const struct known_tape *t)
{
    struct reply r = locate(i, 0, 0);
    if (condition(&r) != GOOD)
        return 0;
    for (uint32_t o = 0; o < t->count; o++)
        if (!reads_as(i, t->seed, o, t->lengths[o]))
            return 0;
    r = read_block(i, room);
    return condition(&r) == END_OF_DATA;
}

#endif
