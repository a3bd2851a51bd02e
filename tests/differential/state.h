/* state.h: a state made at once, record and cartridge, and taken again for each call. */
#ifndef STATE_H
#define STATE_H

#include "work.h"

/* Lays so many objects, as far as they fit; of a hundred, so many are filemarks. */
static inline void lay_image(enum slice slice, size_t objects, uint32_t filemarks, uint32_t block_most)
{
    size_t length = twins[slice].length, count = 0, end = 0;
    uint8_t *image = bytes_of(slice, MODEL);
    lay_noise(slice);
    for (; count < objects; count++) {
        int is_filemark = draw(100) < filemarks;
        size_t size = is_filemark ? 0 : 1 + draw(block_most);
        if (end + size + ENTRY * (count + 1) + TRAILER > length)
            break;
        end += size;
        put32(image + entry_at(length, count), (uint32_t)end | (is_filemark ? ENTRY_FILEMARK : 0));
    }
    lay_count(image, length, count);
    put32(image + length - TRAILER_FLAGS, one_in(4) ? FLAG_PROTECTED : 0);
    put32(image + length - TRAILER_L, (uint32_t)length);
    lay(slice, 0, image, length);
}

static inline size_t objects_of(enum slice slice)
{
    if (twins[slice].length == 0)
        return 0;
    return get32(bytes_of(slice, MODEL) + twins[slice].length - TRAILER_N);
}

/* A well-formed record of a cartridge that is already laid, with any kept sense. */
static inline void lay_record(int loaded)
{
    static const uint8_t attentions[] = {ATTENTION_NONE, ATTENTION_NONE, ATTENTION_NONE, ATTENTION_NONE,
                                         ATTENTION_NONE, ATTENTION_NONE, ATTENTION_MOUNTED, ATTENTION_FRESH};
    static const uint32_t lengths[] = {0, 0, 1, 2, 3, 4, MOUNTED_LENGTH, LARGEST_BEFORE, LARGEST_BEFORE + 1,
                                       LARGEST_BLOCK - 1, LARGEST_BLOCK};
    uint8_t record[RECORD_BYTES] = {0};
    memcpy(record + STORMTOGGLE_RECORD_SENSE, noise + draw(1000), SENSE_BYTES);
    record[STORMTOGGLE_RECORD_ATTENTION] = attentions[draw(COUNT(attentions))];
    put32(record + STORMTOGGLE_RECORD_BLOCK_LENGTH, lengths[draw(COUNT(lengths))]);
    if (loaded) {
        uint32_t partitions = (twins[P1].length == 0) == !one_in(12) ? 1 : 2; /* at times not the number lent */
        uint32_t current = draw(partitions);
        record[STORMTOGGLE_RECORD_LOADED] = 1;
        record[STORMTOGGLE_RECORD_PARTITIONS] = (uint8_t)partitions;
        record[STORMTOGGLE_RECORD_CURRENT] = (uint8_t)current;
        put32(record + STORMTOGGLE_RECORD_POSITION, draw(objects_of(current == 0 ? P0 : P1) + 1));
    }
    place(RECORD, RECORD_BYTES);
    lay(RECORD, 0, record, RECORD_BYTES);
}

static struct {
    uint8_t record[RECORD_BYTES], image[2][256];
} kept;

static inline void keep_state(void)
{
    memcpy(kept.record, bytes_of(RECORD, MODEL), RECORD_BYTES);
    memcpy(kept.image[0], bytes_of(P0, MODEL), twins[P0].length);
    memcpy(kept.image[1], bytes_of(P1, MODEL), twins[P1].length);
}

static inline void lay_state(void)
{
    place(P0, SHORTEST + draw(100));
    place(P1, one_in(2) ? SHORTEST + draw(100) : 0);
    lay_image(P0, draw(7), 40, 9);
    if (twins[P1].length > 0)
        lay_image(P1, draw(7), 40, 9);
    lay_record(!one_in(4));
    keep_state();
}

static inline void lay_state_again(void)
{
    lay(RECORD, 0, kept.record, RECORD_BYTES);
    lay(P0, 0, kept.image[0], twins[P0].length);
    lay(P1, 0, kept.image[1], twins[P1].length);
}

#endif
