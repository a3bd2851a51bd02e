/* image.h: a partition image in plain C, written from 01 and 02 alone: laid, judged and looked up. */
#ifndef IMAGE_H
#define IMAGE_H

#include "check.h"

/* The largest block of document 01, before Q-7 of 02 raises it: a length like any other now, and so is one more. */
enum { FORMER_LARGEST = 65536 };

/* Example E as 01 prints it: block 01 02 03, then a filemark. */
static const uint8_t example_e[E_BYTES] = {
    [0] = 0x01, 0x02, 0x03,
    [40] = 0x80, 0x00, 0x00, 0x03,
    [44] = 0x00, 0x00, 0x00, 0x03,
    [48] = 0x00, 0x00, 0x00, 0x02,
    [52] = 0x00, 0x00, 0x00, 0x00,
    [56] = 0x00, 0x00, 0x00, 0x28,
    [60] = 0x00, 0x00, 0x00, 0x40,
};

static inline uint32_t get_field(const uint8_t *image, size_t length, enum field field)
{
    return get32(image + length - field);
}

static inline void set_field(uint8_t *image, size_t length, enum field field, uint32_t value)
{
    put32(image + length - field, value);
}

static inline void set_entry(uint8_t *image, size_t length, size_t object, uint32_t entry)
{
    put32(image + length - TRAILER - ENTRY * (object + 1), entry);
}

/* end(n): where the data of the objects before n ends. */
static inline size_t end_at(const uint8_t *image, size_t length, size_t number)
{
    return number == 0 ? 0 : get32(image + length - TRAILER - ENTRY * number) & ENTRY_END;
}

/* Lays the trailer of so many objects. */
static inline void lay_trailer(uint8_t *image, size_t length, size_t objects, uint32_t flags)
{
    set_field(image, length, TRAILER_N, (uint32_t)objects);
    set_field(image, length, TRAILER_FLAGS, flags);
    set_field(image, length, TRAILER_D, (uint32_t)(length - TRAILER - ENTRY * objects));
    set_field(image, length, TRAILER_L, (uint32_t)length);
}

/* Lays a directory and its trailer, flags 0. */
static inline void lay_directory(uint8_t *image, size_t length, const uint32_t *entries, size_t objects)
{
    for (size_t i = 0; i < objects; i++)
        set_entry(image, length, i, entries[i]);
    lay_trailer(image, length, objects, 0);
}

static inline int length_in_range(size_t length)
{
    return length >= SHORTEST && length <= LONGEST;
}

/* Whether a block or a filemark may follow the end before it with this entry. */
static inline int entry_follows(uint32_t entry, uint32_t before)
{
    uint32_t end = entry & ENTRY_END;
    if (entry & ENTRY_FILEMARK)
        return end == before;
    return end > before && end - before <= LARGEST_BLOCK;
}

static inline int sound(const uint8_t *image, size_t length)
{
    uint64_t objects, directory;
    uint32_t end = 0;
    if (!length_in_range(length))
        return 0;
    objects = get_field(image, length, TRAILER_N);
    directory = get_field(image, length, TRAILER_D);
    if (get_field(image, length, TRAILER_L) != length || get_field(image, length, TRAILER_FLAGS) > FLAG_PROTECTED)
        return 0;
    if (directory + ENTRY * objects + TRAILER != length)
        return 0;
    for (uint64_t i = 0; i < objects; i++) {
        uint32_t entry = get32(image + length - TRAILER - ENTRY * (i + 1));
        if (!entry_follows(entry, end))
            return 0;
        end = entry & ENTRY_END;
    }
    return end <= directory;
}

/* What the view of one slice is by document 01. */
static inline uint64_t view_of(const uint8_t *image, size_t length, uint64_t object)
{
    const uint8_t *entry;
    uint32_t start, end;
    if (!sound(image, length) || object >= get_field(image, length, TRAILER_N))
        return 0;
    entry = image + length - TRAILER - ENTRY * (object + 1);
    if (get32(entry) & ENTRY_FILEMARK)
        return 0;
    start = object == 0 ? 0 : get32(entry + ENTRY) & ENTRY_END;
    end = get32(entry);
    return FOUND(start, end - start);
}

#endif
