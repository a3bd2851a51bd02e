/* tapes.h: the cartridges that the cases are run on, and objects put on them. */
#ifndef TAPES_H
#define TAPES_H

#include "../image.h"
#include "../lend.h"

/* Objects are words: bK is a block of K bytes, B the largest there is, f a filemark, fK is K of them. Behind @K they go
 * on from byte K, wherever the last one ended. All cartridges before UNSOUND are sound, and none from it on. */
enum cartridge {
    NONE, E, GUARDED, BLANK, BLANK_65, TEN, FULL, MIXED, FILES, PARTED, PAIR, MARKS, BIG, GUARDED_MIXED, GUARDED_FILES,
    LEFT_3, LEFT_2, MARKED_3, MARKED_2, GUARDED_3, GUARDED_2, LEFT_4_OF_65, LEFT_3_OF_65, LEFT_4_OF_80, LEFT_3_OF_80,
    BIG_BEFORE, BIG_IN, FOR_1, FOR_2, FOR_3, SHORT_OF_1, SHORT_OF_2, SHORT_OF_3, TILE, TILES_2, TILES_3, TILES_APART,
    GUARDED_TILE, FORMER, FORMER_BEFORE, FORMER_IN, FOR_65537, SHORT_OF_65537, OF_65537, FOR_PICTURE, SHORT_OF_PICTURE,
    PICTURE, FOR_2_PICTURES, FOR_3_PICTURES, SHORT_OF_2_PICTURES, SHORT_OF_3_PICTURES, PICTURES_2, PICTURES_APART,
    FOR_A_LIFE, FOR_LARGEST, SHORT_OF_LARGEST, FOR_2_LARGEST, SHORT_OF_2_LARGEST, LARGEST_1, LARGEST_2,
    SMALL_AND_LARGE,
    UNSOUND, OVERLAPPING, BLOCK_OF_0, FILEMARK_AT_1, FILEMARKS_AT_5, ABOVE_LARGEST, ABOVE_LARGEST_BEHIND
};

/* How many bytes an image has that just holds so many blocks of a size. A tile has the length that a mount sets; a
 * picture is what 02 calls the new camera's tile: "800,000 bytes". */
#define TAKEN_BY(blocks, size) (TRAILER + (blocks) * (ENTRY + (size)))
#define TILES_TAKE(blocks) TAKEN_BY(blocks, MOUNTED_LENGTH)
enum { PICTURE_BYTES = 800000 };

/* Free bytes are not 0, so that a byte that is zeroed or moved shows; E alone is the document's, byte by byte. */
static const struct tape {
    size_t length;
    uint32_t flags;
    uint8_t free;
    const char *objects;
} tapes[] = {
    [NONE] = {0, 0, 0x00, ""},
    [E] = {E_BYTES, 0, 0x00, "b3 f"},
    [GUARDED] = {E_BYTES, FLAG_PROTECTED, 0x00, "b3 f"},
    [BLANK] = {SHORTEST, 0, 0xee, ""},
    [BLANK_65] = {SHORTEST + 1, 0, 0xee, ""},
    [TEN] = {SHORTEST, 0, 0xee, "b10"},
    [FULL] = {SHORTEST, 0, 0xee, "b44"},
    [MIXED] = {96, 0, 0xee, "b3 f b3 b3 b5 f b3"},
    [FILES] = {SHORTEST, 0, 0xee, "b1 b2 f b3 f"},
    [PARTED] = {SHORTEST, 0, 0xee, "b3 f b2"},
    [PAIR] = {SHORTEST, 0, 0xee, "b1 b2 f"},
    [MARKS] = {SHORTEST, 0, 0xee, "f3"},
    [BIG] = {2 * LARGEST_BLOCK + SHORTEST, 0, 0xee, "B"},
    [GUARDED_MIXED] = {96, FLAG_PROTECTED, 0xee, "b3 f b3 b3 b5 f b3"},
    [GUARDED_FILES] = {SHORTEST, FLAG_PROTECTED, 0xee, "b1 b2 f b3 f"},
    [LEFT_3] = {SHORTEST, 0, 0xee, "b41"},
    [LEFT_2] = {SHORTEST, 0, 0xee, "b42"},
    [MARKED_3] = {SHORTEST, 0, 0xee, "b37 f"},
    [MARKED_2] = {SHORTEST, 0, 0xee, "b38 f"},
    [GUARDED_3] = {SHORTEST, FLAG_PROTECTED, 0xee, "b41"},
    [GUARDED_2] = {SHORTEST, FLAG_PROTECTED, 0xee, "b42"},
    [LEFT_4_OF_65] = {SHORTEST + 1, 0, 0xee, "b41"},
    [LEFT_3_OF_65] = {SHORTEST + 1, 0, 0xee, "b42"},
    [LEFT_4_OF_80] = {SHORTEST + 16, 0, 0xee, "b56"},
    [LEFT_3_OF_80] = {SHORTEST + 16, 0, 0xee, "b57"},
    [BIG_BEFORE] = {2 * LARGEST_BLOCK + SHORTEST, 0, 0xee, "B b917541"},
    [BIG_IN] = {2 * LARGEST_BLOCK + SHORTEST, 0, 0xee, "B b917542"},
    [FOR_1] = {TILES_TAKE(1), 0, 0xee, ""},
    [FOR_2] = {TILES_TAKE(2), 0, 0xee, ""},
    [FOR_3] = {TILES_TAKE(3), 0, 0xee, ""},
    [SHORT_OF_1] = {TILES_TAKE(1) - 1, 0, 0xee, ""},
    [SHORT_OF_2] = {TILES_TAKE(2) - 1, 0, 0xee, ""},
    [SHORT_OF_3] = {TILES_TAKE(3) - 1, 0, 0xee, ""},
    [TILE] = {TILES_TAKE(1), 0, 0xee, "b32768"},
    [TILES_2] = {TILES_TAKE(2), 0, 0xee, "b32768 b32768"},
    [TILES_3] = {TILES_TAKE(3), 0, 0xee, "b32768 b32768 b32768"},
    [TILES_APART] = {TILES_TAKE(6), 0, 0xee, "b32768 b3 b32768 b32767 b32769 f b32768"},
    [GUARDED_TILE] = {TILES_TAKE(1), FLAG_PROTECTED, 0xee, "b32768"},
    [FORMER] = {2 * FORMER_LARGEST + SHORTEST, 0, 0xee, "b65536"},
    [FORMER_BEFORE] = {2 * FORMER_LARGEST + SHORTEST, 0, 0xee, "b65536 b57381"},
    [FORMER_IN] = {2 * FORMER_LARGEST + SHORTEST, 0, 0xee, "b65536 b57382"},
    [FOR_65537] = {TAKEN_BY(1, FORMER_LARGEST + 1), 0, 0xee, ""},
    [SHORT_OF_65537] = {TAKEN_BY(1, FORMER_LARGEST + 1) - 1, 0, 0xee, ""},
    [OF_65537] = {TAKEN_BY(1, FORMER_LARGEST + 1), 0, 0xee, "b65537"},
    [FOR_PICTURE] = {TAKEN_BY(1, PICTURE_BYTES), 0, 0xee, ""},
    [SHORT_OF_PICTURE] = {TAKEN_BY(1, PICTURE_BYTES) - 1, 0, 0xee, ""},
    [PICTURE] = {TAKEN_BY(1, PICTURE_BYTES), 0, 0xee, "b800000"},
    [FOR_2_PICTURES] = {TAKEN_BY(2, PICTURE_BYTES), 0, 0xee, ""},
    [FOR_3_PICTURES] = {TAKEN_BY(3, PICTURE_BYTES), 0, 0xee, ""},
    [SHORT_OF_2_PICTURES] = {TAKEN_BY(2, PICTURE_BYTES) - 1, 0, 0xee, ""},
    [SHORT_OF_3_PICTURES] = {TAKEN_BY(3, PICTURE_BYTES) - 1, 0, 0xee, ""},
    [PICTURES_2] = {TAKEN_BY(2, PICTURE_BYTES), 0, 0xee, "b800000 b800000"},
    [PICTURES_APART] = {TAKEN_BY(2, PICTURE_BYTES) + 200000, 0, 0xee, "b800000 b65536 b800000 f"},
    [FOR_A_LIFE] = {TAKEN_BY(3, PICTURE_BYTES) + ENTRY + 100, 0, 0xee, ""},
    [FOR_LARGEST] = {TAKEN_BY(1, LARGEST_BLOCK), 0, 0xee, ""},
    [SHORT_OF_LARGEST] = {TAKEN_BY(1, LARGEST_BLOCK) - 1, 0, 0xee, ""},
    [FOR_2_LARGEST] = {TAKEN_BY(2, LARGEST_BLOCK), 0, 0xee, ""},
    [SHORT_OF_2_LARGEST] = {TAKEN_BY(2, LARGEST_BLOCK) - 1, 0, 0xee, ""},
    [LARGEST_1] = {TAKEN_BY(1, LARGEST_BLOCK), 0, 0xee, "B"},
    [LARGEST_2] = {TAKEN_BY(2, LARGEST_BLOCK), 0, 0xee, "B B"},
    [SMALL_AND_LARGE] = {TAKEN_BY(1, LARGEST_BLOCK), 0, 0xee, "b3 f b65537 b800000 f b1"},
    [UNSOUND] = {E_BYTES, 2 * FLAG_PROTECTED, 0x00, "b3 f"},
    [OVERLAPPING] = {SHORTEST, 0, 0xee, "b3 f @0 b2"},
    [BLOCK_OF_0] = {SHORTEST, 0, 0xee, "b3 b0 f"},
    [FILEMARK_AT_1] = {SHORTEST, 0, 0xee, "@1 f b1 f"},
    [FILEMARKS_AT_5] = {SHORTEST, 0, 0xee, "@5 f3"},
    [ABOVE_LARGEST] = {TAKEN_BY(2, LARGEST_BLOCK), 0, 0xee, "b1048577"},
    [ABOVE_LARGEST_BEHIND] = {TAKEN_BY(2, LARGEST_BLOCK), 0, 0xee, "b3 b1048577 f"},
};

/* Those of the source, or else rising ones, the first by its number. */
static inline void put_bytes(uint8_t *at, size_t count, size_t first, const uint8_t *source)
{
    if (source != NULL) {
        memcpy(at, source, count);
        return;
    }
    for (size_t i = 0; i < PERIOD && i < count; i++)
        at[i] = (uint8_t)(first + i);
    repeat_bytes(at, PERIOD, count);
}

/* Puts objects from a number on; blocks take the source's bytes one after the other, or bytes by their own number. */
static inline void put_objects(uint8_t *image, size_t length, size_t number, const char *words, const uint8_t *source)
{
    size_t end = end_at(image, length, number);
    for (const char *word = words; *word != '\0'; word += strspn(word, " ")) {
        size_t count = *word == 'B' ? LARGEST_BLOCK : strtoul(word + 1, NULL, 10);
        if (*word == '@') {
            end = count;
        } else if (*word == 'b' || *word == 'B') {
            put_bytes(image + end, count, 16 * number + 1, source);
            source = source == NULL ? NULL : source + count;
            end += count;
            set_entry(image, length, number++, (uint32_t)end);
        } else {
            for (size_t i = 0; i < (count == 0 ? 1 : count); i++)
                set_entry(image, length, number++, ENTRY_FILEMARK | (uint32_t)end);
        }
        word += strcspn(word, " ");
    }
    lay_trailer(image, length, number, get_field(image, length, TRAILER_FLAGS));
}

#endif
