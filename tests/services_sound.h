/* services_sound.h: images that are sound or not by document 01, under each service that judges one. */
#ifndef SERVICES_SOUND_H
#define SERVICES_SOUND_H

#include "blocks.h"
#include "lend.h"
#include "record.h"
#include "stormtoggle.h"

/* ---- by the oracle */

static void protect_agrees(const uint8_t *image, size_t length, uint64_t on, const char *what)
{
    unsigned refusal = !length_in_range(length) ? BY_LENGTH : !sound(image, length) ? BY_UNSOUND : 0;
    uint8_t *lent = lend(image, length), *want = lend(image, length);
    if (refusal == 0)
        set_field(want, length, TRAILER_FLAGS, on != 0 ? FLAG_PROTECTED : 0);
    expect_equal(stormtoggle_protect(lent, length, on), REFUSED(refusal), "protect %" PRIu64 ", %s", on, what);
    expect_bytes(lent, want, length, "bytes after protect %" PRIu64 ", %s", on, what);
    take_back(lent, length);
    take_back(want, length);
}

static void view_agrees(const uint8_t *image, size_t length, uint64_t object, const char *what)
{
    uint8_t *lent = lend(image, length);
    uint64_t want = view_of(image, length, object);
    expect_equal(stormtoggle_view(lent, length, NULL, 0, 0, object), want, "view 0 of %" PRIu64 ", %s", object, what);
    expect_equal(stormtoggle_view(NULL, 0, lent, length, 1, object), want, "view 1 of %" PRIu64 ", %s", object, what);
    expect_bytes(lent, image, length, "bytes after a view, %s", what);
    take_back(lent, length);
}

static void agrees(const uint8_t *image, size_t length, const char *what)
{
    protect_agrees(image, length, 0, what);
    protect_agrees(image, length, 1, what);
    for (uint64_t object = 0; object < 4; object++)
        view_agrees(image, length, object, what);
}

/* A fresh drive mounts the image, or refuses it by number 6. A loaded one with nothing to tell is ready with it, or
 * refuses it by number 4, and its record stays in both cases. */
static void drive_judges(const uint8_t *image, size_t length, int is_sound, const char *what)
{
    static const struct bytes ready = SIX(TEST_UNIT_READY, 0, 0);
    struct drive fresh = fresh_drive(), loaded = mounted_drive(1);
    uint8_t want[RECORD_BYTES] = {0}, *record = lend(want, RECORD_BYTES), *lent = lend(image, length);
    uint64_t answer;
    lay_drive(record, &fresh);
    lay_drive(want, is_sound ? &loaded : &fresh);
    answer = stormtoggle_mount(record, RECORD_BYTES, lent, length, NULL, 0);
    expect_equal(answer, REFUSED(is_sound ? 0 : BY_UNSOUND), "mount, %s", what);
    expect_bytes(record, want, RECORD_BYTES, "record after mount, %s", what);
    loaded.attention = ATTENTION_NONE;
    lay_drive(record, &loaded);
    lay_drive(want, &loaded);
    answer = stormtoggle_command(record, RECORD_BYTES, ready.at, ready.length, lent, length, NULL, 0, NULL, 0, NULL, 0);
    expect_equal(answer, REFUSED(is_sound ? 0 : BY_DRIVE), "TEST UNIT READY, %s", what);
    expect_bytes(record, want, RECORD_BYTES, "record after TEST UNIT READY, %s", what);
    expect_bytes(lent, image, length, "bytes after mount and TEST UNIT READY, %s", what);
    take_back(record, RECORD_BYTES);
    take_back(lent, length);
}

/* ---- the images */

/* Rows whose soundness is known without the oracle, which is held to them too. */
static void judged(const uint8_t *image, size_t length, int is_sound, const char *what)
{
    expect(sound(image, length) == is_sound, "the oracle, %s", what);
    agrees(image, length, what);
    drive_judges(image, length, is_sound, what);
}

/* The trailer of E as 01 prints it, and others in its place. */
static void trailers(void)
{
    static const struct {
        const char *what;
        uint32_t objects, flags, directory, length;
        int is_sound;
    } rows[] = {
        {"E", 2, 0, 40, 64, 1},
        {"E protected", 2, 1, 40, 64, 1},
        {"L one more", 2, 0, 40, 65, 0},
        {"L one less", 2, 0, 40, 63, 0},
        {"L is 0", 2, 0, 40, 0, 0},
        {"L with its top bit", 2, 0, 40, 0x80000040, 0},
        {"D one more", 2, 0, 41, 64, 0},
        {"D one less", 2, 0, 39, 64, 0},
        {"D is 0", 2, 0, 0, 64, 0},
        {"N one more", 3, 0, 40, 64, 0},
        {"N one less", 1, 0, 40, 64, 0},
        {"the block alone", 1, 0, 44, 64, 1},
        {"N is 0, D right", 0, 0, 48, 64, 1},
        {"4N wraps to 0", 0x40000000, 0, 48, 64, 0},
        {"4N wraps to 8", 0x40000002, 0, 40, 64, 0},
        {"4N wraps to 8 by the top bit", 0x80000002, 0, 40, 64, 0},
        {"D below 0", 13, 0, 0xfffffffc, 64, 0},
        {"every bit set", 0xffffffff, 0xffffffff, 0xffffffff, 0xffffffff, 0},
        {"every bit clear", 0, 0, 0, 0, 0},
    };
    for (size_t i = 0; i < COUNT(rows); i++) {
        uint8_t image[sizeof example_e];
        memcpy(image, example_e, sizeof image);
        set_field(image, sizeof image, TRAILER_N, rows[i].objects);
        set_field(image, sizeof image, TRAILER_FLAGS, rows[i].flags);
        set_field(image, sizeof image, TRAILER_D, rows[i].directory);
        set_field(image, sizeof image, TRAILER_L, rows[i].length);
        judged(image, sizeof image, rows[i].is_sound, rows[i].what);
    }
}

static void unknown_flags(void)
{
    uint8_t image[sizeof example_e];
    memcpy(image, example_e, sizeof image);
    for (unsigned bit = 1; bit < 32; bit++)
        for (uint32_t bit_0 = 0; bit_0 < 2; bit_0++) {
            set_field(image, sizeof image, TRAILER_FLAGS, UINT32_C(1) << bit | bit_0);
            judged(image, sizeof image, 0, "an unknown flag");
        }
}

static void directories(void)
{
    enum { BOTH = 2 * LARGEST_BLOCK + SHORTEST, FORMER_BOTH = 2 * FORMER_LARGEST + SHORTEST };
    static const struct {
        const char *what;
        size_t length, objects;
        uint32_t entries[3];
        int is_sound;
    } rows[] = {
        {"largest block", BOTH, 1, {LARGEST_BLOCK}, 1},
        {"block of 1,048,577", BOTH, 1, {LARGEST_BLOCK + 1}, 0},
        {"largest block after another", BOTH, 2, {3, 3 + LARGEST_BLOCK}, 1},
        {"block of 1,048,577 after another", BOTH, 2, {3, 4 + LARGEST_BLOCK}, 0},
        {"block of 1,048,577 after a filemark", BOTH, 2, {ENTRY_FILEMARK, LARGEST_BLOCK + 1}, 0},
        {"two largest blocks", BOTH, 2, {LARGEST_BLOCK, 2 * LARGEST_BLOCK}, 1},
        {"largest block, D a byte too low for it", LARGEST_BLOCK + TRAILER + ENTRY - 1, 1, {LARGEST_BLOCK}, 0},
        {"largest block, end(N) is D", LARGEST_BLOCK + TRAILER + ENTRY, 1, {LARGEST_BLOCK}, 1},
        /* "Older images stay sound", and what was one byte too long no longer is. */
        {"block of 65,536", FORMER_BOTH, 1, {FORMER_LARGEST}, 1},
        {"block of 65,537", FORMER_BOTH, 1, {FORMER_LARGEST + 1}, 1},
        {"block of 65,536 after another", FORMER_BOTH, 2, {3, 3 + FORMER_LARGEST}, 1},
        {"block of 65,537 after another", FORMER_BOTH, 2, {3, 4 + FORMER_LARGEST}, 1},
        {"two blocks of 65,536 and a filemark", FORMER_BOTH, 3,
         {FORMER_LARGEST, 2 * FORMER_LARGEST, ENTRY_FILEMARK | 2 * FORMER_LARGEST}, 1},
        {"block of 0", SHORTEST, 1, {0}, 0},
        {"block of 0 after another", SHORTEST, 2, {3, 3}, 0},
        {"block that ends before it starts", SHORTEST, 2, {3, 2}, 0},
        {"block of 1", SHORTEST, 1, {1}, 1},
        {"filemark at 0", SHORTEST, 1, {ENTRY_FILEMARK}, 1},
        {"filemark at 1 with no data", SHORTEST, 1, {ENTRY_FILEMARK | 1}, 0},
        {"filemark one past", SHORTEST, 2, {3, ENTRY_FILEMARK | 4}, 0},
        {"filemark one before", SHORTEST, 2, {3, ENTRY_FILEMARK | 2}, 0},
        {"filemark, block, filemark", SHORTEST, 3, {ENTRY_FILEMARK, 5, ENTRY_FILEMARK | 5}, 1},
        {"block between, start above 0", SHORTEST + 1, 3, {3, 10, 11}, 1},
        {"end(N) is D", SHORTEST, 1, {44}, 1},
        {"end(N) above D", SHORTEST, 1, {45}, 0},
        {"end(2) is D", SHORTEST, 2, {40, ENTRY_FILEMARK | 40}, 1},
        {"end(2) above D", SHORTEST, 2, {41, ENTRY_FILEMARK | 41}, 0},
        {"block end with 31 bits", SHORTEST, 1, {ENTRY_END}, 0},
        /* The end before an object is that of the object before it, be this a block or a filemark: not 0, not one
         * further back, not the object's own or a later one. Before the first object it is 0, and nothing else. */
        {"block from a filemark's end", SHORTEST, 3, {3, ENTRY_FILEMARK | 3, 5}, 1},
        {"block that ends before the filemark before it", SHORTEST, 3, {3, ENTRY_FILEMARK | 3, 2}, 0},
        {"block of 0 after a filemark", SHORTEST, 3, {3, ENTRY_FILEMARK | 3, 3}, 0},
        {"filemark at 0 between blocks", SHORTEST, 3, {3, ENTRY_FILEMARK, 5}, 0},
        {"filemark with the end of the one after it", SHORTEST, 3, {3, ENTRY_FILEMARK | 5, ENTRY_FILEMARK | 5}, 0},
        {"filemarks that agree with each other alone", SHORTEST, 3,
         {ENTRY_FILEMARK | 5, ENTRY_FILEMARK | 5, ENTRY_FILEMARK | 5}, 0},
        {"block of 0 between a block and its filemark", SHORTEST, 3, {3, 3, ENTRY_FILEMARK | 3}, 0},
        {"two filemarks at 0, then a block", SHORTEST, 3, {ENTRY_FILEMARK, ENTRY_FILEMARK, 1}, 1},
        {"two filemarks at 1 with no data, then a block", SHORTEST, 3, {ENTRY_FILEMARK | 1, ENTRY_FILEMARK | 1, 2}, 0},
        {"two blocks, then a filemark", SHORTEST, 3, {1, 2, ENTRY_FILEMARK | 2}, 1},
        {"first of two blocks made a filemark", SHORTEST, 3, {ENTRY_FILEMARK | 1, 2, ENTRY_FILEMARK | 2}, 0},
        {"end(3) is D", SHORTEST, 3, {1, 2, 36}, 1},
        {"end(3) above D", SHORTEST, 3, {1, 2, 37}, 0},
        {"block of 0 before others", SHORTEST, 3, {0, 1, 2}, 0},
    };
    for (size_t i = 0; i < COUNT(rows); i++) {
        uint8_t *image = patterned(rows[i].length);
        lay_directory(image, rows[i].length, rows[i].entries, rows[i].objects);
        judged(image, rows[i].length, rows[i].is_sound, rows[i].what);
        free(image);
    }
}

/* Twelve filemarks take all the bytes of the shortest image before its trailer: D is 0. */
static void full_of_filemarks(void)
{
    uint8_t image[SHORTEST] = {0};
    for (size_t i = 0; i < 12; i++)
        set_entry(image, sizeof image, i, ENTRY_FILEMARK);
    lay_trailer(image, sizeof image, 12, 0);
    judged(image, sizeof image, 1, "twelve filemarks");
}

static void every_bit_of_e(void)
{
    for (size_t bit = 0; bit < 8 * sizeof example_e; bit++) {
        uint8_t image[sizeof example_e];
        memcpy(image, example_e, sizeof image);
        image[bit / 8] ^= (uint8_t)(1 << bit % 8);
        agrees(image, sizeof image, "a bit of E flipped");
    }
}

static void every_length_of_e(void)
{
    for (size_t length = 1; length < sizeof example_e; length++)
        agrees(example_e + sizeof example_e - length, length, "the tail of E");
}

/* Lawful directories, every second one with a word of directory or trailer moved a little. */
static void random_images(void)
{
    for (int round = 0; round < 4000; round++) {
        size_t length = SHORTEST + random_below(40), objects = random_below(7);
        uint8_t *image = patterned(length);
        uint32_t entries[7], end = 0;
        for (size_t i = 0; i < objects; i++) {
            int block = random_below(2) == 0;
            end += block ? 1 + random_below(12) : 0;
            entries[i] = block ? end : ENTRY_FILEMARK | end;
        }
        lay_directory(image, length, entries, objects);
        if (round % 2 == 1) {
            uint8_t *word = image + length - ENTRY * (1 + random_below((uint32_t)objects + TRAILER / ENTRY));
            put32(word, get32(word) + random_below(9) - 4);
        }
        agrees(image, length, "a random image");
        free(image);
    }
}

static void judged_images(void)
{
    trailers();
    unknown_flags();
    directories();
    full_of_filemarks();
    every_bit_of_e();
    every_length_of_e();
    random_images();
}

#endif
