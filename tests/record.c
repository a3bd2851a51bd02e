/* record.c: fresh and mount held to documents 01 and 02, called as a C daemon calls them. */
#define _DEFAULT_SOURCE
#include "lend.h"
#include "record.h"
#include "stormtoggle.h"

/* The thirty bytes as they must be, byte by byte. */
static const uint8_t fresh_bytes[RECORD_BYTES] = {[3] = 0x29, [12] = 0x70, [19] = 0x0a};
static const uint8_t mounted_bytes[RECORD_BYTES] = {
    [0] = 1, [1] = 1, [3] = 0x28, [8] = 0x00, [9] = 0x00, [10] = 0x80, [11] = 0x00, [12] = 0x70, [19] = 0x0a};
static const size_t lengths_of_no_record[] = {0, 1, 12, RECORD_BYTES - 1, RECORD_BYTES + 1, 64, 256 + RECORD_BYTES};

/* Well-formed records to start from. */
static const struct base {
    const char *what;
    struct drive drive;
} bases[] = {
    {"fresh", {.attention = ATTENTION_FRESH, .sense = EMPTY_SENSE}},
    {"unloaded, nothing waits",
     {.attention = ATTENTION_NONE, .sense = {0xf0, 0x00, 0x28, 0x00, 0x00, 0x00, 0x02, 0x0a}}},
    {"unloaded, 28h waits", {.attention = ATTENTION_MOUNTED, .block_length = 1, .sense = {[17] = 0xff}}},
    {"unloaded, 29h waits",
     {.attention = ATTENTION_FRESH, .block_length = 512, .sense = {0x70, 0x00, 0x06, [12] = 0x29}}},
    {"unloaded, block length 65,536", {.block_length = FORMER_LARGEST, .sense = EMPTY_SENSE}},
    {"unloaded, block length 1,048,576", {.block_length = LARGEST_BLOCK, .sense = EMPTY_SENSE}},
    {"unloaded, block length 32,768", {.block_length = MOUNTED_LENGTH, .sense = EMPTY_SENSE}},
    {"loaded, 1 partition", {1, 1, 0, ATTENTION_NONE, 2, 512, EMPTY_SENSE}},
    {"loaded, 2 partitions", {1, 2, 1, ATTENTION_MOUNTED, 0x01020304, LARGEST_BLOCK, {0x70, 0x00, 0x08, [13] = 0x05}}},
};

/* What may be lent as a partition. The short one is sound but for its length. */
enum kind { ABSENT, SHORT, UNSOUND, SOUND, KINDS };
static const uint8_t short_blank[SHORTEST - 1] = {[58] = 47, [62] = 63}, zeros[SHORTEST];
static const struct slice partitions[KINDS] = {
    [ABSENT] = {NULL, 0},
    [SHORT] = {short_blank, sizeof short_blank},
    [UNSOUND] = {zeros, sizeof zeros},
    [SOUND] = {example_e, sizeof example_e},
};

/* ---- fresh */

static void fresh_makes(const uint8_t *before, const char *what)
{
    uint8_t *record = lend(before, RECORD_BYTES);
    expect_equal(stormtoggle_fresh(record, RECORD_BYTES), DONE, "fresh, %s", what);
    expect_bytes(record, fresh_bytes, RECORD_BYTES, "record after fresh, %s", what);
    take_back(record, RECORD_BYTES);
}

static void fresh_by_length(void)
{
    uint8_t *pages = sealed(zeros, RECORD_BYTES + 1);
    for (size_t i = 0; i < COUNT(lengths_of_no_record); i++)
        refuses_length(stormtoggle_fresh, lengths_of_no_record[i], BY_DRIVE, "fresh");
    expect_equal(stormtoggle_fresh(NULL, 0), REFUSED(BY_DRIVE), "fresh of nothing");
    expect_in_child(stormtoggle_fresh(pages, RECORD_BYTES + 1) == REFUSED(BY_DRIVE), "fresh of 31 read-only bytes");
    expect_in_child(stormtoggle_fresh(pages + 2, RECORD_BYTES - 1) == REFUSED(BY_DRIVE), "fresh of 29 read-only bytes");
}

/* Fresh asks nothing of the thirty bytes. */
static void fresh_of_any_bytes(void)
{
    uint8_t record[RECORD_BYTES], *pattern = patterned(RECORD_BYTES);
    struct drive fresh = fresh_drive(), mounted = mounted_drive(1);
    fresh_makes(pattern, "ill-formed bytes");
    fresh_makes(zeros, "zeros");
    memset(record, 0xff, RECORD_BYTES);
    fresh_makes(record, "every bit set");
    for (size_t i = 0; i < COUNT(bases); i++) {
        lay_drive(record, &bases[i].drive);
        fresh_makes(record, bases[i].what);
    }
    lay_drive(record, &fresh);
    expect_bytes(record, fresh_bytes, RECORD_BYTES, "the oracle, fresh");
    lay_drive(record, &mounted);
    expect_bytes(record, mounted_bytes, RECORD_BYTES, "the oracle, mounted");
    free(pattern);
}

/* ---- mount, by the oracle */

/* The partitions are lent as they stand, so they may be longer than a copy could be. */
static void mount_in_place(struct slice record, struct slice p0, struct slice p1, const char *what)
{
    unsigned refusal = mount_refusal(record, p0, p1);
    struct drive drive = mounted_drive(p1.length == 0 ? 1 : 2);
    uint8_t mounted[RECORD_BYTES], *lent = lend(record.bytes, record.length);
    uint64_t answer = stormtoggle_mount(lent, record.length, p0.bytes, p0.length, p1.bytes, p1.length);
    lay_drive(mounted, &drive);
    expect_equal(answer, REFUSED(refusal), "mount, %s", what);
    expect_bytes(lent, refusal ? record.bytes : mounted, record.length, "record after mount, %s", what);
    take_back(lent, record.length);
}

static void mount_agrees(struct slice record, struct slice p0, struct slice p1, const char *what)
{
    uint8_t *lent0 = lend(p0.bytes, p0.length), *lent1 = lend(p1.bytes, p1.length);
    mount_in_place(record, (struct slice){lent0, p0.length}, (struct slice){lent1, p1.length}, what);
    expect_bytes(lent0, p0.bytes, p0.length, "partition 0 after mount, %s", what);
    expect_bytes(lent1, p1.bytes, p1.length, "partition 1 after mount, %s", what);
    take_back(lent0, p0.length);
    take_back(lent1, p1.length);
}

/* A mount whose refusal is known without the oracle, which is held to it too. */
static void judged(struct slice record, struct slice p0, struct slice p1, unsigned refusal, const char *what)
{
    expect_equal(mount_refusal(record, p0, p1), refusal, "the oracle, %s", what);
    mount_agrees(record, p0, p1, what);
}

/* One partition, and two. */
static void cartridges(const uint8_t *record, const char *what)
{
    mount_agrees((struct slice){record, RECORD_BYTES}, partitions[SOUND], partitions[ABSENT], what);
    mount_agrees((struct slice){record, RECORD_BYTES}, partitions[SOUND], partitions[SOUND], what);
}

/* Records, each with the number that refuses a mount of E. */
static const struct row {
    const char *what;
    struct drive drive;
    unsigned refusal;
} rows[] = {
    {"unloaded", {0, 0, 0, ATTENTION_NONE, 0, 0, {0}}, 0},
    {"unloaded, 28h", {0, 0, 0, ATTENTION_MOUNTED, 0, 0, {0}}, 0},
    {"unloaded, 29h", {0, 0, 0, ATTENTION_FRESH, 0, 0, {0}}, 0},
    {"unloaded, 27h", {0, 0, 0, 0x27, 0, 0, {0}}, BY_DRIVE},
    {"unloaded, 2Ah", {0, 0, 0, 0x2a, 0, 0, {0}}, BY_DRIVE},
    {"unloaded, block length 1", {0, 0, 0, ATTENTION_FRESH, 0, 1, {0}}, 0},
    {"unloaded, block length 32,768", {0, 0, 0, ATTENTION_FRESH, 0, MOUNTED_LENGTH, {0}}, 0},
    {"unloaded, block length 65,536", {0, 0, 0, ATTENTION_FRESH, 0, FORMER_LARGEST, {0}}, 0},
    {"unloaded, block length 65,537", {0, 0, 0, ATTENTION_FRESH, 0, FORMER_LARGEST + 1, {0}}, 0},
    {"unloaded, block length 70,000", {0, 0, 0, ATTENTION_FRESH, 0, 70000, {0}}, 0},
    {"unloaded, block length 1,048,575", {0, 0, 0, ATTENTION_FRESH, 0, LARGEST_BLOCK - 1, {0}}, 0},
    {"unloaded, block length 1,048,576", {0, 0, 0, ATTENTION_FRESH, 0, LARGEST_BLOCK, {0}}, 0},
    {"unloaded, block length 1,048,577", {0, 0, 0, ATTENTION_FRESH, 0, LARGEST_BLOCK + 1, {0}}, BY_DRIVE},
    {"unloaded, block length 2^24", {0, 0, 0, ATTENTION_FRESH, 0, COUNT_MOST + 1, {0}}, BY_DRIVE},
    {"unloaded, block length with its top bit", {0, 0, 0, ATTENTION_FRESH, 0, 0x80000000, {0}}, BY_DRIVE},
    {"unloaded, 1 partition", {0, 1, 0, ATTENTION_FRESH, 0, 0, {0}}, BY_DRIVE},
    {"unloaded, partition 1", {0, 0, 1, ATTENTION_FRESH, 0, 0, {0}}, BY_DRIVE},
    {"unloaded, at 1", {0, 0, 0, ATTENTION_FRESH, 1, 0, {0}}, BY_DRIVE},
    {"unloaded, like loaded", {0, 2, 1, ATTENTION_MOUNTED, 3, 512, {0}}, BY_DRIVE},
    {"loaded, no partition", {1, 0, 0, ATTENTION_MOUNTED, 0, 0, {0}}, BY_DRIVE},
    {"loaded, partition 0 of 1", {1, 1, 0, ATTENTION_MOUNTED, 0, 0, {0}}, BY_LOADED},
    {"loaded, partition 1 of 1", {1, 1, 1, ATTENTION_MOUNTED, 0, 0, {0}}, BY_DRIVE},
    {"loaded, partition 0 of 2", {1, 2, 0, ATTENTION_MOUNTED, 0, 0, {0}}, BY_LOADED},
    {"loaded, partition 1 of 2", {1, 2, 1, ATTENTION_MOUNTED, 0, 0, {0}}, BY_LOADED},
    {"loaded, partition 2 of 2", {1, 2, 2, ATTENTION_MOUNTED, 0, 0, {0}}, BY_DRIVE},
    {"loaded, partition 0 of 3", {1, 3, 0, ATTENTION_MOUNTED, 0, 0, {0}}, BY_DRIVE},
    {"loaded, past every object", {1, 1, 0, ATTENTION_MOUNTED, 0xffffffff, 0, {0}}, BY_LOADED},
    {"loaded, 29h", {1, 1, 0, ATTENTION_FRESH, 0, 0, {0}}, BY_LOADED},
    {"loaded, 2Ah", {1, 1, 0, 0x2a, 0, 0, {0}}, BY_DRIVE},
    {"loaded, block length 32,768", {1, 1, 0, ATTENTION_NONE, 0, MOUNTED_LENGTH, {0}}, BY_LOADED},
    {"loaded, block length 65,536", {1, 1, 0, ATTENTION_NONE, 0, FORMER_LARGEST, {0}}, BY_LOADED},
    {"loaded, block length 65,537", {1, 1, 0, ATTENTION_NONE, 0, FORMER_LARGEST + 1, {0}}, BY_LOADED},
    {"loaded, block length 70,000", {1, 1, 0, ATTENTION_NONE, 0, 70000, {0}}, BY_LOADED},
    {"loaded, block length 1,048,576", {1, 1, 0, ATTENTION_NONE, 0, LARGEST_BLOCK, {0}}, BY_LOADED},
    {"loaded, block length 1,048,577", {1, 1, 0, ATTENTION_NONE, 0, LARGEST_BLOCK + 1, {0}}, BY_DRIVE},
    {"loaded is 2", {2, 1, 0, ATTENTION_MOUNTED, 0, 0, {0}}, BY_DRIVE},
    {"loaded is 2, like unloaded", {2, 0, 0, ATTENTION_MOUNTED, 0, 0, {0}}, BY_DRIVE},
};

static void records(void)
{
    for (const struct row *row = rows; row < rows + COUNT(rows); row++) {
        uint8_t record[RECORD_BYTES];
        lay_drive(record, &row->drive);
        memset(record + STORMTOGGLE_RECORD_SENSE, 0xff, SENSE_BYTES);
        judged((struct slice){record, RECORD_BYTES}, partitions[SOUND], partitions[ABSENT], row->refusal, row->what);
    }
}

/* A base record with one byte of it at each of its values. */
static void every_byte(const struct base *base)
{
    uint8_t record[RECORD_BYTES];
    char what[80];
    lay_drive(record, &base->drive);
    expect(well_formed((struct slice){record, RECORD_BYTES}), "the oracle, %s", base->what);
    for (size_t at = 0; at < RECORD_BYTES; at++) {
        uint8_t kept = record[at];
        for (unsigned value = 0; value < 256; value++) {
            record[at] = (uint8_t)value;
            snprintf(what, sizeof what, "%s, byte %zu is %02xh", base->what, at, value);
            cartridges(record, what);
        }
        record[at] = kept;
    }
}

static void every_base(void)
{
    for (size_t i = 0; i < COUNT(bases); i++)
        every_byte(&bases[i]);
}

/* Fresh bytes, cut or followed by zeros. */
static void record_lengths(void)
{
    uint8_t bytes[256 + RECORD_BYTES] = {0};
    memcpy(bytes, fresh_bytes, RECORD_BYTES);
    for (size_t i = 0; i < COUNT(lengths_of_no_record); i++)
        judged((struct slice){bytes, lengths_of_no_record[i]}, partitions[SOUND], partitions[ABSENT], BY_DRIVE,
               "a record that is not 30 bytes");
}

/* Base records with any sense, one byte in ten drawn anew from values about the lawful ones, and any partitions. */
static void random_records(void)
{
    static const uint8_t drawn[] = {0, 0, 0, 1, 1, 2, 3, ATTENTION_MOUNTED - 1, ATTENTION_MOUNTED,
                                    ATTENTION_FRESH, ATTENTION_FRESH + 1, 0x80, 0xff};
    for (int round = 0; round < 2000; round++) {
        enum kind p0 = random_below(KINDS), p1 = random_below(KINDS);
        uint8_t record[RECORD_BYTES];
        lay_drive(record, &bases[random_below(COUNT(bases))].drive);
        for (size_t at = 0; at < STORMTOGGLE_RECORD_SENSE; at++)
            if (random_below(10) == 0)
                record[at] = drawn[random_below(COUNT(drawn))];
        for (size_t at = STORMTOGGLE_RECORD_SENSE; at < RECORD_BYTES; at++)
            record[at] = (uint8_t)random_below(256);
        cartridges(record, "a random record");
        mount_agrees((struct slice){record, RECORD_BYTES}, partitions[p0], partitions[p1], "a random record");
    }
}

/* An image as partition 0, alone and before a sound one, and as partition 1. */
static void mounts_of(struct slice image, const char *what)
{
    struct slice record = {fresh_bytes, RECORD_BYTES};
    mount_agrees(record, image, partitions[ABSENT], what);
    mount_agrees(record, image, partitions[SOUND], what);
    mount_agrees(record, partitions[SOUND], image, what);
}

static void every_bit_of_e(void)
{
    for (size_t bit = 0; bit < 8 * sizeof example_e; bit++) {
        uint8_t image[sizeof example_e];
        memcpy(image, example_e, sizeof image);
        image[bit / 8] ^= (uint8_t)(1 << bit % 8);
        mounts_of((struct slice){image, sizeof image}, "a bit of E flipped");
    }
}

static void every_length_of_e(void)
{
    for (size_t length = 0; length < sizeof example_e; length++)
        mounts_of((struct slice){example_e + sizeof example_e - length, length}, "the tail of E");
}

/* ---- the order of refusals, and read-only pages */

static struct slice on_read_only_pages(struct slice lent)
{
    return lent.length == 0 ? (struct slice){NULL, 0} : (struct slice){sealed(lent.bytes, lent.length), lent.length};
}

/* Partitions that cannot be written, and a record that cannot either unless the mount is done. */
static void read_only(uint8_t *record, size_t length, enum kind kind0, enum kind kind1, unsigned refusal)
{
    struct slice p0 = on_read_only_pages(partitions[kind0]), p1 = on_read_only_pages(partitions[kind1]);
    if (refusal != 0)
        record = length == 0 ? NULL : sealed(record, length);
    expect_in_child(stormtoggle_mount(record, length, p0.bytes, p0.length, p1.bytes, p1.length) == REFUSED(refusal),
                    "refusal %u of a mount of %zu and %zu bytes on read-only pages", refusal, p0.length, p1.length);
}

/* A record that is refused by this number, or by none, with each pair of partitions. */
static void pairs(size_t length, struct drive drive, unsigned refusal, const char *what)
{
    enum { U = BY_UNSOUND, L = BY_LENGTH };
    static const unsigned order_of_7_and_6[KINDS][KINDS] = {
        /* partition 1: absent, short, unsound, sound */
        [ABSENT] = {L, L, L, L},
        [SHORT] = {L, L, L, L},
        [UNSOUND] = {U, L, U, U},
        [SOUND] = {0, L, U, 0},
    };
    uint8_t record[RECORD_BYTES];
    lay_drive(record, &drive);
    for (int p0 = 0; p0 < KINDS; p0++)
        for (int p1 = 0; p1 < KINDS; p1++) {
            unsigned first = refusal != 0 ? refusal : order_of_7_and_6[p0][p1];
            judged((struct slice){record, length}, partitions[p0], partitions[p1], first, what);
            read_only(record, length, p0, p1, first);
        }
}

static void order(void)
{
    pairs(RECORD_BYTES, fresh_drive(), 0, "a fresh record");
    pairs(0, fresh_drive(), BY_DRIVE, "no record");
    pairs(RECORD_BYTES - 1, fresh_drive(), BY_DRIVE, "a fresh record but for its last byte");
    pairs(RECORD_BYTES, (struct drive){.attention = ATTENTION_FRESH + 1}, BY_DRIVE, "an ill-formed record");
    pairs(RECORD_BYTES, (struct drive){.loaded = 1, .partitions = 1}, BY_LOADED, "a loaded record");
    pairs(RECORD_BYTES, (struct drive){.loaded = 1, .partitions = 2, .block_length = LARGEST_BLOCK + 1}, BY_DRIVE,
          "loaded and ill-formed");
}

/* One record through its states. */
static void one_record(void)
{
    uint8_t two[RECORD_BYTES], *record = lend(zeros, RECORD_BYTES);
    uint8_t *e = lend(example_e, E_BYTES), *second = lend(example_e, E_BYTES);
    memcpy(two, mounted_bytes, RECORD_BYTES);
    two[STORMTOGGLE_RECORD_PARTITIONS] = 2;
    expect_equal(stormtoggle_fresh(record, RECORD_BYTES), DONE, "fresh");
    expect_equal(stormtoggle_mount(record, RECORD_BYTES, NULL, 0, NULL, 0), REFUSED(BY_LENGTH), "mount of nothing");
    expect_bytes(record, fresh_bytes, RECORD_BYTES, "a fresh record");
    expect_equal(stormtoggle_mount(record, RECORD_BYTES, e, E_BYTES, NULL, 0), DONE, "mount of E");
    expect_bytes(record, mounted_bytes, RECORD_BYTES, "a mounted record");
    expect_equal(stormtoggle_mount(record, RECORD_BYTES, e, E_BYTES, NULL, 0), REFUSED(BY_LOADED), "mount of E again");
    expect_bytes(record, mounted_bytes, RECORD_BYTES, "a mounted record after a refusal");
    expect_equal(stormtoggle_fresh(record, RECORD_BYTES), DONE, "fresh while loaded");
    expect_bytes(record, fresh_bytes, RECORD_BYTES, "a fresh record again");
    expect_equal(stormtoggle_mount(record, RECORD_BYTES, e, E_BYTES, second, E_BYTES), DONE, "mount of two partitions");
    expect_bytes(record, two, RECORD_BYTES, "a record with two partitions");
    take_back(second, E_BYTES);
    take_back(e, E_BYTES);
    take_back(record, RECORD_BYTES);
}

/* ---- lengths that no copy could have */

/* A fresh record by the low 32 bits of its length. */
static void record_too_long(void)
{
    size_t length = (size_t)BEYOND_32_BITS + RECORD_BYTES;
    uint8_t *record = sparse(length);
    if (record == NULL)
        return;
    memcpy(record, fresh_bytes, RECORD_BYTES);
    expect_equal(stormtoggle_mount(record, length, NULL, 0, NULL, 0), REFUSED(BY_DRIVE), "record of %zu bytes", length);
    expect_bytes(record, fresh_bytes, RECORD_BYTES, "first bytes of %zu after a refused mount", length);
    memcpy(record, mounted_bytes, RECORD_BYTES);
    expect_equal(stormtoggle_fresh(record, length), REFUSED(BY_DRIVE), "fresh of %zu bytes", length);
    expect_bytes(record, mounted_bytes, RECORD_BYTES, "first bytes of %zu after a refused fresh", length);
    munmap(record, length);
}

/* A blank of this length, before and behind each kind of partition. */
static void partition_length(size_t length, int in_range)
{
    uint8_t *image = sparse(length), want[TRAILER];
    struct slice record = {fresh_bytes, RECORD_BYTES}, blank = {image, length};
    char what[80];
    if (image == NULL)
        return;
    lay_trailer(image, length, 0, 0);
    memcpy(want, image + length - TRAILER, TRAILER);
    snprintf(what, sizeof what, "a blank of %zu bytes", length);
    expect_equal(mount_refusal(record, blank, partitions[ABSENT]), in_range ? 0 : BY_LENGTH, "the oracle, %s", what);
    for (int kind = 0; kind < KINDS; kind++) {
        size_t size = partitions[kind].length;
        uint8_t *other = lend(partitions[kind].bytes, size);
        mount_in_place(record, blank, (struct slice){other, size}, what);
        mount_in_place(record, (struct slice){other, size}, blank, what);
        expect_bytes(other, partitions[kind].bytes, size, "the other partition, %s", what);
        take_back(other, size);
    }
    expect_bytes(image + length - TRAILER, want, TRAILER, "trailer after mounts, %s", what);
    munmap(image, length);
}

static void partition_lengths(void)
{
    partition_length(TRAILER, 0);
    partition_length(SHORTEST - 1, 0);
    partition_length(SHORTEST, 1);
    partition_length(LONGEST, 1);
    partition_length((size_t)LONGEST + 1, 0);
    partition_length((size_t)BEYOND_32_BITS + SHORTEST, 0);
}

/* The header's places, on a record whose bytes are the numbers 1 to 30, so that each tells where it stands. */
static void fields(void)
{
    static const uint8_t record[] = {1,  2,  3,  4,  5,  6,  7,  8,  9,  10, 11, 12, 13, 14, 15,
                                     16, 17, 18, 19, 20, 21, 22, 23, 24, 25, 26, 27, 28, 29, 30};
    const uint8_t *sense = record + STORMTOGGLE_RECORD_SENSE;
    expect_equal(STORMTOGGLE_RECORD_LENGTH, sizeof record, "a record's length");
    expect_equal(record[STORMTOGGLE_RECORD_LOADED], 1, "loaded");
    expect_equal(record[STORMTOGGLE_RECORD_PARTITIONS], 2, "partitions");
    expect_equal(record[STORMTOGGLE_RECORD_CURRENT], 3, "current partition");
    expect_equal(record[STORMTOGGLE_RECORD_ATTENTION], 4, "attention");
    expect_equal(get32(record + STORMTOGGLE_RECORD_POSITION), 0x05060708, "position");
    expect_equal(get32(record + STORMTOGGLE_RECORD_BLOCK_LENGTH), 0x090a0b0c, "block length");
    expect_equal(STORMTOGGLE_SENSE_LENGTH, 18, "the kept sense's length");
    expect_equal(sense[STORMTOGGLE_SENSE_FIRST], 13, "the kept sense's first byte");
    expect_equal(sense[STORMTOGGLE_SENSE_KEY], 15, "flags and key");
    expect_equal(get32(sense + STORMTOGGLE_SENSE_INFORMATION), 0x10111213, "information");
    expect_equal(sense[STORMTOGGLE_SENSE_REST], 20, "how many bytes follow");
    expect_equal(sense[STORMTOGGLE_SENSE_ASC], 25, "ASC");
    expect_equal(sense[STORMTOGGLE_SENSE_ASCQ], 26, "ASCQ");
}

int main(void)
{
    fresh_by_length();
    fresh_of_any_bytes();
    order();
    one_record();
    records();
    record_lengths();
    every_base();
    random_records();
    every_bit_of_e();
    every_length_of_e();
    record_too_long();
    partition_lengths();
    fields();
    return tally();
}
