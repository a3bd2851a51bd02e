/* large.h: cases of blocks above 65,536 bytes, as Q-7 of document 02 allows them: "Raise the largest block from 65,536
 * to 1,048,576 bytes." */
#ifndef EDGES_LARGE_H
#define EDGES_LARGE_H

#include "large_fixed.h"
#include "mounted.h"

/* ---- variable WRITE */

/* A block that takes all the room ends in the zone, on an image that is a byte shorter it is not put, and where there
 * is room to spare it is GOOD. */
#define WRITES(name, size, words, just_enough, a_byte_short, roomy, start, end)                                     \
    {"WRITE " name " into just enough", just_enough, SIX(WRITE, 0, size), start, .sent = size, .after = end,        \
     .told = RESIDUE(TOLD_ZONE, 0), .carried = size, .puts = words},                                                \
    {"WRITE " name " into a byte less", a_byte_short, SIX(WRITE, 0, size), start, .sent = size, .after = start,     \
     .told = RESIDUE(TOLD_OVERFLOW, size)},                                                                         \
    {"WRITE " name " with room to spare", roomy, SIX(WRITE, 0, size), start, .sent = (size) + 5, .after = end,      \
     .carried = size, .puts = words}

/* Whatever the length, up to the largest: what comes before it acts, and room that it has not. */
#define NO_FIELD_ERROR(name, size)                                                                                  \
    {"WRITE " name " of a protected one", GUARDED, SIX(WRITE, 0, size), AT(0), .sent = 5, .after = AT(0),           \
     .told = PLAIN(TOLD_PROTECTED)},                                                                                \
    {"WRITE " name " with a byte less sent", E, SIX(WRITE, 0, size), SET(0, 0), .sent = (size) - 1,                 \
     .refusal = BY_SENT},                                                                                           \
    {"WRITE " name " with nothing sent", E, SIX(WRITE, 0, size), AT(2), .refusal = BY_SENT},                        \
    {"WRITE " name " with nothing loaded", NONE, SIX(WRITE, 0, size), UNLOADED, .after = UNLOADED,                  \
     .told = NOT_LOADED},                                                                                           \
    {"WRITE " name " into no room", E, SIX(WRITE, 0, size), MOUNTED(0), .sent = size, .after = MOUNTED(0),          \
     .told = RESIDUE(TOLD_OVERFLOW, size)}

/* One byte more is a field error, before all of these. */
#define FIELD_ERROR(name, size)                                                                                     \
    {"WRITE " name " of a protected one", GUARDED, SIX(WRITE, 0, size), AT(0), .sent = 5, .after = AT(0),           \
     .told = FIELD},                                                                                                \
    {"WRITE " name " with nothing sent", E, SIX(WRITE, 0, size), AT(2), .after = AT(2), .told = FIELD},             \
    {"WRITE " name " with nothing loaded", NONE, SIX(WRITE, 0, size), UNLOADED, .after = UNLOADED, .told = FIELD}

static const struct edge large_writes[] = {
    WRITES("65,537", FORMER_LARGEST + 1, "b65537", FOR_65537, SHORT_OF_65537, FORMER, AT(0), AT(1)),
    WRITES("800,000", PICTURE_BYTES, "b800000", FOR_PICTURE, SHORT_OF_PICTURE, BIG, MOUNTED(0), MOUNTED(1)),
    WRITES("1,048,576", LARGEST_BLOCK, "B", FOR_LARGEST, SHORT_OF_LARGEST, BIG, MOUNTED(0), MOUNTED(1)),
    NO_FIELD_ERROR("65,537", FORMER_LARGEST + 1),
    NO_FIELD_ERROR("1,048,576", LARGEST_BLOCK),
    FIELD_ERROR("1,048,577", LARGEST_BLOCK + 1),
    FIELD_ERROR("2^21", 1 << 21),
    FIELD_ERROR("FFFFFFh", COUNT_MOST),
    {"WRITE 1,048,577 with a byte less sent", E, SIX(WRITE, 0, LARGEST_BLOCK + 1), MOUNTED(0), .sent = LARGEST_BLOCK,
     .after = MOUNTED(0), .told = FIELD},
    {"WRITE 1,048,577 under an attention", E, SIX(WRITE, 0, LARGEST_BLOCK + 1), WAITING(ATTENTION_MOUNTED, 0),
     .after = AT(0), .told = PLAIN(TOLD_MOUNTED)},
    {"WRITE 800,000 behind the largest block", BIG, SIX(WRITE, 0, PICTURE_BYTES), MOUNTED(1), .sent = PICTURE_BYTES,
     .after = MOUNTED(2), .carried = PICTURE_BYTES, .puts = "b800000"},
    {"WRITE 65,537 over a block of 800,000", PICTURE, SIX(WRITE, 0, FORMER_LARGEST + 1), MOUNTED(0),
     .sent = FORMER_LARGEST + 1, .after = MOUNTED(1), .carried = FORMER_LARGEST + 1, .puts = "b65537"},
    {"WRITE 800,000 to partition 1", E, SIX(WRITE, 0, PICTURE_BYTES), {1, 2, 1, ATTENTION_NONE, 0, 0, OLD_SENSE},
     .p1 = FOR_PICTURE, .sent = PICTURE_BYTES, .after = {1, 2, 1, ATTENTION_NONE, 1, 0, {0}},
     .told = RESIDUE(TOLD_ZONE, 0), .carried = PICTURE_BYTES, .puts = "b800000"},
};

/* ---- variable READ */

#define INTO(length) .room = (length)
static const struct edge large_reads[] = {
    {"READ 800,000 of 800,000", PICTURE, SIX(READ, 0, PICTURE_BYTES), AT(0), INTO(PICTURE_BYTES), .after = AT(1),
     .reads = PICTURE_BYTES},
    {"READ 799,999 of 800,000", PICTURE, SIX(READ, 0, PICTURE_BYTES - 1), AT(0), INTO(PICTURE_BYTES), .after = AT(1),
     .told = RESIDUE(TOLD_LENGTH, 0xffffffff), .reads = PICTURE_BYTES - 1},
    {"READ 800,001 of 800,000", PICTURE, SIX(READ, 0, PICTURE_BYTES + 1), AT(0), INTO(PICTURE_BYTES + 1),
     .after = AT(1), .told = RESIDUE(TOLD_LENGTH, 1), .reads = PICTURE_BYTES},
    {"READ 800,000 of 800,000 with SILI", PICTURE, SIX(READ, SILI, PICTURE_BYTES), AT(0), INTO(PICTURE_BYTES),
     .after = AT(1), .reads = PICTURE_BYTES},
    {"READ 800,001 of 800,000 with SILI", PICTURE, SIX(READ, SILI, PICTURE_BYTES + 1), AT(0), INTO(PICTURE_BYTES + 1),
     .after = AT(1), .reads = PICTURE_BYTES},
    {"READ 799,999 of 800,000 with SILI, block length 0", PICTURE, SIX(READ, SILI, PICTURE_BYTES - 1), SET(0, 0),
     INTO(PICTURE_BYTES), .after = SET(0, 1), .reads = PICTURE_BYTES - 1},
    {"READ 799,999 of 800,000 with SILI, block length 32,768", PICTURE, SIX(READ, SILI, PICTURE_BYTES - 1), MOUNTED(0),
     INTO(PICTURE_BYTES), .after = MOUNTED(1), .told = RESIDUE(TOLD_LENGTH, 0xffffffff), .reads = PICTURE_BYTES - 1},
    {"READ 65,536 of 65,537", OF_65537, SIX(READ, 0, FORMER_LARGEST), AT(0), INTO(FORMER_LARGEST), .after = AT(1),
     .told = RESIDUE(TOLD_LENGTH, 0xffffffff), .reads = FORMER_LARGEST},
    {"READ 65,536 of 65,537 with SILI, block length 0", OF_65537, SIX(READ, SILI, FORMER_LARGEST), SET(0, 0),
     INTO(FORMER_LARGEST), .after = SET(0, 1), .reads = FORMER_LARGEST},
    {"READ 65,537 of 65,537", OF_65537, SIX(READ, 0, FORMER_LARGEST + 1), AT(0), INTO(FORMER_LARGEST + 1),
     .after = AT(1), .reads = FORMER_LARGEST + 1},
    {"READ 65,536 of 800,000", PICTURE, SIX(READ, 0, FORMER_LARGEST), AT(0), INTO(FORMER_LARGEST), .after = AT(1),
     .told = RESIDUE(TOLD_LENGTH, 0xfff4cb00), .reads = FORMER_LARGEST},
    {"READ 65,536 of 800,000 with SILI, block length 0", PICTURE, SIX(READ, SILI, FORMER_LARGEST), SET(0, 0),
     INTO(FORMER_LARGEST), .after = SET(0, 1), .reads = FORMER_LARGEST},
    {"READ 65,536 of 800,000 with SILI, block length 1,048,576", PICTURE, SIX(READ, SILI, FORMER_LARGEST),
     SET(LARGEST_BLOCK, 0), INTO(FORMER_LARGEST), .after = SET(LARGEST_BLOCK, 1),
     .told = RESIDUE(TOLD_LENGTH, 0xfff4cb00), .reads = FORMER_LARGEST},
    {"READ 1,048,576 of 1,048,576", LARGEST_1, SIX(READ, 0, LARGEST_BLOCK), MOUNTED(0), INTO(LARGEST_BLOCK),
     .after = MOUNTED(1), .reads = LARGEST_BLOCK},
    {"READ 1,048,575 of 1,048,576", LARGEST_1, SIX(READ, 0, LARGEST_BLOCK - 1), SET(0, 0), INTO(LARGEST_BLOCK),
     .after = SET(0, 1), .told = RESIDUE(TOLD_LENGTH, 0xffffffff), .reads = LARGEST_BLOCK - 1},
    {"READ 1 of 1,048,576", LARGEST_1, SIX(READ, 0, 1), SET(0, 0), INTO(1), .after = SET(0, 1),
     .told = RESIDUE(TOLD_LENGTH, 0xfff00001), .reads = 1},
    {"READ 1,048,576 of 3", E, SIX(READ, 0, LARGEST_BLOCK), AT(0), INTO(LARGEST_BLOCK), .after = AT(1),
     .told = RESIDUE(TOLD_LENGTH, 0xffffd), .data = BYTES(1, 2, 3)},
    {"READ 1,048,576 of 3 with SILI", E, SIX(READ, SILI, LARGEST_BLOCK), AT(0), INTO(LARGEST_BLOCK), .after = AT(1),
     .data = BYTES(1, 2, 3)},
    {"READ 1,048,576 of a filemark", E, SIX(READ, 0, LARGEST_BLOCK), MOUNTED(1), INTO(LARGEST_BLOCK),
     .after = MOUNTED(2), .told = RESIDUE(TOLD_FILEMARK, LARGEST_BLOCK)},
    /* The request alone says what is needed, and no request is a field error. */
    {"READ 1,048,576 into a byte less", E, SIX(READ, 0, LARGEST_BLOCK), MOUNTED(0), INTO(LARGEST_BLOCK - 1),
     .refusal = BY_RECEIVED},
    {"READ 1,048,577 of 1,048,576", LARGEST_1, SIX(READ, 0, LARGEST_BLOCK + 1), SET(0, 0), INTO(LARGEST_BLOCK + 1),
     .after = SET(0, 1), .told = RESIDUE(TOLD_LENGTH, 1), .reads = LARGEST_BLOCK},
    {"READ 1,048,577 of 1,048,576 with SILI", LARGEST_1, SIX(READ, SILI, LARGEST_BLOCK + 1), MOUNTED(0),
     INTO(LARGEST_BLOCK + 1), .after = MOUNTED(1), .reads = LARGEST_BLOCK},
    {"READ 1,048,577 of 1,048,576 into a byte less", LARGEST_1, SIX(READ, 0, LARGEST_BLOCK + 1), SET(0, 0),
     INTO(LARGEST_BLOCK), .refusal = BY_RECEIVED},
    {"READ 800,000 of partition 1", E, SIX(READ, 0, PICTURE_BYTES), {1, 2, 1, ATTENTION_NONE, 0, 0, OLD_SENSE},
     .p1 = PICTURE, INTO(PICTURE_BYTES), .after = {1, 2, 1, ATTENTION_NONE, 1, 0, {0}}, .reads = PICTURE_BYTES},
    {"READ 800,000 behind others", SMALL_AND_LARGE, SIX(READ, 0, PICTURE_BYTES), MOUNTED(3), INTO(PICTURE_BYTES),
     .after = MOUNTED(4), .reads = PICTURE_BYTES},
};

/* The longest request there is. These are run last: a fork is slow where so many bytes were lent. */
static const struct edge longest_reads[] = {
    {"READ FFFFFFh of 3", E, SIX(READ, 0, COUNT_MOST), SET(0, 0), INTO(COUNT_MOST), .after = SET(0, 1),
     .told = RESIDUE(TOLD_LENGTH, 0xfffffc), .data = BYTES(1, 2, 3)},
    {"READ FFFFFFh of 800,000 with SILI", PICTURE, SIX(READ, SILI, COUNT_MOST), MOUNTED(0), INTO(COUNT_MOST),
     .after = MOUNTED(1), .reads = PICTURE_BYTES},
    {"READ FFFFFFh into a byte less", E, SIX(READ, 0, COUNT_MOST), SET(0, 0), INTO(COUNT_MOST - 1),
     .refusal = BY_RECEIVED},
};

/* ---- MODE SELECT, MODE SENSE and READ BLOCK LIMITS */

#define SELECT SIX(MODE_SELECT, PF, MODE_BYTES)
#define SENSE PAGE(0, PAGE_NONE, MODE_BYTES)
#define LIMITS SIX(READ_BLOCK_LIMITS, 0, 0)
static const struct edge large_modes[] = {
    {"10 00 00 sets 1,048,576", E, SELECT, MOUNTED(1), SELECTS(0x10, 0, 0), .after = SET(LARGEST_BLOCK, 1),
     .carried = MODE_BYTES},
    {"10 00 00 with nothing loaded", NONE, SELECT, EMPTY(9), SELECTS(0x10, 0, 0), .after = EMPTY(LARGEST_BLOCK),
     .carried = MODE_BYTES},
    {"0F FF FF sets 1,048,575", E, SELECT, SET(0, 1), SELECTS(0x0f, 0xff, 0xff), .after = SET(LARGEST_BLOCK - 1, 1),
     .carried = MODE_BYTES},
    {"0C 35 00 sets 800,000", E, SELECT, MOUNTED(1), SELECTS(0x0c, 0x35, 0), .after = SET(PICTURE_BYTES, 1),
     .carried = MODE_BYTES},
    {"01 00 00 sets 65,536", E, SELECT, MOUNTED(1), SELECTS(1, 0, 0), .after = SET(FORMER_LARGEST, 1),
     .carried = MODE_BYTES},
    {"01 00 01 sets 65,537", E, SELECT, SET(LARGEST_BLOCK, 1), SELECTS(1, 0, 1), .after = SET(FORMER_LARGEST + 1, 1),
     .carried = MODE_BYTES},
    {"10 00 01 keeps 1,048,576", E, SELECT, SET(LARGEST_BLOCK, 1), SELECTS(0x10, 0, 1), .after = SET(LARGEST_BLOCK, 1),
     .told = PLAIN(TOLD_LIST)},
    {"10 00 01 keeps 800,000 with nothing loaded", NONE, SELECT, EMPTY(PICTURE_BYTES), SELECTS(0x10, 0, 1),
     .after = EMPTY(PICTURE_BYTES), .told = PLAIN(TOLD_LIST)},
    {"10 01 00 keeps 0", E, SELECT, SET(0, 1), SELECTS(0x10, 1, 0), .after = SET(0, 1), .told = PLAIN(TOLD_LIST)},
    {"11 00 00 keeps it", E, SELECT, MOUNTED(1), SELECTS(0x11, 0, 0), .after = MOUNTED(1), .told = PLAIN(TOLD_LIST)},
    {"80 00 00 keeps it", E, SELECT, MOUNTED(1), SELECTS(0x80, 0, 0), .after = MOUNTED(1), .told = PLAIN(TOLD_LIST)},
    {"FF FF FF keeps it", E, SELECT, MOUNTED(1), SELECTS(0xff, 0xff, 0xff), .after = MOUNTED(1),
     .told = PLAIN(TOLD_LIST)},
    {"MODE SENSE tells 1,048,576", E, SENSE, SET(LARGEST_BLOCK, 1), INTO(MODE_BYTES), .after = SET(LARGEST_BLOCK, 1),
     .data = TELLS_OTHER(0x10, 0, 0)},
    {"MODE SENSE tells 1,048,576 with nothing loaded", NONE, SENSE, EMPTY(LARGEST_BLOCK), INTO(MODE_BYTES),
     .after = EMPTY(LARGEST_BLOCK), .data = TELLS_OTHER(0x10, 0, 0)},
    {"MODE SENSE tells 800,000", E, SENSE, SET(PICTURE_BYTES, 1), INTO(MODE_BYTES), .after = SET(PICTURE_BYTES, 1),
     .data = TELLS_OTHER(0x0c, 0x35, 0)},
    {"MODE SENSE tells 65,537", E, SENSE, SET(FORMER_LARGEST + 1, 1), INTO(MODE_BYTES),
     .after = SET(FORMER_LARGEST + 1, 1), .data = TELLS_OTHER(1, 0, 1)},
    {"MODE SENSE 10 tells its first byte", E, PAGE(0, PAGE_ALL, 10), SET(LARGEST_BLOCK, 1), INTO(10),
     .after = SET(LARGEST_BLOCK, 1), .data = BYTES(0x0b, 0, 0, 8, 0, 0, 0, 0, 0, 0x10)},
    {"READ BLOCK LIMITS", E, LIMITS, AT(1), INTO(LIMITS_BYTES), .after = AT(1), .data = BYTES(0, 0x10, 0, 0, 0, 1)},
    {"READ BLOCK LIMITS, whatever is set", E, LIMITS, SET(LARGEST_BLOCK, 1), INTO(9), .after = SET(LARGEST_BLOCK, 1),
     .data = BYTES(0, 0x10, 0, 0, 0, 1)},
    {"READ BLOCK LIMITS with nothing loaded", NONE, LIMITS, UNLOADED, INTO(LIMITS_BYTES), .after = UNLOADED,
     .data = BYTES(0, 0x10, 0, 0, 0, 1)},
    {"READ BLOCK LIMITS under an attention", NONE, LIMITS, BARE(ATTENTION_FRESH, EITHER), INTO(LIMITS_BYTES),
     .after = UNLOADED, .told = PLAIN(TOLD_FRESH)},
    {"READ BLOCK LIMITS into 5 bytes", E, LIMITS, AT(1), INTO(LIMITS_BYTES - 1), .refusal = BY_RECEIVED},
    {"READ BLOCK LIMITS into 5 bytes, unloaded", NONE, LIMITS, UNLOADED, INTO(LIMITS_BYTES - 1),
     .refusal = BY_RECEIVED},
};

/* ---- records and images under a command */

#define READY SIX(TEST_UNIT_READY, 0, 0)
#define SERVED_WITH(name, length)                                                                                 \
    {"block length " name, E, READY, SET(length, 1), .after = SET(length, 1)},                                    \
    {"block length " name ", unloaded", NONE, READY, EMPTY(length), .after = EMPTY(length), .told = NOT_LOADED},  \
    {"block length " name ", two partitions", E, READY, {1, 2, 1, ATTENTION_NONE, 1, length, OLD_SENSE}, .p1 = E, \
     .after = {1, 2, 1, ATTENTION_NONE, 1, length, {0}}}
#define REFUSED_WITH(name, length)                                                                                \
    {"block length " name, E, READY, SET(length, 1), .refusal = BY_DRIVE},                                        \
    {"block length " name ", unloaded", NONE, READY, EMPTY(length), .refusal = BY_DRIVE},                         \
    {"block length " name " under an attention", E, READY, LOADED(ATTENTION_MOUNTED, 1, length),                  \
     .refusal = BY_DRIVE},                                                                                        \
    {"block length " name ", five bytes of six", E, {BYTES_6 - 1, {TEST_UNIT_READY}}, SET(length, 1),             \
     .refusal = BY_COMMAND}
static const struct edge large_drives[] = {
    SERVED_WITH("65,536", FORMER_LARGEST),
    SERVED_WITH("65,537", FORMER_LARGEST + 1),
    SERVED_WITH("70,000", 70000),
    SERVED_WITH("1,048,575", LARGEST_BLOCK - 1),
    SERVED_WITH("1,048,576", LARGEST_BLOCK),
    REFUSED_WITH("1,048,577", LARGEST_BLOCK + 1),
    REFUSED_WITH("2^21", 1 << 21),
    REFUSED_WITH("2^24 + 3", (1 << 24) + 3),
    {"a block of 65,536 stays sound", FORMER, READY, MOUNTED(1), .after = MOUNTED(1)},
    {"a block of 65,537 is sound", OF_65537, READY, AT(1), .after = AT(1)},
    {"a block of 800,000 is sound", PICTURE, READY, MOUNTED(1), .after = MOUNTED(1)},
    {"a block of 1,048,576 is sound", LARGEST_1, READY, MOUNTED(1), .after = MOUNTED(1)},
    {"a block of 1,048,577 is not", ABOVE_LARGEST, READY, MOUNTED(0), .refusal = BY_DRIVE},
    {"a block of 1,048,577 behind another is not", ABOVE_LARGEST_BEHIND, SIX(READ, 0, 3), MOUNTED(0), INTO(3),
     .refusal = BY_DRIVE},
    {"a block of 1,048,577 in partition 1 is not", E, READY, {1, 2, 0, ATTENTION_NONE, 0, 0, OLD_SENSE},
     .p1 = ABOVE_LARGEST, .refusal = BY_DRIVE},
    {"a block of 1,048,577 while unloaded is not looked at", ABOVE_LARGEST, READY, EMPTY(9), .after = EMPTY(9),
     .told = NOT_LOADED},
};

/* ---- lengths selected over another, and lengths that ask for more than is lent */

#define SETS(name, length, high, middle, low)                                                                     \
    {"MODE SELECT of " name " over 512", E, SELECT, SET(512, 1), SELECTS(high, middle, low),                      \
     .after = SET(length, 1), .carried = MODE_BYTES}
#define KEEPS(name, high, middle, low)                                                                            \
    {"MODE SELECT of " name " over 512", E, SELECT, SET(512, 1), SELECTS(high, middle, low),                      \
     .after = SET(512, 1), .told = PLAIN(TOLD_LIST)}
static const struct edge large_requests[] = {
    SETS("65,536", FORMER_LARGEST, 1, 0, 0),
    SETS("65,537", FORMER_LARGEST + 1, 1, 0, 1),
    SETS("800,000", PICTURE_BYTES, 0x0c, 0x35, 0),
    SETS("1,048,575", LARGEST_BLOCK - 1, 0x0f, 0xff, 0xff),
    SETS("1,048,576", LARGEST_BLOCK, 0x10, 0, 0),
    KEEPS("1,048,577", 0x10, 0, 1),
    KEEPS("FFFFFFh", 0xff, 0xff, 0xff),
    {"MODE SENSE with block length 1,048,577", E, SENSE, SET(LARGEST_BLOCK + 1, 1), .refusal = BY_DRIVE},
    {"REQUEST SENSE with block length 2^31", NONE, SIX(REQUEST_SENSE, 0, SENSE_BYTES),
     BARE(ATTENTION_FRESH, 0x80000000), .refusal = BY_DRIVE},
    {"READ 1,048,577 into nothing", E, SIX(READ, 0, LARGEST_BLOCK + 1), AT(0), .refusal = BY_RECEIVED},
    {"READ FFFFFFh at end of data into nothing", E, SIX(READ, 0, COUNT_MOST), AT(2), .refusal = BY_RECEIVED},
    {"FIXED READ 0 in blocks of 1,048,576", E, SIX(READ, FIXED, 0), SET(LARGEST_BLOCK, 0),
     .after = SET(LARGEST_BLOCK, 0)},
    {"FIXED READ 1 in blocks of 1,048,576 into nothing", E, SIX(READ, FIXED, 1), SET(LARGEST_BLOCK, 0),
     .refusal = BY_RECEIVED},
};

/* ---- the same under the house services */

static const struct mounting large_mountings[] = {
    {"over block length 65,537, of a block as long", EMPTY(FORMER_LARGEST + 1), OF_65537, NONE, 0, 0},
    {"over block length 70,000", EMPTY(70000), E, NONE, 0, 0},
    {"over block length 800,000, of a block as long", EMPTY(PICTURE_BYTES), PICTURE, NONE, 0, 0},
    {"over block length 1,048,576, of two as long", EMPTY(LARGEST_BLOCK), LARGEST_2, NONE, 0, 0},
    {"of an older image beside a new one", BARE(ATTENTION_FRESH, 0), FORMER, PICTURE, 0, 0},
    {"of block length 2^21", EMPTY(1 << 21), E, NONE, BY_DRIVE, 0},
    {"while loaded with block length 65,537", SET(FORMER_LARGEST + 1, 1), E, NONE, BY_LOADED, 0},
    {"while loaded with block length 70,000", SET(70000, 1), E, NONE, BY_LOADED, 0},
    {"while loaded with block length 1,048,576", SET(LARGEST_BLOCK, 1), E, NONE, BY_LOADED, 0},
    {"while loaded with block length 1,048,577", SET(LARGEST_BLOCK + 1, 1), E, NONE, BY_DRIVE, 0},
    {"of block length 1,048,577 and nothing", EMPTY(LARGEST_BLOCK + 1), NONE, NONE, BY_DRIVE, 0},
    {"of a block of 1,048,577", EMPTY(0), ABOVE_LARGEST, NONE, BY_UNSOUND, 0},
    {"of a block of 1,048,577 behind another", EMPTY(LARGEST_BLOCK), ABOVE_LARGEST_BEHIND, NONE, BY_UNSOUND, 0},
    {"of a block of 1,048,577 in partition 1", EMPTY(0), E, ABOVE_LARGEST, BY_UNSOUND, 0},
};

/* The views of a partition's objects, and of the number behind the last; no view is found where it is unsound. */
static const struct viewed {
    enum cartridge cartridge;
    size_t objects;
    uint64_t views[6];
} viewed[] = {
    {FORMER, 1, {FOUND(0, FORMER_LARGEST)}},
    {OF_65537, 1, {FOUND(0, FORMER_LARGEST + 1)}},
    {PICTURE, 1, {FOUND(0, PICTURE_BYTES)}},
    {LARGEST_1, 1, {FOUND(0, LARGEST_BLOCK)}},
    {LARGEST_2, 2, {FOUND(0, LARGEST_BLOCK), FOUND(LARGEST_BLOCK, LARGEST_BLOCK)}},
    {SMALL_AND_LARGE, 6, {FOUND(0, 3), 0, FOUND(3, 65537), FOUND(65540, 800000), 0, FOUND(865540, 1)}},
    {ABOVE_LARGEST, 1, {0}},
    {ABOVE_LARGEST_BEHIND, 3, {0}},
};

/* Views of either place, and then the protection, which sets a flag or is refused by 6. */
static void hold_viewed(const struct viewed *row)
{
    struct call call;
    uint8_t *lent;
    size_t length;
    make_tape(&call, PARTITION_0, row->cartridge);
    length = call.length[PARTITION_0];
    lent = lend(call.before[PARTITION_0], length);
    for (uint64_t object = 0; object <= row->objects; object++) {
        uint64_t want = object < row->objects ? row->views[object] : 0;
        expect_equal(stormtoggle_view(lent, length, NULL, 0, 0, object), want, "view of %u in partition 0 of %zu bytes",
                     (unsigned)object, length);
        expect_equal(stormtoggle_view(NULL, 0, lent, length, 1, object), want, "view of %u in partition 1 of %zu bytes",
                     (unsigned)object, length);
        cases_run++;
    }
    if (row->cartridge < UNSOUND)
        set_field(call.after[PARTITION_0], length, TRAILER_FLAGS, FLAG_PROTECTED);
    expect_equal(stormtoggle_protect(lent, length, 1), REFUSED(row->cartridge < UNSOUND ? 0 : BY_UNSOUND),
                 "protect of %zu bytes", length);
    expect_bytes(lent, call.after[PARTITION_0], length, "%zu bytes behind views and protect", length);
    cases_run++;
    take_back(lent, length);
    free(call.before[PARTITION_0]);
    free(call.after[PARTITION_0]);
}

static void large_blocks(void)
{
    run(large_writes, COUNT(large_writes));
    run(large_reads, COUNT(large_reads));
    run(large_modes, COUNT(large_modes));
    run(large_drives, COUNT(large_drives));
    run(large_requests, COUNT(large_requests));
    run_mountings(large_mountings, COUNT(large_mountings));
    for (size_t i = 0; i < COUNT(viewed); i++)
        hold_viewed(&viewed[i]);
    large_fixed();
    run(longest_reads, COUNT(longest_reads));
}

#endif
