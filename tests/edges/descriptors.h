/* descriptors.h: cases of sense in descriptor form, as Q-4 of document 02 adds it: "Newer hosts set bit 0 of byte 1 in
 * REQUEST SENSE. Serve it with response code 72h". */
#ifndef EDGES_DESCRIPTORS_H
#define EDGES_DESCRIPTORS_H

#include "ends.h"
#include "mounted.h"

/* ---- replies, byte by byte: without an information descriptor 12, and with one, and its eight bytes, 24 */

#define DESCRIBED(key, asc, ascq, flags) \
    BYTES(0x72, key, asc, ascq, 0, 0, 0, 0x04, 0x04, 0x02, 0x00, flags)
#define WITH_INFORMATION(key, asc, ascq, flags, ...)                                                               \
    BYTES(0x72, key, asc, ascq, 0, 0, 0, 0x10, 0x00, 0x0a, 0x80, 0x00, __VA_ARGS__, 0x04, 0x02, 0x00, flags)
#define ZEROS_4 0x00, 0x00, 0x00, 0x00
#define ONES_4 0xff, 0xff, 0xff, 0xff
#define ABOVE(byte) ZEROS_4, 0x00, 0x00, 0x00, byte
#define BELOW(byte) ONES_4, 0xff, 0xff, 0xff, byte
#define IN_FIXED(first, byte_2, information, asc, ascq)                                                           \
    BYTES(first, 0, byte_2, BYTE(information, 24), BYTE(information, 16), BYTE(information, 8),                   \
          BYTE(information, 0), 0x0a, 0, 0, 0, 0, asc, ascq, 0, 0, 0, 0)
#define NOTHING_DESCRIBED DESCRIBED(0x0, 0x00, 0x00, 0x00)
#define NOTHING_IN_FIXED IN_FIXED(0x70, 0x00, 0, 0x00, 0x00)

/* ---- any eighteen bytes kept, and what they are whole in descriptor form */

#define SIX_OF(byte) byte, byte, byte, byte, byte, byte
#define ALL_OF(byte) {SIX_OF(byte), SIX_OF(byte), SIX_OF(byte)}
static const struct turned {
    const char *what;
    uint8_t kept[SENSE_BYTES];
    struct bytes whole;
    int under_attentions; /* is told no more while one waits */
} turned[] = {
    {"nothing", EMPTY_SENSE, NOTHING_DESCRIBED, 1},
    {"a filemark, residue -5", {0xf0, 0, 0x80, 0xff, 0xff, 0xff, 0xfb, 0x0a, [13] = 0x01},
     WITH_INFORMATION(0x0, 0x00, 0x01, 0x80, BELOW(0xfb)), 1},
    {"a filemark, a residue that did not fit", {0x70, 0, 0x80, 0, 0, 0, 0, 0x0a, [13] = 0x01},
     DESCRIBED(0x0, 0x00, 0x01, 0x80), 0},
    {"all FFh", ALL_OF(0xff), WITH_INFORMATION(0xf, 0xff, 0xff, 0xe0, BELOW(0xff)), 1},
    {"all 00h", ALL_OF(0x00), NOTHING_DESCRIBED, 0},
    {"all 7Fh", ALL_OF(0x7f), DESCRIBED(0xf, 0x7f, 0x7f, 0x60), 0},
    {"all 80h", ALL_OF(0x80), WITH_INFORMATION(0x0, 0x80, 0x80, 0x80, ONES_4, 0x80, 0x80, 0x80, 0x80), 0},
    {"VALID alone", {0x80}, WITH_INFORMATION(0x0, 0x00, 0x00, 0x00, ABOVE(0)), 0},
    {"the most that four bytes hold", {0xf0, 0, 0x20, 0x7f, 0xff, 0xff, 0xff, 0x0a},
     WITH_INFORMATION(0x0, 0x00, 0x00, 0x20, ZEROS_4, 0x7f, 0xff, 0xff, 0xff), 0},
    {"the least that four bytes hold", {0xf0, 0, 0x20, 0x80, 0x00, 0x00, 0x00, 0x0a},
     WITH_INFORMATION(0x0, 0x00, 0x00, 0x20, ONES_4, 0x80, 0x00, 0x00, 0x00), 0},
    /* What has no place in descriptors: byte 0 but for VALID, byte 1, bit 4 of byte 2, bytes 7-11 and 14-17. */
    {"all that is dropped", {0x7f, 0xff, 0x10, [7] = 0xff, 0xff, 0xff, 0xff, 0xff, [14] = 0xff, 0xff, 0xff, 0xff},
     NOTHING_DESCRIBED, 0},
    {"bit 4 of byte 2 amid the others", {0x70, 0, 0xff, 0, 0, 0, 0, 0x0a}, DESCRIBED(0xf, 0x00, 0x00, 0xe0), 0},
    {"a value without VALID", {0x70, 0, 0x48, 0xff, 0xff, 0xff, 0xfb, 0x0a, [13] = 0x05},
     DESCRIBED(0x8, 0x00, 0x05, 0x40), 0},
    {"72h first", {0x72, 0x05, 0x24, [7] = 0x04, 0x04, 0x02, 0x00, 0x80}, DESCRIBED(0x4, 0x00, 0x00, 0x20), 0},
    {"F2h first", {0xf2, 0x05, 0x24, 0, 0, 1, 0}, WITH_INFORMATION(0x4, 0x00, 0x00, 0x20, ZEROS_4, 0, 0, 1, 0), 0},
    {"the old sense", OLD_SENSE, WITH_INFORMATION(0x5, 0x24, 0x7f, 0x20, ONES_4, 0xde, 0xad, 0xbe, 0xef), 0},
};

/* "Allocation-limited data is the smaller of allocation and data; that much buffer is needed": with a byte less than
 * that it is refused. It is done with just so many, with one more, with as many more as an information descriptor takes
 * and with far more, and those behind stay. */
static void hold_asking(const char *kept, const struct drive *before, uint8_t byte_1, uint8_t allocation,
                        const struct bytes *whole)
{
    size_t need = allocation < whole->length ? allocation : whole->length, count = 0;
    size_t an_information = STORMTOGGLE_DESCRIPTORS_BOTH - STORMTOGGLE_DESCRIPTORS_STREAM;
    size_t rooms[] = {need - 1, need, need + 1, need + an_information, 255};
    struct call calls[COUNT(rooms)];
    for (size_t i = need == 0; i < COUNT(rooms); i++) {
        char what[100];
        struct edge edge = {.what = what, .command = SIX(REQUEST_SENSE, byte_1, allocation), .before = *before,
                            .room = rooms[i], .refusal = rooms[i] < need ? BY_RECEIVED : 0, .after = *before,
                            .data = *whole};
        snprintf(what, sizeof what, "%s by byte 1 %02xh, allocation %u, into %zu", kept, byte_1, allocation, rooms[i]);
        edge.after.attention = ATTENTION_NONE;
        edge.data.length = need;
        calls[count] = call_of(&edge);
        hold(&edge, &calls[count++]);
    }
    hold_read_only(calls, count, kept);
    while (count > 0)
        free_call(&calls[--count]);
}

static void hold_described(const char *kept, const struct drive *before, const struct bytes *whole)
{
    static const uint8_t allocations[] = {0, 7, 8, 11, 12, 13, 23, 24, 255};
    for (size_t i = 0; i < COUNT(allocations); i++)
        hold_asking(kept, before, DESC, allocations[i], whole);
}

/* The eighteen bytes as they are. */
static void hold_fixed(const char *kept, const struct drive *before, const struct bytes *whole)
{
    static const uint8_t allocations[] = {0, 17, 18, 19, 24, 255};
    for (size_t i = 0; i < COUNT(allocations); i++)
        hold_asking(kept, before, 0, allocations[i], whole);
}

/* An attention is told in the place of whatever is kept, and never with a value. */
static void run_turned(void)
{
    static const struct {
        uint8_t attention;
        struct bytes described, fixed;
    } waiting[] = {
        {0x28, DESCRIBED(0x6, 0x28, 0x00, 0x00), IN_FIXED(0x70, 0x06, 0, 0x28, 0x00)},
        {0x29, DESCRIBED(0x6, 0x29, 0x00, 0x00), IN_FIXED(0x70, 0x06, 0, 0x29, 0x00)},
    };
    for (const struct turned *row = turned; row < turned + COUNT(turned); row++) {
        struct drive drive = {0};
        struct bytes fixed = {.length = SENSE_BYTES};
        memcpy(drive.sense, row->kept, SENSE_BYTES);
        memcpy(fixed.at, row->kept, SENSE_BYTES);
        hold_described(row->what, &drive, &row->whole);
        hold_fixed(row->what, &drive, &fixed);
        for (size_t i = 0; row->under_attentions && i < COUNT(waiting); i++) {
            drive.attention = waiting[i].attention;
            hold_described("an attention", &drive, &waiting[i].described);
            hold_fixed("an attention", &drive, &waiting[i].fixed);
        }
    }
}

/* ---- what ends it before it acts: no other bit of byte 1 is in the mask, and an attention waits on */

#define WRONG_FORM(byte_1)                                                                                          \
    {"byte 1 " #byte_1, NONE, SIX(REQUEST_SENSE, byte_1, 24), EMPTY(0), .room = 24, .after = EMPTY(0),              \
     .told = FIELD},                                                                                                \
    {"byte 1 " #byte_1 ", 28h waits", E, SIX(REQUEST_SENSE, byte_1, 24), WAITING(ATTENTION_MOUNTED, 1),             \
     .room = 24, .after = WAITING(ATTENTION_MOUNTED, 1), .told = FIELD},                                            \
    {"byte 1 " #byte_1 ", 29h waits", NONE, SIX(REQUEST_SENSE, byte_1, 0), BARE(ATTENTION_FRESH, 0),                \
     .after = BARE(ATTENTION_FRESH, 0), .told = FIELD}
static const struct edge not_described[] = {
    WRONG_FORM(0x02), WRONG_FORM(0x03), WRONG_FORM(0x05), WRONG_FORM(0x11), WRONG_FORM(0x41), WRONG_FORM(0x80),
    WRONG_FORM(0x81), WRONG_FORM(0xfe), WRONG_FORM(0xff),
    {"byte 2 beside the bit", NONE, {BYTES_6, {REQUEST_SENSE, DESC, 1, 0, 24, 0}}, EMPTY(0), .room = 24,
     .after = EMPTY(0), .told = FIELD},
    {"byte 3 beside the bit", NONE, {BYTES_6, {REQUEST_SENSE, DESC, 0, 0x80, 24, 0}}, BARE(ATTENTION_FRESH, 0),
     .room = 24, .after = BARE(ATTENTION_FRESH, 0), .told = FIELD},
    {"a control byte beside the bit", E, {BYTES_6, {REQUEST_SENSE, DESC, 0, 0, 24, 1}}, AT(1), .room = 24,
     .after = AT(1), .told = FIELD},
    {"fields before number 3", NONE, SIX(REQUEST_SENSE, 0x03, 24), EMPTY(0), .after = EMPTY(0), .told = FIELD},
    {"the bit of TEST UNIT READY is none", E, SIX(TEST_UNIT_READY, DESC, 0), AT(1), .after = AT(1), .told = FIELD},
    {"the bit of MODE SENSE is none", E, PAGE(DESC, PAGE_NONE, MODE_BYTES), AT(1), .room = MODE_BYTES, .after = AT(1),
     .told = FIELD},
    {"the bit in five bytes", NONE, {BYTES_6 - 1, {REQUEST_SENSE, DESC, 0, 0, 24}}, BARE(ATTENTION_FRESH, 0),
     .room = 24, .refusal = BY_COMMAND},
    {"the bit, a record of 29 bytes", NONE, SIX(REQUEST_SENSE, DESC, 24), EMPTY(0), .room = 24, .cut = 1,
     .refusal = BY_DRIVE},
    {"the bit, attention 2Ah", NONE, SIX(REQUEST_SENSE, DESC, 24), BARE(0x2a, 0), .room = 24, .refusal = BY_DRIVE},
    {"the bit, an unsound partition", UNSOUND, SIX(REQUEST_SENSE, DESC, 24), AT(0), .room = 24, .refusal = BY_DRIVE},
    {"the bit, position above N", E, SIX(REQUEST_SENSE, DESC, 24), WAITING(ATTENTION_MOUNTED, 3), .room = 24,
     .refusal = BY_DRIVE},
    /* Extra bytes are ignored, and so are partitions while unloaded. */
    {"the bit in nine bytes", NONE, {BYTES_6 + 3, {REQUEST_SENSE, DESC, 0, 0, 24, 0, 255, 255, 255}}, EMPTY(0),
     .room = 24, .after = EMPTY(0), .data = WITH_INFORMATION(0x5, 0x24, 0x7f, 0x20, ONES_4, 0xde, 0xad, 0xbe, 0xef)},
    {"the bit beside unsound partitions, unloaded", UNSOUND, SIX(REQUEST_SENSE, DESC, 255), BARE(ATTENTION_FRESH, 0),
     .p1 = UNSOUND, .room = 12, .after = EMPTY(0), .data = DESCRIBED(0x6, 0x29, 0x00, 0x00)},
    {"the bit on partition 1 of two", E, SIX(REQUEST_SENSE, DESC, 24), TWO(1, 4), .p1 = MIXED, .room = 24,
     .after = TWO(1, 4), .data = WITH_INFORMATION(0x5, 0x24, 0x7f, 0x20, ONES_4, 0xde, 0xad, 0xbe, 0xef)},
};

/* ---- "for every sense the server can produce": a command that tells it, and then both forms, in either order */

#define POWER_40 (INT64_C(1) << 40)
static const struct produced {
    struct edge command;
    struct bytes described;
} produced[] = {
    {{"6/28", E, SIX(TEST_UNIT_READY, 0, 0), LOADED(ATTENTION_MOUNTED, 1, MOUNTED_LENGTH), .after = MOUNTED(1),
      .told = PLAIN(TOLD_MOUNTED)}, DESCRIBED(0x6, 0x28, 0x00, 0x00)},
    {{"6/29", NONE, SIX(INQUIRY, 0, 0), BARE(ATTENTION_FRESH, 0), .after = EMPTY(0), .told = PLAIN(TOLD_FRESH)},
     DESCRIBED(0x6, 0x29, 0x00, 0x00)},
    {{"5/20", NONE, SIX(INQUIRY, 0, 0), EMPTY(0), .after = EMPTY(0), .told = PLAIN(TOLD_NOT_SERVED)},
     DESCRIBED(0x5, 0x20, 0x00, 0x00)},
    {{"5/24", NONE, SIX(REQUEST_SENSE, 0x03, 24), EMPTY(0), .room = 24, .after = EMPTY(0), .told = FIELD},
     DESCRIBED(0x5, 0x24, 0x00, 0x00)},
    {{"5/1A", E, SIX(MODE_SELECT, PF, 5), MOUNTED(1), .sent = 5, .after = MOUNTED(1), .told = PLAIN(TOLD_LIST_LENGTH)},
     DESCRIBED(0x5, 0x1a, 0x00, 0x00)},
    {{"5/26", E, SIX(MODE_SELECT, PF, MODE_HEADER), MOUNTED(1), LIST(0, 1, 0, 0), .after = MOUNTED(1),
      .told = PLAIN(TOLD_LIST)}, DESCRIBED(0x5, 0x26, 0x00, 0x00)},
    {{"2/3A", NONE, SIX(READ, 0, 5), EMPTY(0), .after = EMPTY(0), .told = NOT_LOADED},
     DESCRIBED(0x2, 0x3a, 0x00, 0x00)},
    {{"7/27", GUARDED, SIX(WRITE, 0, 5), MOUNTED(2), .sent = 5, .after = MOUNTED(2), .told = PLAIN(TOLD_PROTECTED)},
     DESCRIBED(0x7, 0x27, 0x00, 0x00)},
    {{"a shorter block", E, SIX(READ, 0, 5), MOUNTED(0), .room = 5, .after = MOUNTED(1),
      .told = RESIDUE(TOLD_LENGTH, 2), .reads = 3}, WITH_INFORMATION(0x0, 0x00, 0x00, 0x20, ABOVE(2))},
    {{"a longer block", E, SIX(READ, 0, 2), MOUNTED(0), .room = 5, .after = MOUNTED(1),
      .told = RESIDUE(TOLD_LENGTH, 0xffffffff), .reads = 2}, WITH_INFORMATION(0x0, 0x00, 0x00, 0x20, BELOW(0xff))},
    {{"a block far longer", FORMER, SIX(READ, 0, 1), MOUNTED(0), .room = 1, .after = MOUNTED(1),
      .told = RESIDUE(TOLD_LENGTH, 0xffff0001), .reads = 1},
     WITH_INFORMATION(0x0, 0x00, 0x00, 0x20, ONES_4, 0xff, 0xff, 0x00, 0x01)},
    {{"the largest block by one byte", LARGEST_1, SIX(READ, 0, 1), MOUNTED(0), .room = 1, .after = MOUNTED(1),
      .told = RESIDUE(TOLD_LENGTH, 0xfff00001), .reads = 1},
     WITH_INFORMATION(0x0, 0x00, 0x00, 0x20, ONES_4, 0xff, 0xf0, 0x00, 0x01)},
    {{"an odd block of FIXED READ", E, SIX(READ, FIXED, 2), SET(4, 0), .room = 8, .after = SET(4, 1),
      .told = RESIDUE(TOLD_LENGTH, 2)}, WITH_INFORMATION(0x0, 0x00, 0x00, 0x20, ABOVE(2))},
    {{"a filemark, going on", E, SIX(READ, 0, 5), MOUNTED(1), .room = 5, .after = MOUNTED(2),
      .told = RESIDUE(TOLD_FILEMARK, 5)}, WITH_INFORMATION(0x0, 0x00, 0x01, 0x80, ABOVE(5))},
    {{"a filemark, going back", E, SIX(SPACE, BLOCKS, -5), MOUNTED(2), .after = MOUNTED(1), .crossed = 1,
      .told = RESIDUE(TOLD_FILEMARK, 0xfffffffb)}, WITH_INFORMATION(0x0, 0x00, 0x01, 0x80, BELOW(0xfb))},
    {{"a filemark, residue -2^31", E, SPACE_16(BLOCKS, -POWER_31), MOUNTED(2), .after = MOUNTED(1), .crossed = 1,
      .told = RESIDUE(TOLD_FILEMARK, 0x80000000)},
     WITH_INFORMATION(0x0, 0x00, 0x01, 0x80, ONES_4, 0x80, 0x00, 0x00, 0x00)},
    {{"a filemark, residue -2^31 - 1", E, SPACE_16(BLOCKS, -POWER_31 - 1), MOUNTED(2), .after = MOUNTED(1),
      .crossed = 1, .told = NO_RESIDUE(TOLD_FILEMARK)}, DESCRIBED(0x0, 0x00, 0x01, 0x80)},
    {{"a filemark, residue -2^40", E, SPACE_16(BLOCKS, -POWER_40), MOUNTED(2), .after = MOUNTED(1), .crossed = 1,
      .told = NO_RESIDUE(TOLD_FILEMARK)}, DESCRIBED(0x0, 0x00, 0x01, 0x80)},
    {{"the zone", BLANK, SIX(WRITE, 0, 44), MOUNTED(0), .sent = 44, .after = MOUNTED(1), .told = RESIDUE(TOLD_ZONE, 0),
      .carried = 44, .puts = "b44"}, WITH_INFORMATION(0x0, 0x00, 0x02, 0x40, ABOVE(0))},
    {{"the end of the partition", BLANK, SIX(WRITE, 0, 45), MOUNTED(0), .sent = 45, .after = MOUNTED(0),
      .told = RESIDUE(TOLD_OVERFLOW, 45)}, WITH_INFORMATION(0xd, 0x00, 0x02, 0x40, ABOVE(45))},
    {{"the end of the partition, some put", TEN, SIX(WRITE_FILEMARKS, 0, 9), MOUNTED(1), .after = MOUNTED(9),
      .told = RESIDUE(TOLD_OVERFLOW, 1), .puts = "f8"}, WITH_INFORMATION(0xd, 0x00, 0x02, 0x40, ABOVE(1))},
    {{"the beginning", E, SIX(SPACE, BLOCKS, -5), MOUNTED(1), .after = MOUNTED(0), .crossed = 1,
      .told = RESIDUE(TOLD_BEGINNING, 0xfffffffc)}, WITH_INFORMATION(0x0, 0x00, 0x04, 0x40, BELOW(0xfc))},
    {{"the beginning, residue -2^32 + 1", E, SPACE_16(FILEMARKS, -POWER_32), MOUNTED(2), .after = MOUNTED(0),
      .crossed = 2, .told = NO_RESIDUE(TOLD_BEGINNING)}, DESCRIBED(0x0, 0x00, 0x04, 0x40)},
    {{"end of data", E, SIX(READ, 0, 5), MOUNTED(2), .room = 5, .after = MOUNTED(2),
      .told = RESIDUE(TOLD_END_OF_DATA, 5)}, WITH_INFORMATION(0x8, 0x00, 0x05, 0x00, ABOVE(5))},
    {{"end of data, residue 2^31 - 1", E, SPACE_16(BLOCKS, POWER_31 - 1), MOUNTED(2), .after = MOUNTED(2),
      .told = RESIDUE(TOLD_END_OF_DATA, 0x7fffffff)},
     WITH_INFORMATION(0x8, 0x00, 0x05, 0x00, ZEROS_4, 0x7f, 0xff, 0xff, 0xff)},
    {{"end of data, residue 2^31", E, SPACE_16(BLOCKS, POWER_31), MOUNTED(2), .after = MOUNTED(2),
      .told = NO_RESIDUE(TOLD_END_OF_DATA)}, DESCRIBED(0x8, 0x00, 0x05, 0x00)},
    {{"past the end by LOCATE", E, LOCATE(0, 3, 0), MOUNTED(0), .after = MOUNTED(2), .told = PAST_END},
     DESCRIBED(0x8, 0x00, 0x05, 0x00)},
    {{"end of data in the zone", FULL, SIX(READ, 0, 5), MOUNTED(1), .room = 5, .after = MOUNTED(1),
      .told = RESIDUE(TOLD_END_IN_ZONE, 5)}, WITH_INFORMATION(0x8, 0x00, 0x05, 0x40, ABOVE(5))},
    {{"past the end in the zone by LOCATE (16)", FULL, LOCATE_16(TO_FILE, 1, 0), MOUNTED(0), .after = MOUNTED(1),
      .told = PAST_END_IN_ZONE}, DESCRIBED(0x8, 0x00, 0x05, 0x40)},
};

static struct edge asking(const char *what, const struct drive *drive, uint8_t byte_1, const struct bytes *data)
{
    return (struct edge){.what = what, .command = SIX(REQUEST_SENSE, byte_1, 255), .room = data->length,
                         .after = *drive, .data = *data};
}

/* The command, what it told in one form, and nothing in the other and again: GOOD clears it, whichever it was. */
static void run_then_ask(const struct produced *row, int described_first)
{
    static const struct bytes nothing[] = {NOTHING_IN_FIXED, NOTHING_DESCRIBED};
    struct mounting start = {.before = row->command.before, .p0 = row->command.p0};
    struct call call = lent_for(&start);
    uint8_t record[RECORD_BYTES], first = described_first ? DESC : 0;
    struct bytes fixed = {.length = SENSE_BYTES};
    struct edge edges[4] = {row->command};
    struct drive left = row->command.after;
    lay_told(record, &left, &row->command.told);
    memcpy(fixed.at, record + STORMTOGGLE_RECORD_SENSE, SENSE_BYTES);
    edges[1] = asking(row->command.what, &left, first, described_first ? &row->described : &fixed);
    edges[2] = asking(row->command.what, &left, DESC - first, &nothing[!described_first]);
    edges[3] = asking(row->command.what, &left, first, &nothing[described_first]);
    run_in_turn(&call, edges, COUNT(edges));
    free_call(&call);
}

/* ---- a drive's life: the bit of one call has no say in the next */

static const struct edge described_before_the_mount[] = {
    {.what = "29h in descriptor form", .command = SIX(REQUEST_SENSE, DESC, 24), .room = 24, .after = EMPTY(0),
     .data = DESCRIBED(0x6, 0x29, 0x00, 0x00)},
    {.what = "and told once", .command = SIX(REQUEST_SENSE, 0, 18), .room = 18, .after = EMPTY(0),
     .data = NOTHING_IN_FIXED},
};

#define BACK_OVER_IT                                                                                        \
    {.what = "back over the filemark", .command = SIX(SPACE, BLOCKS, -3), .after = MOUNTED(0), .crossed = 1, \
     .told = RESIDUE(TOLD_FILEMARK, 0xfffffffd)}
#define ON_OVER_IT                                                                                          \
    {.what = "on over the filemark", .command = SIX(SPACE, FILEMARKS, 1), .after = MOUNTED(1), .crossed = 1}
#define ASKED(what_it_is, byte_1, position, ...)                                                            \
    {.what = what_it_is, .command = SIX(REQUEST_SENSE, byte_1, 24), .room = 24, .after = MOUNTED(position), \
     .data = __VA_ARGS__}
static const struct edge described_behind_the_mount[] = {
    ASKED("28h in descriptor form", DESC, 0, DESCRIBED(0x6, 0x28, 0x00, 0x00)),
    {.what = "a filemark", .command = SIX(WRITE_FILEMARKS, 0, 1), .after = MOUNTED(1), .puts = "f"},
    BACK_OVER_IT,
    ASKED("in descriptors", DESC, 0, WITH_INFORMATION(0x0, 0x00, 0x01, 0x80, BELOW(0xfd))),
    ASKED("then in fixed form, nothing", 0, 0, NOTHING_IN_FIXED),
    ASKED("then in descriptors, nothing", DESC, 0, NOTHING_DESCRIBED),
    ON_OVER_IT,
    BACK_OVER_IT,
    ASKED("in fixed form", 0, 0, IN_FIXED(0xf0, 0x80, 0xfffffffd, 0x00, 0x01)),
    ASKED("then in descriptors, nothing at once", DESC, 0, NOTHING_DESCRIBED),
    ASKED("then in fixed form again, nothing", 0, 0, NOTHING_IN_FIXED),
    ON_OVER_IT,
    BACK_OVER_IT,
    ASKED("in descriptors, before another", DESC, 0, WITH_INFORMATION(0x0, 0x00, 0x01, 0x80, BELOW(0xfd))),
    {.what = "another", .command = SIX(INQUIRY, 0, 5), .after = MOUNTED(0), .told = PLAIN(TOLD_NOT_SERVED)},
    ASKED("in fixed form, behind descriptors", 0, 0, IN_FIXED(0x70, 0x05, 0, 0x20, 0x00)),
    {.what = "one more", .command = SIX(READ, 0, 5), .room = 5, .after = MOUNTED(1), .told = RESIDUE(TOLD_FILEMARK, 5)},
    ASKED("in descriptors, behind fixed form", DESC, 1, WITH_INFORMATION(0x0, 0x00, 0x01, 0x80, ABOVE(5))),
    {.what = "by -2^40", .command = SPACE_16(BLOCKS, -POWER_40), .after = MOUNTED(0), .crossed = 1,
     .told = NO_RESIDUE(TOLD_FILEMARK)},
    ASKED("no information descriptor", DESC, 0, DESCRIBED(0x0, 0x00, 0x01, 0x80)),
    {.what = "back from the beginning", .command = SIX(SPACE, BLOCKS, -3), .after = MOUNTED(0),
     .told = RESIDUE(TOLD_BEGINNING, 0xfffffffd)},
    {.what = "a byte short", .command = SIX(REQUEST_SENSE, DESC, 24), .room = 23, .refusal = BY_RECEIVED},
    {.what = "another bit, and the sense is its own", .command = SIX(REQUEST_SENSE, 0x03, 24), .room = 24,
     .after = MOUNTED(0), .told = FIELD},
    {.what = "cut at 9", .command = SIX(REQUEST_SENSE, DESC, 9), .room = 9, .after = MOUNTED(0),
     .data = BYTES(0x72, 0x05, 0x24, 0, 0, 0, 0, 0x04, 0x04)},
    {.what = "unload", .command = SIX(LOAD_UNLOAD, 0, 0), .after = EMPTY(MOUNTED_LENGTH)},
    {.what = "not ready", .command = SIX(TEST_UNIT_READY, 0, 0), .after = EMPTY(MOUNTED_LENGTH), .told = NOT_LOADED},
    {.what = "in descriptors with nothing loaded", .command = SIX(REQUEST_SENSE, DESC, 255), .room = 12,
     .after = EMPTY(MOUNTED_LENGTH), .data = DESCRIBED(0x2, 0x3a, 0x00, 0x00)},
};

static void run_life_of_forms(void)
{
    struct call call = fresh_drive_with(BLANK);
    run_in_turn(&call, described_before_the_mount, COUNT(described_before_the_mount));
    hold_mount(&call, 0, "for a life of both forms");
    run_in_turn(&call, described_behind_the_mount, COUNT(described_behind_the_mount));
    free_call(&call);
}

static void sense_in_descriptors(void)
{
    run_turned();
    run(not_described, COUNT(not_described));
    for (size_t i = 0; i < COUNT(produced); i++) {
        run_then_ask(&produced[i], 1);
        run_then_ask(&produced[i], 0);
    }
    run_life_of_forms();
}

#endif
