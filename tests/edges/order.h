/* order.h: cases of what ends a command before it acts: refusals, attention, fields, readiness, protection. */
#ifndef EDGES_ORDER_H
#define EDGES_ORDER_H

#include "drive.h"

/* ---- number 1 */

static const struct edge blocks[] = {
    {"no command block", E, {0, {0}}, AT(0), .refusal = BY_COMMAND},
    {"five bytes of six", E, {BYTES_6 - 1, {TEST_UNIT_READY}}, AT(0), .refusal = BY_COMMAND},
    {"nine bytes of ten", E, {BYTES_10 - 1, {LOCATE}}, AT(0), .refusal = BY_COMMAND},
    {"nine bytes of ten, code 5Fh", E, {BYTES_10 - 1, {0x5f}}, AT(0), .refusal = BY_COMMAND},
    {"fifteen bytes of sixteen, code 80h", E, {BYTES_16 - 1, {0x80}}, AT(0), .refusal = BY_COMMAND},
    {"eleven bytes of twelve, code A0h", E, {BYTES_12 - 1, {0xa0}}, AT(0), .refusal = BY_COMMAND},
    {"eleven bytes of twelve, code BFh", E, {BYTES_12 - 1, {0xbf}}, AT(0), .refusal = BY_COMMAND},
    {"number 1 before number 4: a record of 29 bytes", E, {BYTES_6 - 1, {TEST_UNIT_READY}}, AT(0), .cut = 1,
     .refusal = BY_COMMAND},
    {"number 1 before number 4: an unsound partition", UNSOUND, {0, {0}}, AT(0), .refusal = BY_COMMAND},
    {"number 1 before an attention", NONE, {BYTES_6 - 1, {INQUIRY}}, BARE(ATTENTION_FRESH, EITHER),
     .refusal = BY_COMMAND},
    /* Where the length is 0, one byte is a command block. */
    {"one byte is enough, code 60h", E, {1, {0x60}}, AT(1), .after = AT(1), .told = PLAIN(TOLD_NOT_SERVED)},
    {"one byte is enough, code 7Fh", E, {1, {0x7f}}, AT(1), .after = AT(1), .told = PLAIN(TOLD_NOT_SERVED)},
    {"one byte is enough, code C0h", E, {1, {0xc0}}, AT(1), .after = AT(1), .told = PLAIN(TOLD_NOT_SERVED)},
    {"one byte is enough, code FFh", NONE, {1, {0xff}}, EMPTY(9), .after = EMPTY(9), .told = PLAIN(TOLD_NOT_SERVED)},
    {"a code not served, all its bits set", E, {BYTES_6, {0x02, 255, 255, 255, 255, 255}}, AT(1), .after = AT(1),
     .told = PLAIN(TOLD_NOT_SERVED)},
    {"a code not served, of sixteen bytes", E, {BYTES_16, {0x88}}, AT(1), .after = AT(1),
     .told = PLAIN(TOLD_NOT_SERVED)},
    /* Bytes behind the block's length. */
    {"extra bytes behind six", E, {BYTES_6 + 3, {TEST_UNIT_READY, 0, 0, 0, 0, 0, 255, 255, 255}}, AT(1),
     .after = AT(1)},
    {"extra bytes behind ten", E, {BYTES_10 + 2, {LOCATE, 0, 0, 0, 0, 0, 1, 0, 0, 0, 255, 255}}, AT(2), .after = AT(1)},
};

/* ---- number 4 */

static const struct edge records[] = {
    {"a record of 29 bytes", E, SIX(TEST_UNIT_READY, 0, 0), AT(0), .cut = 1, .refusal = BY_DRIVE},
    {"a record of 31 bytes", E, SIX(TEST_UNIT_READY, 0, 0), AT(0), .cut = -1, .refusal = BY_DRIVE},
    {"no record", E, SIX(TEST_UNIT_READY, 0, 0), AT(0), .cut = RECORD_BYTES, .refusal = BY_DRIVE},
    {"block length 1,048,577", NONE, SIX(REQUEST_SENSE, 0, SENSE_BYTES), EMPTY(LARGEST_BLOCK + 1), .room = SENSE_BYTES,
     .refusal = BY_DRIVE},
    {"block length 65,537", NONE, SIX(REQUEST_SENSE, 0, SENSE_BYTES), EMPTY(FORMER_LARGEST + 1), .room = SENSE_BYTES,
     .after = EMPTY(FORMER_LARGEST + 1), .data = {SENSE_BYTES, OLD_SENSE}},
    {"attention 2Ah", NONE, SIX(REQUEST_SENSE, 0, SENSE_BYTES), BARE(0x2a, EITHER), .room = SENSE_BYTES,
     .refusal = BY_DRIVE},
    {"position above N", E, SIX(TEST_UNIT_READY, 0, 0), AT(3), .refusal = BY_DRIVE},
    {"position above N while an attention waits", E, SIX(TEST_UNIT_READY, 0, 0), WAITING(ATTENTION_MOUNTED, 3),
     .refusal = BY_DRIVE},
    {"position above N of the current partition only", E, SIX(TEST_UNIT_READY, 0, 0), TWO(0, 5), .p1 = MIXED,
     .refusal = BY_DRIVE},
    {"position above N of the other partition only", E, SIX(TEST_UNIT_READY, 0, 0), TWO(1, 5), .p1 = MIXED,
     .after = TWO(1, 5)},
    {"an unsound partition", UNSOUND, SIX(REQUEST_SENSE, 0, SENSE_BYTES), AT(0), .room = SENSE_BYTES,
     .refusal = BY_DRIVE},
    {"an unsound partition that is not current", E, SIX(READ, 0, 5), TWO(0, 0), .p1 = UNSOUND, .refusal = BY_DRIVE},
    /* An object is judged from the end before it, be this a block's or a filemark's, and the first from 0. Were the end
     * forgotten at a filemark, the second of these would pass; were it one further back, the third; were the first
     * object judged from its own, the fourth. Were all judged from their own, or from that of the object after, the
     * fifth would pass, and the first would not. */
    {"a block from a filemark's end", PARTED, SIX(TEST_UNIT_READY, 0, 0), AT(0), .after = AT(0)},
    {"a block that ends before the filemark before it", OVERLAPPING, SIX(TEST_UNIT_READY, 0, 0), AT(0),
     .refusal = BY_DRIVE},
    {"a block of 0 between a block and a filemark", BLOCK_OF_0, SIX(TEST_UNIT_READY, 0, 0), AT(0),
     .refusal = BY_DRIVE},
    {"a filemark at 1, where the first starts at 0", FILEMARK_AT_1, SIX(TEST_UNIT_READY, 0, 0), AT(0),
     .refusal = BY_DRIVE},
    {"filemarks that agree with each other alone", FILEMARKS_AT_5, SIX(TEST_UNIT_READY, 0, 0), AT(0),
     .refusal = BY_DRIVE},
    {"a second partition where there is one", E, SIX(TEST_UNIT_READY, 0, 0), AT(0), .p1 = E, .refusal = BY_DRIVE},
    {"no second partition where there are two", E, SIX(TEST_UNIT_READY, 0, 0), TWO(0, 0), .refusal = BY_DRIVE},
    {"no first partition", NONE, SIX(TEST_UNIT_READY, 0, 0), AT(0), .refusal = BY_DRIVE},
    {"partitions are not looked at while unloaded", UNSOUND, SIX(TEST_UNIT_READY, 0, 0), EMPTY(9), .p1 = UNSOUND,
     .after = EMPTY(9), .told = PLAIN(TOLD_NOT_LOADED)},
};

/* ---- attention, and REQUEST SENSE */

static const struct edge attentions[] = {
    {"an attention before a code not served", NONE, SIX(INQUIRY, 0, 0), BARE(ATTENTION_FRESH, 9), .after = EMPTY(9),
     .told = PLAIN(TOLD_FRESH)},
    {"an attention before the fields", E, SIX(READ, FIXED | SILI, 1), WAITING(ATTENTION_MOUNTED, 1), .after = AT(1),
     .told = PLAIN(TOLD_MOUNTED)},
    {"an attention before protection", GUARDED, SIX(WRITE, 0, 3), WAITING(ATTENTION_FRESH, 0), .after = AT(0),
     .told = PLAIN(TOLD_FRESH)},
    {"an attention before a write", E, SIX(WRITE, 0, 3), WAITING(ATTENTION_MOUNTED, 0), .sent = 3, .after = AT(0),
     .told = PLAIN(TOLD_MOUNTED)},
    {"a bad field leaves the attention waiting", NONE, {BYTES_6, {REQUEST_SENSE, 0, 1, 0, SENSE_BYTES, 0}},
     BARE(ATTENTION_FRESH, EITHER), .room = SENSE_BYTES, .after = BARE(ATTENTION_FRESH, EITHER),
     .told = PLAIN(TOLD_FIELD)},
    {"a refusal leaves the attention waiting", E, SIX(REQUEST_SENSE, 0, SENSE_BYTES), WAITING(ATTENTION_MOUNTED, 0),
     .room = SENSE_BYTES - 1, .refusal = BY_RECEIVED},
    {"REQUEST SENSE 0 clears both", E, SIX(REQUEST_SENSE, 0, 0), WAITING(ATTENTION_MOUNTED, 1), .after = AT(1)},
    {"REQUEST SENSE 4 of the attention", E, SIX(REQUEST_SENSE, 0, 4), WAITING(ATTENTION_MOUNTED, 1), .room = 4,
     .after = AT(1), .data = BYTES(0x70, 0, 6, 0)},
    {"REQUEST SENSE 255 gives the kept sense as it is", E, SIX(REQUEST_SENSE, 0, 255), AT(1), .room = 20,
     .after = AT(1), .data = {SENSE_BYTES, OLD_SENSE}},
    {"REQUEST SENSE 5 of the kept sense", NONE, SIX(REQUEST_SENSE, 0, 5), EMPTY(9), .room = 20,
     .after = EMPTY(9), .data = BYTES(0xf0, 0x5a, 0x25, 0xde, 0xad)},
};

/* ---- fields, readiness, the partition's number and protection */

#define FIELD PLAIN(TOLD_FIELD)
static const struct edge fields[] = {
    {"a code not served before 2/3A", NONE, SIX(INQUIRY, 0, 0), UNLOADED, .after = UNLOADED,
     .told = PLAIN(TOLD_NOT_SERVED)},
    {"fields before 2/3A", NONE, SIX(READ, FIXED, 1), EMPTY(0), .room = 9, .after = EMPTY(0), .told = FIELD},
    {"2/3A before number 3", NONE, SIX(READ, 0, 1), UNLOADED, .after = UNLOADED, .told = PLAIN(TOLD_NOT_LOADED)},
    {"2/3A before LOCATE's partition", NONE, LOCATE(CP, 0, 1), UNLOADED, .after = UNLOADED,
     .told = PLAIN(TOLD_NOT_LOADED)},
    {"READ POSITION needs a cartridge", NONE, READ_POSITION(FORM_SHORT), UNLOADED, .room = SHORT_BYTES,
     .after = UNLOADED, .told = PLAIN(TOLD_NOT_LOADED)},
    {"a control byte", E, {BYTES_6, {TEST_UNIT_READY, 0, 0, 0, 0, 1}}, AT(1), .after = AT(1), .told = FIELD},
    {"a control byte of ten", E, {BYTES_10, {READ_POSITION, 0, 0, 0, 0, 0, 0, 0, 0, 0x80}}, AT(1), .room = SHORT_BYTES,
     .after = AT(1), .told = FIELD},
    {"REWIND with IMMED", E, SIX(REWIND, IMMED, 0), AT(2), .after = AT(0)},
    {"REWIND with another bit", E, SIX(REWIND, 2, 0), AT(2), .after = AT(2), .told = FIELD},
    {"FIXED with SILI", E, SIX(READ, FIXED | SILI, 1), SET(3, 0), .room = 9, .after = SET(3, 0), .told = FIELD},
    {"FIXED with SILI at length 0", E, SIX(READ, FIXED | SILI, 0), SET(3, 0), .after = SET(3, 0), .told = FIELD},
    {"FIXED READ 0 with block length 0", E, SIX(READ, FIXED, 0), SET(0, 0), .after = SET(0, 0), .told = FIELD},
    {"FIXED WRITE 0 with block length 0", E, SIX(WRITE, FIXED, 0), SET(0, 0), .after = SET(0, 0), .told = FIELD},
    {"WRITE with SILI's bit", E, SIX(WRITE, SILI, 3), AT(0), .sent = 3, .after = AT(0), .told = FIELD},
    {"WRITE 1,048,577", BIG, SIX(WRITE, 0, LARGEST_BLOCK + 1), SET(0, 0), .sent = LARGEST_BLOCK + 1,
     .after = SET(0, 0), .told = FIELD},
    {"WRITE 65,537", FORMER, SIX(WRITE, 0, FORMER_LARGEST + 1), AT(0), .sent = FORMER_LARGEST + 1, .after = AT(1),
     .carried = FORMER_LARGEST + 1, .puts = "b65537"},
    {"WRITE FILEMARKS has no IMMED", E, SIX(WRITE_FILEMARKS, IMMED, 1), AT(2), .after = AT(2), .told = FIELD},
    {"SPACE code 2", E, SIX(SPACE, 2, 1), AT(0), .after = AT(0), .told = FIELD},
    {"SPACE code 4", E, SIX(SPACE, 4, 0), AT(0), .after = AT(0), .told = FIELD},
    {"SPACE code 0 with bit 4", E, SIX(SPACE, 0x10, 0), AT(0), .after = AT(0), .told = FIELD},
    {"READ POSITION of form 1", E, READ_POSITION(0x01), AT(0), .room = LONG_BYTES, .after = AT(0), .told = FIELD},
    {"READ POSITION of form 8", E, READ_POSITION(0x08), AT(0), .room = LONG_BYTES, .after = AT(0), .told = FIELD},
    {"MODE SENSE of page 0Fh", NONE, PAGE(0, 0x0f, MODE_BYTES), EMPTY(9), .room = MODE_BYTES, .after = EMPTY(9),
     .told = FIELD},
    {"MODE SENSE of saved values", NONE, PAGE(0, 0xc0, MODE_BYTES), EMPTY(9), .room = MODE_BYTES, .after = EMPTY(9),
     .told = FIELD},
    {"MODE SELECT without PF, before its length", NONE, SIX(MODE_SELECT, 0, 8), EMPTY(9), .after = EMPTY(9),
     .told = FIELD},
    {"MODE SELECT to be saved", NONE, SIX(MODE_SELECT, PF | 1, 0), EMPTY(9), .after = EMPTY(9), .told = FIELD},
    {"LOCATE to a partition that is not there", E, LOCATE(CP, 0, 1), AT(1), .after = AT(1), .told = FIELD},
    {"LOCATE to partition 2 of two", E, LOCATE(CP, 0, 2), TWO(1, 4), .p1 = MIXED, .after = TWO(1, 4), .told = FIELD},
    {"LOCATE to partition 255, above N", E, LOCATE(CP, 99, 255), AT(1), .after = AT(1), .told = FIELD},
    {"fields before 7/27", GUARDED, SIX(WRITE, 0, LARGEST_BLOCK + 1), AT(0), .after = AT(0), .told = FIELD},
    {"7/27 before number 2", GUARDED, SIX(WRITE, 0, 5), AT(2), .sent = 4, .after = AT(2),
     .told = PLAIN(TOLD_PROTECTED)},
    {"7/27 at WRITE 0", GUARDED, SIX(WRITE, 0, 0), AT(0), .after = AT(0), .told = PLAIN(TOLD_PROTECTED)},
    {"7/27 at WRITE FILEMARKS 0", GUARDED, SIX(WRITE_FILEMARKS, 0, 0), AT(2), .after = AT(2),
     .told = PLAIN(TOLD_PROTECTED)},
    {"7/27 at ERASE", GUARDED, SIX(ERASE, LONG, 0), AT(0), .after = AT(0), .told = PLAIN(TOLD_PROTECTED)},
    {"7/27 of partition 1", E, SIX(WRITE, 0, 3), TWO(1, 0), .p1 = GUARDED, .sent = 3, .after = TWO(1, 0),
     .told = PLAIN(TOLD_PROTECTED)},
    {"the other partition's protection is no matter", E, SIX(WRITE, 0, 3), TWO(0, 0), .p1 = GUARDED, .sent = 3,
     .after = TWO(0, 1), .carried = 3, .puts = "b3"},
};

/* ---- numbers 2 and 3: by the request, not by what stands on the tape, and not by its low 32 bits */

static const struct edge buffers[] = {
    {"READ 65,536 x 65,536", E, SIX(READ, FIXED, 0x10000), SET(FORMER_LARGEST, 0), .room = 16, .refusal = BY_RECEIVED},
    {"READ 65,537 x 65,536", E, SIX(READ, FIXED, 0x10001), SET(FORMER_LARGEST, 0), .room = FORMER_LARGEST,
     .refusal = BY_RECEIVED},
    {"READ FFFFFFh x 65,536", E, SIX(READ, FIXED, COUNT_MOST), SET(FORMER_LARGEST, 2), .room = 16,
     .refusal = BY_RECEIVED},
    {"WRITE 65,536 x 65,536", E, SIX(WRITE, FIXED, 0x10000), SET(FORMER_LARGEST, 0), .sent = 16, .refusal = BY_SENT},
    {"WRITE 65,537 x 65,536", E, SIX(WRITE, FIXED, 0x10001), SET(FORMER_LARGEST, 0), .sent = FORMER_LARGEST,
     .refusal = BY_SENT},
    {"READ into less than the request, though the block fits", E, SIX(READ, 0, 5), AT(0), .room = 4,
     .refusal = BY_RECEIVED},
    {"READ into less than the request, at end of data", E, SIX(READ, 0, 5), AT(2), .room = 4, .refusal = BY_RECEIVED},
    {"READ into less than the request, at a filemark", E, SIX(READ, FIXED, 2), SET(3, 1), .room = 5,
     .refusal = BY_RECEIVED},
    {"READ FFFFFFh is no field error", E, SIX(READ, 0, COUNT_MOST), AT(0), .room = 16, .refusal = BY_RECEIVED},
    {"WRITE of more than is sent", E, SIX(WRITE, 0, 5), AT(0), .sent = 4, .refusal = BY_SENT},
    {"WRITE of more than is sent, and than fits", E, SIX(WRITE, 0, 45), AT(0), .sent = 44, .refusal = BY_SENT},
    {"FIXED WRITE of more than is sent", E, SIX(WRITE, FIXED, 2), SET(3, 0), .sent = 5, .refusal = BY_SENT},
    {"MODE SELECT of more than is sent", NONE, SIX(MODE_SELECT, PF, MODE_BYTES), EMPTY(9), .sent = MODE_BYTES - 1,
     .refusal = BY_SENT},
    {"MODE SENSE into less than its data", NONE, PAGE(0, PAGE_NONE, MODE_BYTES), EMPTY(9), .room = MODE_BYTES - 1,
     .refusal = BY_RECEIVED},
    {"READ BLOCK LIMITS into 5 bytes", NONE, SIX(READ_BLOCK_LIMITS, 0, 0), EMPTY(9), .room = LIMITS_BYTES - 1,
     .refusal = BY_RECEIVED},
    {"READ POSITION into 19 bytes", E, READ_POSITION(FORM_SHORT), AT(0), .room = SHORT_BYTES - 1,
     .refusal = BY_RECEIVED},
    {"READ POSITION, long, into 31 bytes", E, READ_POSITION(FORM_LONG), AT(0), .room = LONG_BYTES - 1,
     .refusal = BY_RECEIVED},
};

/* ---- the same of LOCATE (16) and SPACE (16), which take and give nothing */

#define NOT_LOADED PLAIN(TOLD_NOT_LOADED)
static const struct edge long_blocks[] = {
    {"fifteen bytes of LOCATE (16)", E, {BYTES_16 - 1, {LOCATE_16}}, AT(1), .refusal = BY_COMMAND},
    {"fifteen bytes of SPACE (16)", E, {BYTES_16 - 1, {SPACE_16}}, AT(1), .refusal = BY_COMMAND},
    {"ten bytes of LOCATE (16)", NONE, {BYTES_10, {LOCATE_16}}, BARE(ATTENTION_FRESH, EITHER), .refusal = BY_COMMAND},
    {"six bytes of SPACE (16) on an unsound partition", UNSOUND, {BYTES_6, {SPACE_16}}, AT(1), .refusal = BY_COMMAND},
    {"extra bytes behind LOCATE (16)", E, {BYTES_16 + 2, {LOCATE_16, [11] = 1, [16] = 255, 255}}, AT(2),
     .after = AT(1)},
    {"extra bytes behind SPACE (16)", E, {BYTES_16 + 2, {SPACE_16, FILEMARKS, [11] = 1, [16] = 255, 255}}, AT(0),
     .after = AT(2), .crossed = 2},
    {"code 90h is not served", E, {BYTES_16, {0x90}}, AT(1), .after = AT(1), .told = PLAIN(TOLD_NOT_SERVED)},
    {"code 93h is not served", E, {BYTES_16, {0x93}}, AT(1), .after = AT(1), .told = PLAIN(TOLD_NOT_SERVED)},
    {"LOCATE (16) from above N", E, LOCATE_16(TO_OBJECT, 0, 0), AT(3), .refusal = BY_DRIVE},
    {"SPACE (16) beside an unsound partition", E, SPACE_16(BLOCKS, 1), TWO(0, 0), .p1 = UNSOUND, .refusal = BY_DRIVE},
    {"LOCATE (16) to an unsound partition", E, LOCATE_16(CP, 0, 1), TWO(0, 0), .p1 = UNSOUND, .refusal = BY_DRIVE},
    {"an attention before LOCATE (16)", E, LOCATE_16(TO_FILE, 1, 0), LOADED(ATTENTION_MOUNTED, 0, 9),
     .after = SET(9, 0), .told = PLAIN(TOLD_MOUNTED)},
    {"an attention before SPACE (16)", E, SPACE_16(TO_END_OF_DATA, 0), WAITING(ATTENTION_FRESH, 1), .after = AT(1),
     .told = PLAIN(TOLD_FRESH)},
    {"an attention before a destination not served", NONE, LOCATE_16(DESTINED(2), 0, 0), BARE(ATTENTION_FRESH, 9),
     .after = EMPTY(9), .told = PLAIN(TOLD_FRESH)},
    {"an attention before a bit of SPACE (16)", E, SPACE_16(0xf0, 0), WAITING(ATTENTION_MOUNTED, 1), .after = AT(1),
     .told = PLAIN(TOLD_MOUNTED)},
    {"LOCATE (16) to an object needs a cartridge", NONE, LOCATE_16(TO_OBJECT, 0, 0), EMPTY(9), .after = EMPTY(9),
     .told = NOT_LOADED},
    {"LOCATE (16) to a file needs a cartridge", NONE, LOCATE_16(TO_FILE, 0, 0), EMPTY(9), .after = EMPTY(9),
     .told = NOT_LOADED},
    {"LOCATE (16) to end of data needs a cartridge", UNSOUND, LOCATE_16(TO_END, 0, 0), EMPTY(9), .after = EMPTY(9),
     .told = NOT_LOADED},
    {"2/3A before LOCATE (16)'s partition", NONE, LOCATE_16(CP, 0, 1), UNLOADED, .after = UNLOADED, .told = NOT_LOADED},
    {"SPACE (16) needs a cartridge", NONE, SPACE_16(BLOCKS, 0), EMPTY(9), .after = EMPTY(9), .told = NOT_LOADED},
    {"SPACE (16) to end of data needs a cartridge", NONE, SPACE_16(TO_END_OF_DATA, 0), EMPTY(9), .after = EMPTY(9),
     .told = NOT_LOADED},
};

/* Each on a loaded drive, where nothing moves, and with nothing loaded, where 2/3A comes later. */
#define WRONG(what, ...)                                                                  \
    {what, E, __VA_ARGS__, AT(1), .after = AT(1), .told = FIELD},                         \
    {what ", unloaded", NONE, __VA_ARGS__, EMPTY(9), .after = EMPTY(9), .told = FIELD}
#define WRONG_DESTINATION(number) WRONG("destination " #number, LOCATE_16(DESTINED(number), 0, 0))
#define WRONG_CODE(code) WRONG("SPACE (16) code " #code, SPACE_16(code, 0))
#define WRONG_BYTE(code, byte, bits) WRONG(#code ", byte " #byte " " #bits, {BYTES_16, {[0] = code, [byte] = bits}})
static const struct edge long_fields[] = {
    WRONG_DESTINATION(2), WRONG_DESTINATION(4), WRONG_DESTINATION(5), WRONG_DESTINATION(6), WRONG_DESTINATION(7),
    WRONG("destination 2 as a file that is there", LOCATE_16(DESTINED(2) | IMMED, 1, 0)),
    WRONG("destination 4 of a partition not there", LOCATE_16(DESTINED(4) | CP, UINT64_MAX, 255)),
    /* Bits 7, 6 and 2 of byte 1, BAM and the reserved bits beside it, what is reserved behind, the control byte. */
    WRONG_BYTE(LOCATE_16, 1, 0x04), WRONG_BYTE(LOCATE_16, 1, 0x40), WRONG_BYTE(LOCATE_16, 1, 0x80),
    WRONG_BYTE(LOCATE_16, 2, 0x01), WRONG_BYTE(LOCATE_16, 2, 0x80), WRONG_BYTE(LOCATE_16, 12, 0x01),
    WRONG_BYTE(LOCATE_16, 13, 0x80), WRONG_BYTE(LOCATE_16, 14, 0x01), WRONG_BYTE(LOCATE_16, 15, 0x40),
    WRONG_CODE(2), WRONG_CODE(4), WRONG_CODE(5), WRONG_CODE(6), WRONG_CODE(7), WRONG_CODE(8), WRONG_CODE(9),
    WRONG_CODE(10), WRONG_CODE(11), WRONG_CODE(12), WRONG_CODE(13), WRONG_CODE(14), WRONG_CODE(15),
    WRONG("SPACE (16) code 2 with a count", SPACE_16(2, -1)),
    /* The high bits of byte 1, bytes 2 and 3, the parameter length, what is reserved behind, the control byte. */
    WRONG_BYTE(SPACE_16, 1, 0x10), WRONG_BYTE(SPACE_16, 1, 0x20), WRONG_BYTE(SPACE_16, 1, 0x40),
    WRONG_BYTE(SPACE_16, 1, 0x80), WRONG_BYTE(SPACE_16, 2, 0x01), WRONG_BYTE(SPACE_16, 3, 0x01),
    WRONG_BYTE(SPACE_16, 3, 0x80), WRONG_BYTE(SPACE_16, 12, 0x01), WRONG_BYTE(SPACE_16, 13, 0x10),
    WRONG_BYTE(SPACE_16, 14, 0x80), WRONG_BYTE(SPACE_16, 15, 0x01),
};

static void order_of_tests(void)
{
    run(blocks, COUNT(blocks));
    run(records, COUNT(records));
    run(attentions, COUNT(attentions));
    run(fields, COUNT(fields));
    run(buffers, COUNT(buffers));
    run(long_blocks, COUNT(long_blocks));
    run(long_fields, COUNT(long_fields));
}

#endif
