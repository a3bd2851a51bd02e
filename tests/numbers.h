/* numbers.h: the numbers of document 01, and of 02 where it adds some, each named once for the host-side tests and the
 * benchmark, in their words.
 *
 * Numbers and no rules: what a caller of the library needs too is named in the public header, and the rest here; both
 * are written from 01 and 02, not from the library's sources. The commands and their bits have 01's own names, all
 * others a prefix. The bytes of a case (a command block, a list, an expected reply, an image) are its data, and stay
 * bytes.
 */
#ifndef NUMBERS_H
#define NUMBERS_H

#include "stormtoggle.h"

/* ---- what the public header names, under shorter names */

enum {
    RECORD_BYTES = STORMTOGGLE_RECORD_LENGTH, SENSE_BYTES = STORMTOGGLE_SENSE_LENGTH,
    SHORTEST = STORMTOGGLE_SHORTEST_IMAGE, LONGEST = STORMTOGGLE_LONGEST_IMAGE,
    LARGEST_BLOCK = STORMTOGGLE_LARGEST_BLOCK,
    MOUNTED_LENGTH = STORMTOGGLE_MOUNTED_BLOCK_LENGTH /* 02: "After a mount the block length shall be 32,768" */
};

/* "No. 1" to "No. 7": what refuses a call. */
enum {
    BY_COMMAND = STORMTOGGLE_BY_COMMAND, BY_SENT = STORMTOGGLE_BY_SENT, BY_RECEIVED = STORMTOGGLE_BY_RECEIVED,
    BY_DRIVE = STORMTOGGLE_BY_DRIVE, BY_LOADED = STORMTOGGLE_BY_LOADED, BY_UNSOUND = STORMTOGGLE_BY_UNSOUND,
    BY_LENGTH = STORMTOGGLE_BY_LENGTH, BY_MOST = BY_LENGTH
};

/* The answer packed, by the public header's words: at which bit refusal, status and objects crossed lie, and at which a
 * view's start. */
enum { ANSWER_REFUSAL = 32, ANSWER_STATUS = 35, ANSWER_CROSSED = 36, VIEW_START = 32 };

/* ---- the drive record */

/* "pending attention (00h, 28h, 29h)": none, that of a mount, that of a fresh record. */
enum { ATTENTION_NONE = 0x00, ATTENTION_MOUNTED = 0x28, ATTENTION_FRESH = 0x29 };

/* ---- the partition image */

/* "The last 16 bytes are a trailer: N, flags (bit 0 = protected, others 0), D, L, four bytes each": how far each lies
 * from the image's end. */
enum { TRAILER = 16 };
enum field { TRAILER_N = TRAILER, TRAILER_FLAGS = 12, TRAILER_D = 8, TRAILER_L = 4 };
enum { FLAG_PROTECTED = 0x01 };

/* "The entry of object i is the four bytes at L - 16 - 4(i+1): top bit 1 for a filemark, low 31 bits the end." */
enum { ENTRY = 4 };
#define ENTRY_FILEMARK 0x80000000u
#define ENTRY_END 0x7fffffffu

/* "in the early-warning zone if room x 16 < L - 16" */
enum { ZONE_SHARE = 16 };

/* "Example E, L = 64" */
enum { E_BYTES = 64 };

/* ---- the sense */

/* "7 0Ah" */
enum { SENSE_REST = 0x0a };
#define EMPTY_SENSE {[STORMTOGGLE_SENSE_FIRST] = STORMTOGGLE_NOT_VALID, [STORMTOGGLE_SENSE_REST] = SENSE_REST}

enum {
    KEY_NONE = 0x0, KEY_NOT_READY = 0x2, KEY_ILLEGAL = 0x5, KEY_ATTENTION = 0x6, KEY_PROTECTED = 0x7, KEY_BLANK = 0x8,
    KEY_OVERFLOW = 0xd
};

/* In descriptor form (02): "80h in its byte 2" of an information descriptor. VALID is a bit of the kept sense's first
 * byte, whatever the others are, and FILEMARK, EOM and ILI are three of the stream descriptor's byte 3. */
enum { INFORMATION_VALID = 0x80, VALID_BIT = 0x80 };
enum { ALL_FLAGS = STORMTOGGLE_FILEMARK | STORMTOGGLE_EOM | STORMTOGGLE_ILI };

/* "Key/ASC/ASCQ", with FILEMARK, EOM and ILI over the key as 01 gives them: bytes 2, 12 and 13 as one number. */
#define TOLD(byte_2, asc, ascq) ((byte_2) << 16 | (asc) << 8 | (ascq))
enum told_number {
    TOLD_GOOD = TOLD(KEY_NONE, 0x00, 0x00),
    TOLD_LENGTH = TOLD(STORMTOGGLE_ILI | KEY_NONE, 0x00, 0x00),         /* "ILI, 0/00/00" */
    TOLD_FILEMARK = TOLD(STORMTOGGLE_FILEMARK | KEY_NONE, 0x00, 0x01),  /* "0/00/01, FILEMARK" */
    TOLD_ZONE = TOLD(STORMTOGGLE_EOM | KEY_NONE, 0x00, 0x02),           /* "0/00/02, EOM" */
    TOLD_OVERFLOW = TOLD_ZONE | TOLD(KEY_OVERFLOW, 0x00, 0x00),         /* "D/00/02, EOM" */
    TOLD_BEGINNING = TOLD(STORMTOGGLE_EOM | KEY_NONE, 0x00, 0x04),      /* "0/00/04 with EOM" */
    TOLD_END_OF_DATA = TOLD(KEY_BLANK, 0x00, 0x05),                     /* "8/00/05" */
    TOLD_END_IN_ZONE = TOLD(STORMTOGGLE_EOM | KEY_BLANK, 0x00, 0x05),   /* 02: "exactly when ... in the zone" */
    TOLD_NOT_LOADED = TOLD(KEY_NOT_READY, 0x3a, 0x00),                  /* "nothing loaded (2/3A/00)" */
    TOLD_LIST_LENGTH = TOLD(KEY_ILLEGAL, 0x1a, 0x00),                   /* "List length ..., else 5/1A/00" */
    TOLD_NOT_SERVED = TOLD(KEY_ILLEGAL, 0x20, 0x00),                    /* "operation code not served (5/20/00)" */
    TOLD_FIELD = TOLD(KEY_ILLEGAL, 0x24, 0x00),                         /* "fields (5/24/00)" */
    TOLD_LIST = TOLD(KEY_ILLEGAL, 0x26, 0x00),                          /* "else 5/26/00, block length kept" */
    TOLD_MOUNTED = TOLD(KEY_ATTENTION, ATTENTION_MOUNTED, 0x00),        /* "6 with 28/00 or 29/00" */
    TOLD_FRESH = TOLD(KEY_ATTENTION, ATTENTION_FRESH, 0x00),
    TOLD_PROTECTED = TOLD(KEY_PROTECTED, 0x27, 0x00)                    /* "protection ... (7/27/00)" */
};
#define TOLD_BYTE_2(told) ((uint8_t)((told) >> 16))
#define TOLD_KEY(told) (TOLD_BYTE_2(told) & STORMTOGGLE_KEY)
#define TOLD_ASC(told) ((uint8_t)((told) >> 8))
#define TOLD_ASCQ(told) ((uint8_t)(told))

/* ---- command blocks */

enum {
    TEST_UNIT_READY = 0x00, REWIND = 0x01, REQUEST_SENSE = 0x03, READ_BLOCK_LIMITS = 0x05, READ = 0x08, WRITE = 0x0a,
    WRITE_FILEMARKS = 0x10, SPACE = 0x11, MODE_SELECT = 0x15, ERASE = 0x19, MODE_SENSE = 0x1a, LOAD_UNLOAD = 0x1b,
    LOCATE = 0x2b, READ_POSITION = 0x34,
    SPACE_16 = 0x91, LOCATE_16 = 0x92, /* of 02 */
    INQUIRY = 0x12 /* "Not served" */
};

/* "Masks from byte 1 on, byte:bits, others 00", and 02's "92 1:3B 3-11:FF; 91 1:0F 4-11:FF" and "The mask of 03h gains
 * the bit", a ROW for each command served: code, name, whether it needs no cartridge ("03, 05, 15, 1A need no
 * cartridge"), masks. */
#define SERVED(ROW)                                                               \
    ROW(TEST_UNIT_READY, "TEST UNIT READY", 0, 0x00)                              \
    ROW(REWIND, "REWIND", 0, 0x01)                                                \
    ROW(REQUEST_SENSE, "REQUEST SENSE", 1, 0x01, 0x00, 0x00, 0xff)                \
    ROW(READ_BLOCK_LIMITS, "READ BLOCK LIMITS", 1, 0x00)                          \
    ROW(READ, "READ", 0, 0x03, 0xff, 0xff, 0xff)                                  \
    ROW(WRITE, "WRITE", 0, 0x01, 0xff, 0xff, 0xff)                                \
    ROW(WRITE_FILEMARKS, "WRITE FILEMARKS", 0, 0x00, 0xff, 0xff, 0xff)            \
    ROW(SPACE, "SPACE", 0, 0x0f, 0xff, 0xff, 0xff)                                \
    ROW(MODE_SELECT, "MODE SELECT", 1, 0x10, 0x00, 0x00, 0xff)                    \
    ROW(ERASE, "ERASE", 0, 0x03)                                                  \
    ROW(MODE_SENSE, "MODE SENSE", 1, 0x08, 0x3f, 0x00, 0xff)                      \
    ROW(LOAD_UNLOAD, "LOAD UNLOAD", 0, 0x01, 0x00, 0x00, 0x01)                    \
    ROW(LOCATE, "LOCATE", 0, 0x03, 0x00, 0xff, 0xff, 0xff, 0xff, 0x00, 0xff)      \
    ROW(READ_POSITION, "READ POSITION", 0, 0x1f)                                  \
    ROW(SPACE_16, "SPACE (16)", 0,                                                \
        0x0f, 0x00, 0x00, 0xff, 0xff, 0xff, 0xff, 0xff, 0xff, 0xff, 0xff)         \
    ROW(LOCATE_16, "LOCATE (16)", 0,                                              \
        0x3b, 0x00, 0xff, 0xff, 0xff, 0xff, 0xff, 0xff, 0xff, 0xff, 0xff)

/* "00-1F 6, 20-5F 10, 80-9F 16, A0-BF 12, others 0": the lengths, and the first code of each group. */
enum { BYTES_6 = 6, BYTES_10 = 10, BYTES_12 = 12, BYTES_16 = 16 };
enum { CODES_OF_10 = 0x20, CODES_OF_NONE = 0x60, CODES_OF_16 = 0x80, CODES_OF_12 = 0xa0, CODES_BEHIND_12 = 0xc0 };

/* Bits of byte 1: REWIND, LOAD UNLOAD and LOCATE; READ and WRITE; ERASE; LOCATE; MODE SENSE; MODE SELECT. LOCATE (16)
 * has those of LOCATE. REQUEST SENSE has that of 02, which asks for the descriptor form. */
enum { IMMED = 0x01, FIXED = 0x01, SILI = 0x02, LONG = 0x01, ERASE_IMMED = 0x02, CP = 0x02, DBD = 0x08, PF = 0x10 };
enum { DESC = 0x01 };

/* SPACE's code and READ POSITION's form are byte 1, MODE SENSE's page is byte 2. */
enum { BLOCKS = 0, FILEMARKS = 1, TO_END_OF_DATA = 3 };
enum { FORM_SHORT = 0x00, FORM_LONG = 0x06 };
enum { PAGE_NONE = 0x00, PAGE_ALL = 0x3f };

/* Bytes 2-4 count, in 24 bits; byte 4 alone is an allocation, a list's length, or has LOAD in bit 0. */
enum { AT_PAGE = 2, AT_COUNT = 2, AT_ALLOCATION = 4, AT_LOAD = 4, LOAD = 0x01 };
enum { COUNT_BITS = 24, COUNT_MOST = 0xffffff, COUNT_SIGN = 0x800000 };

/* LOCATE: "bytes 3-6 object, byte 8 partition". */
enum { AT_OBJECT = 3, AT_PARTITION = 8 };

/* SPACE (16): "an eight-byte signed count in bytes 4-11 and the codes served today". LOCATE (16), as in table 65 of
 * 000: the partition is byte 3, the identifier bytes 4-11, the destination bits 5-3 of byte 1; those that are served
 * stand here in their place. */
enum { AT_COUNT_16 = 4, AT_PARTITION_16 = 3, AT_IDENTIFIER = 4 };
enum { DESTINATION = 0x38, TO_OBJECT = 0x00, TO_FILE = 0x08, TO_END = 0x18, DESTINATIONS = 8 };
#define DESTINED(number) ((number) << 3)

/* ---- what is handed over and taken */

enum { LIMITS_BYTES = 6 };

/* "form 00h, 20 bytes: byte 0 BOP 80h, zone 40h; 1 partition; 4-7 and 8-11 position. Form 06h, 32 bytes: byte 0 the
 * same; 4-7 partition; 8-15 position; 16-23 filemarks before it": of eight bytes the last four. */
enum { SHORT_BYTES = 20, SHORT_PARTITION = 1, SHORT_FIRST = 4, SHORT_LAST = 8 };
enum { LONG_BYTES = 32, LONG_PARTITION = 4, LONG_POSITION = 12, LONG_FILEMARKS = 20 };
enum { POSITION_BOP = 0x80, POSITION_ZONE = 0x40 };

/* "0B 00 wp 08, then descriptor 0 x5 and block length (3); DBD: 03 00 wp 00. wp is 80h": with a descriptor and without.
 * Byte 0 is how much follows, byte 3 the descriptor's length. MODE SELECT's list has the same lengths and places. */
enum { MODE_BYTES = 12, MODE_HEADER = 4, MODE_DESCRIPTOR = 8, MODE_WP = 0x80 };
enum { AT_DESCRIPTOR = 3, AT_BLOCK_LENGTH = 9 };

#endif
