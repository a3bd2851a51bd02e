/* codes.h: the numbers of the command blocks that the drive serves: operation codes, lengths, fields. Shared by the
 * examples. */
#ifndef CODES_H
#define CODES_H

#include <stdint.h>

enum {
    TEST_UNIT_READY = 0x00, REWIND = 0x01, REQUEST_SENSE = 0x03, READ_BLOCK_LIMITS = 0x05, READ = 0x08, WRITE = 0x0a,
    WRITE_FILEMARKS = 0x10, SPACE = 0x11, MODE_SELECT = 0x15, ERASE = 0x19, MODE_SENSE = 0x1a, LOAD_UNLOAD = 0x1b,
    LOCATE = 0x2b, READ_POSITION = 0x34, SPACE_16 = 0x91, LOCATE_16 = 0x92
};

/* Command blocks have six bytes, LOCATE's and READ POSITION's ten; some come in sixteen as well. (A daemon meets REPORT
 * LUNS, of twelve.) */
enum { SIX = 6, TEN = 10, TWELVE = 12, SIXTEEN = 16 };

/* Byte 1 of a command block. */
enum { FIXED = 0x01, SILI = 0x02, CHANGE_PARTITION = 0x02, LONG_FORM = 0x06, PAGE_FORMAT = 0x10 };
enum space_code { BLOCKS = 0, FILEMARKS = 1, TO_END_OF_DATA = 3 };
enum destination { TO_OBJECT = 0, TO_FILE = 1, TO_END = 3, DESTINATION_SHIFT = 3 };

/* The mode data, and MODE SELECT's list: the lengths of its two parts; the block length is its last three bytes. */
enum { HEADER = 4, DESCRIPTOR = 8 };

#define BYTE(number, shift) ((uint8_t)((uint64_t)(number) >> (shift)))
#define THREE_BYTES(number) BYTE(number, 16), BYTE(number, 8), BYTE(number, 0)
#define FOUR_BYTES(number) BYTE(number, 24), THREE_BYTES(number)
#define EIGHT_BYTES(number) FOUR_BYTES((uint64_t)(number) >> 32), FOUR_BYTES(number)

#endif
