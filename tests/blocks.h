/* blocks.h: whole command blocks in plain C. */
#ifndef BLOCKS_H
#define BLOCKS_H

#include "numbers.h"

struct bytes {
    size_t length;
    uint8_t at[36];
};

/* A macro with arguments makes a block; the bare name is its operation code. */
#define BYTE(number, shift) ((uint8_t)((uint64_t)(number) >> (shift)))
#define SIX(code, byte_1, number) {BYTES_6, {code, byte_1, BYTE(number, 16), BYTE(number, 8), BYTE(number, 0), 0}}
#define PAGE(byte_1, page, allocation) {BYTES_6, {MODE_SENSE, byte_1, page, 0, allocation, 0}}
#define LOCATE(byte_1, object, partition)                                                                        \
    {BYTES_10,                                                                                                   \
     {LOCATE, byte_1, 0, BYTE(object, 24), BYTE(object, 16), BYTE(object, 8), BYTE(object, 0), 0, partition, 0}}
#define READ_POSITION(form) {BYTES_10, {READ_POSITION, form}}
#define SIXTEEN(code, byte_1, byte_3, number)                                                                    \
    {BYTES_16,                                                                                                   \
     {code, byte_1, 0, byte_3, BYTE(number, 56), BYTE(number, 48), BYTE(number, 40), BYTE(number, 32),           \
      BYTE(number, 24), BYTE(number, 16), BYTE(number, 8), BYTE(number, 0), 0, 0, 0, 0}}
#define SPACE_16(code, count) SIXTEEN(SPACE_16, code, 0, count)
#define LOCATE_16(byte_1, identifier, partition) SIXTEEN(LOCATE_16, byte_1, partition, identifier)

#endif
