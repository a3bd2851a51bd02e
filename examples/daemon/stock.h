/* stock.h: what stock tape programs send and document 01 answers with a field error, turned into what it serves. The
 * daemon's switch --exact leaves all of it out. Part of daemon.c. */
#ifndef STOCK_H
#define STOCK_H

#include "exchange.h"

/* Bits and forms that are cleared. Linux's st reads the position and locates in the form of its oldest drives, and
 * waits for neither filemarks nor a tensioned tape if it is told not to. */
enum { FORM = 0x1f, OLD_FORM = 0x01, BLOCK_TYPE = 0x04, IMMEDIATE = 0x01, RETENSION = 0x02 };

/* In a copy of the block; true if anything is another now. */
static inline int translate(uint8_t *command, size_t length)
{
    uint8_t before[2] = {length > 1 ? command[1] : 0, length > 4 ? command[4] : 0};
    if (length < SIX)
        return 0;
    if (command[0] == READ_POSITION && (command[1] & FORM) == OLD_FORM)
        command[1] ^= OLD_FORM;
    if (command[0] == LOCATE)
        command[1] &= (uint8_t)~BLOCK_TYPE;
    if (command[0] == WRITE_FILEMARKS)
        command[1] &= (uint8_t)~IMMEDIATE;
    if (command[0] == LOAD_UNLOAD)
        command[4] &= (uint8_t)~RETENSION;
    return command[1] != before[0] || command[4] != before[1];
}

/* ---- MODE SENSE of the medium partition page, without which st reaches no partition but the first */

enum { MEDIUM_PARTITION_PAGE = 0x11, PARTITION_PAGE_LENGTH = 8, IN_MEGABYTES = 0x10, RECOGNIZES_PARTITIONS = 0x03 };

static inline int asks_for_partitions(const struct exchange *x)
{
    return operation_of(x) == MODE_SENSE && x->command_length >= SIX && x->command[2] == MEDIUM_PARTITION_PAGE;
}

/* The page behind the mode data that the library gave: how many partitions there are besides the first, and how long
 * each is, rounded up. None can be added. Gives back the length of all. */
static inline size_t append_partitions(uint8_t *data, size_t length, unsigned partitions, const size_t lengths[2])
{
    uint8_t *page = data + length, additional = (uint8_t)(partitions == 0 ? 0 : partitions - 1);
    const uint8_t head[PARTITION_PAGE_LENGTH] = {MEDIUM_PARTITION_PAGE,
                                                 (uint8_t)(PARTITION_PAGE_LENGTH - 2 + 2 * partitions),
                                                 additional, additional, IN_MEGABYTES, RECOGNIZES_PARTITIONS};
    memcpy(page, head, sizeof head);
    page += sizeof head;
    for (unsigned i = 0; i < partitions; i++) {
        size_t megabytes = (lengths[i] + 999999) / 1000000;
        *page++ = BYTE(megabytes, 8);
        *page++ = BYTE(megabytes, 0);
    }
    length = (size_t)(page - data);
    data[0] = (uint8_t)(length - 1);
    return length;
}

#endif
