/* exchange.h: one command as the daemon has it: what the wire brought, and what goes back. Part of daemon.c. */
#ifndef EXCHANGE_H
#define EXCHANGE_H

#include "../codes.h"
#include "../decode.h"
#include "stormtoggle.h"
#include <string.h>

/* What the daemon itself answers, since the library does not serve it. */
enum { INQUIRY = 0x12, PREVENT_ALLOW = 0x1e, REPORT_LUNS = 0xa0 };

/* Sense that only a daemon tells: of the wire, of the file, of a unit that is not there, of a locked door. */
#define SENSE(key, asc, ascq) ((key) << 16 | (asc) << 8 | (ascq))
enum {
    WRITE_ERROR = SENSE(0x3, 0x0c, 0x00),
    INTERNAL_FAILURE = SENSE(0x4, 0x44, 0x00),
    INVALID_FIELD_IN_COMMAND = SENSE(0x5, 0x24, 0x00),
    UNIT_NOT_SUPPORTED = SENSE(0x5, 0x25, 0x00),
    REMOVAL_PREVENTED = SENSE(0x5, 0x53, 0x02)
};

struct exchange {
    const uint8_t *command;
    size_t command_length;
    const uint8_t *sent;
    size_t sent_length;
    uint8_t *received;
    size_t room;

    /* What goes back. */
    unsigned status;
    uint8_t sense[STORMTOGGLE_SENSE_LENGTH];
    size_t received_length, taken;

    /* For the log: what the library answered, and, where the daemon answered in its place, why. */
    uint64_t answer;
    const char *why;
    int is_translated;
};

static inline uint8_t operation_of(const struct exchange *x)
{
    return x->command_length == 0 ? TEST_UNIT_READY : x->command[0];
}

/* CHECK CONDITION with a sense of the daemon's own, and why. */
static inline void answer_check(struct exchange *x, uint32_t sense, const char *why)
{
    x->status = STORMTOGGLE_CHECK_CONDITION;
    x->received_length = x->taken = 0;
    memset(x->sense, 0, sizeof x->sense);
    x->sense[STORMTOGGLE_SENSE_FIRST] = STORMTOGGLE_NOT_VALID;
    x->sense[STORMTOGGLE_SENSE_KEY] = BYTE(sense, 16);
    x->sense[STORMTOGGLE_SENSE_REST] = STORMTOGGLE_SENSE_LENGTH - STORMTOGGLE_SENSE_REST - 1;
    x->sense[STORMTOGGLE_SENSE_ASC] = BYTE(sense, 8);
    x->sense[STORMTOGGLE_SENSE_ASCQ] = BYTE(sense, 0);
    x->why = why;
}

/* GOOD with data, cut at the allocation that the command names and at the room that the wire has. */
static inline void answer_data(struct exchange *x, const uint8_t *data, size_t length, size_t allocation)
{
    if (length > allocation)
        length = allocation;
    if (length > x->room)
        length = x->room;
    if (length > 0)
        memcpy(x->received, data, length);
    x->status = STORMTOGGLE_GOOD;
    x->received_length = length;
    x->why = "answered by the daemon";
}

static inline void answer_good(struct exchange *x) { answer_data(x, NULL, 0, 0); }

#endif
