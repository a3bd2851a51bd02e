/* tapes.h: the small tapes on which raw.c tries commands, made over the wire on a cartridge of 64 bytes with one
 * partition, and cases on them, each one line of a table. */
#ifndef TAPES_H
#define TAPES_H

#include "answers.h"

#define COUNT(array) (sizeof(array) / sizeof *(array))

/* The eighteen bytes of a sense: byte 0, byte 2, information, ASC with ASCQ. */
#define SENSE(first, flags_and_key, information, codes) \
    first " 00 " flags_and_key " " information " 0A 00000000 " codes " 00000000"
#define NO_INFORMATION "00000000"
#define EMPTY_SENSE SENSE("70", "00", NO_INFORMATION, "0000")
#define NOT_LOADED SENSE("70", "02", NO_INFORMATION, "3A00")
#define LIST_LENGTH SENSE("70", "05", NO_INFORMATION, "1A00")
#define NOT_SERVED SENSE("70", "05", NO_INFORMATION, "2000")
#define FIELD SENSE("70", "05", NO_INFORMATION, "2400")
#define NO_SUCH_UNIT SENSE("70", "05", NO_INFORMATION, "2500")
#define LIST_FIELD SENSE("70", "05", NO_INFORMATION, "2600")
#define REMOVAL_PREVENTED SENSE("70", "05", NO_INFORMATION, "5302")
#define CHANGED SENSE("70", "06", NO_INFORMATION, "2800")

/* READ POSITION, form 00h: byte 0 (BOP 80h, zone 40h) and the object number. */
#define AT(place, object) place " 00 0000 " object " " object " 0000000000000000"
#define AT_THE_BEGINNING AT("80", "00000000")

/* Ten bytes that begin with this digit, and the bytes of the longer blocks. */
#define TEN(digit) digit "0" digit "1" digit "2" digit "3" digit "4" digit "5" digit "6" digit "7" digit "8" digit "9"
#define FORTY TEN("1") TEN("2") TEN("3") TEN("4")

/* What stands on the tape when a case begins. */
enum tape {
    AS_IT_STANDS, /* what the case before left; block length and position too */
    BLANK,
    TEN_BYTES, /* a block of ten bytes */
    EXAMPLE_E, /* block 01 02 03, then a filemark */
    FIVE       /* block, block, filemark, block, filemark; the blocks are 11, 12 and 13 */
};

struct step {
    const char *subject;
    enum tape tape;
    uint32_t block_length;
    uint32_t start;
    const char *command;
    const char *sent;
    size_t room;
    const char *sense;    /* none: GOOD */
    const char *received; /* what comes into the room, if there is one */
    const char *position; /* afterwards, by READ POSITION; none: not asked */
};

static inline void select_block_length(struct wire *wire, uint32_t length)
{
    uint8_t list[12] = {[3] = 8, [9] = (uint8_t)(length >> 16), [10] = (uint8_t)(length >> 8), [11] = (uint8_t)length};
    struct reply reply = ask_sending(wire, "15 10 00 00 0C 00", list, sizeof list);
    require_good(wire, "MODE SELECT", &reply);
}

static inline void require_plainly(struct wire *wire, const char *doing, const char *command)
{
    struct reply reply = ask_plainly(wire, command);
    require_good(wire, doing, &reply);
}

static inline void put_block(struct wire *wire, const char *command, const char *data)
{
    struct reply reply = ask_sending_text(wire, command, data);
    require_good(wire, "WRITE", &reply);
}

static inline void put_filemark(struct wire *wire)
{
    require_plainly(wire, "WRITE FILEMARKS", "10 00 000001 00");
}

static inline void make_blank(struct wire *wire)
{
    require_plainly(wire, "REWIND", "01 00 00 00 00 00");
    require_plainly(wire, "ERASE", "19 00 00 00 00 00");
}

static inline void make_five(struct wire *wire)
{
    put_block(wire, "0A 00 000001 00", "11");
    put_block(wire, "0A 00 000001 00", "12");
    put_filemark(wire);
    put_block(wire, "0A 00 000001 00", "13");
    put_filemark(wire);
}

static inline void locate(struct wire *wire, uint32_t object)
{
    uint8_t command[10] = {0x2b, [3] = (uint8_t)(object >> 24), [4] = (uint8_t)(object >> 16),
                           [5] = (uint8_t)(object >> 8), [6] = (uint8_t)object};
    struct reply reply = ask_or_end(wire, &(struct request){.command = command, .command_length = sizeof command});
    require_good(wire, "LOCATE", &reply);
}

static inline void make_tape(struct wire *wire, enum tape tape, uint32_t block_length, uint32_t start)
{
    if (tape == AS_IT_STANDS)
        return;
    make_blank(wire);
    select_block_length(wire, block_length);
    if (tape == TEN_BYTES)
        put_block(wire, "0A 00 00000A 00", TEN("1"));
    if (tape == EXAMPLE_E) {
        put_block(wire, "0A 00 000003 00", "01 02 03");
        put_filemark(wire);
    }
    if (tape == FIVE)
        make_five(wire);
    locate(wire, start);
}

static inline void expect_position(struct wire *wire, const char *position)
{
    struct reply reply = ask_receiving(wire, "34 00 00 00 00 00 00 00 00 00", 20);
    require_good(wire, "READ POSITION", &reply);
    expect_data(wire, &reply, 20, position);
}

static inline void try_step(struct wire *wire, const struct step *step)
{
    wire->subject = step->subject;
    make_tape(wire, step->tape, step->block_length, step->start);
    struct reply reply = step->sent != NULL ? ask_sending_text(wire, step->command, step->sent)
                                            : ask_receiving(wire, step->command, step->room);
    expect_answer(wire, &reply, step->sense);
    if (step->room > 0)
        expect_data(wire, &reply, step->room, step->received == NULL ? "" : step->received);
    if (step->position != NULL)
        expect_position(wire, step->position);
}

static inline void try_steps(struct wire *wire, const struct step *steps, size_t count)
{
    for (size_t i = 0; i < count; i++)
        try_step(wire, &steps[i]);
}

#endif
