/* identity.h: who is there, over the wire: INQUIRY and its pages, REPORT LUNS, a logical unit that is not there, and
 * the operation codes that nobody serves. Part of raw.c. */
#ifndef IDENTITY_H
#define IDENTITY_H

#include "tapes.h"

enum { ALLOCATION = 255, STANDARD_INQUIRY = 36, UNIT_NOT_THERE = 5 };

/* Asks with the largest allocation of one byte, and gives back how many bytes came. */
static inline size_t ask_inquiry(struct wire *wire, const char *subject, const char *command)
{
    wire->subject = subject;
    struct reply reply = ask_receiving(wire, command, ALLOCATION);
    expect_good(wire, &reply);
    return reply.received;
}

static inline void expect_text(const struct wire *wire, const char *what, const uint8_t *seen, const char *wanted)
{
    size_t length = strlen(wanted);
    if (begin_line(wire, memcmp(seen, wanted, length) == 0))
        printf("%s is '%s'\n", what, wanted);
    else
        printf("%s: is '%.*s', and not '%s'\n", what, (int)length, (const char *)seen, wanted);
}

static inline void expect_standard_inquiry(struct wire *wire)
{
    uint8_t whole[ALLOCATION];
    size_t length = ask_inquiry(wire, "INQUIRY", "12 00 00 00 FF 00");
    memcpy(whole, wire->room, sizeof whole);
    expect_at_least(wire, "its length", length, STANDARD_INQUIRY);
    expect_number(wire, "the peripheral type", whole[0], 0x01);
    expect_number(wire, "the removable bit, alone in byte 1", whole[1], 0x80);
    expect_at_least(wire, "the version", whole[2], 3);
    expect_number(wire, "the response format", whole[3] & 0x0f, 2);
    expect_number(wire, "the length by the additional length", whole[4] + 5u, length);
    expect_text(wire, "the vendor", whole + 8, "STRMTGL ");
    expect_text(wire, "the product", whole + 16, "CARTRIDGE DRIVE ");
    wire->subject = "INQUIRY cut at 5";
    struct reply reply = ask_receiving(wire, "12 00 00 00 05 00", 5);
    expect_good(wire, &reply);
    expect_received(wire, &reply, 5, whole, 5);
    wire->subject = "INQUIRY cut at 36";
    reply = ask_receiving(wire, "12 00 00 00 24 00", STANDARD_INQUIRY);
    expect_good(wire, &reply);
    expect_received(wire, &reply, STANDARD_INQUIRY, whole, STANDARD_INQUIRY);
}

/* Designators behind one another: a code set of 1 to 3, byte 2 reserved, and lengths that add up. Gives back how many
 * there are, 0 if they are ill-formed. */
static inline size_t count_designators(const uint8_t *at, size_t length)
{
    size_t count = 0;
    while (length > 0) {
        if (length < 4 || at[2] != 0 || at[3] == 0 || at[3] > length - 4u)
            return 0;
        if ((at[0] & 0x0f) < 1 || (at[0] & 0x0f) > 3 || (at[1] & 0x40) != 0)
            return 0;
        length -= 4u + at[3];
        at += 4u + at[3];
        count++;
    }
    return count;
}

static inline size_t count_graphic(const uint8_t *at, size_t length)
{
    size_t count = 0;
    while (count < length && at[count] >= 0x20 && at[count] <= 0x7e)
        count++;
    return count;
}

static inline size_t rest_of_page(size_t length)
{
    return length < 4 ? 0 : length - 4;
}

/* The head of a page: type, page code, and the number of bytes behind the four. */
static inline void expect_page_head(const struct wire *wire, uint8_t page, size_t length)
{
    expect_number(wire, "the peripheral type", wire->room[0], 0x01);
    expect_number(wire, "the page code", wire->room[1], page);
    expect_number(wire, "the length by the page length", ((size_t)wire->room[2] << 8 | wire->room[3]) + 4, length);
}

static inline void expect_pages(struct wire *wire)
{
    struct step supported = {.subject = "INQUIRY page 00h", .command = "12 01 00 00 FF 00", .room = ALLOCATION,
                             .received = "01 00 0003 00 80 83"};
    try_step(wire, &supported);
    size_t length = ask_inquiry(wire, "INQUIRY page 80h", "12 01 80 00 FF 00");
    expect_page_head(wire, 0x80, length);
    expect_at_least(wire, "the length with a serial number", length, 5);
    expect_number(wire, "the length with the graphic characters of the serial number",
                  4 + count_graphic(wire->room + 4, rest_of_page(length)), length);
    length = ask_inquiry(wire, "INQUIRY page 83h", "12 01 83 00 FF 00");
    expect_page_head(wire, 0x83, length);
    expect_at_least(wire, "the number of well-formed designators",
                    count_designators(wire->room + 4, rest_of_page(length)), 1);
    struct step unknown = {.subject = "INQUIRY page 7Fh", .command = "12 01 7F 00 FF 00", .room = ALLOCATION,
                           .sense = FIELD, .received = ""};
    try_step(wire, &unknown);
    struct step without = {.subject = "INQUIRY page code without EVPD", .command = "12 00 80 00 FF 00",
                           .room = ALLOCATION, .sense = FIELD, .received = ""};
    try_step(wire, &without);
}

static const struct step logical_units[] = {
    {"REPORT LUNS", AS_IT_STANDS, 0, 0, "A0 00 00 00 00 00 00000010 00 00", NULL, 16, NULL,
     "00000008 00000000 0000000000000000", NULL},
    {"REPORT LUNS, allocation 255", AS_IT_STANDS, 0, 0, "A0 00 00 00 00 00 000000FF 00 00", NULL, 255, NULL,
     "00000008 00000000 0000000000000000", NULL},
};

/* Only INQUIRY is answered where there is no logical unit. */
static inline void expect_no_unit(struct wire *wire)
{
    static const struct step not_there[] = {
        {"TEST UNIT READY at LUN 5", AS_IT_STANDS, 0, 0, "00 00 00 00 00 00", NULL, 0, NO_SUCH_UNIT, NULL, NULL},
        {"READ POSITION at LUN 5", AS_IT_STANDS, 0, 0, "34 00 00 00 00 00 00 00 00 00", NULL, 20, NO_SUCH_UNIT, "",
         NULL},
        {"ERASE at LUN 5", AS_IT_STANDS, 0, 0, "19 00 00 00 00 00", NULL, 0, NO_SUCH_UNIT, NULL, NULL},
        {"WRITE 3 at LUN 5", AS_IT_STANDS, 0, 0, "0A 00 000003 00", "010203", 0, NO_SUCH_UNIT, NULL, NULL},
    };
    int there = wire->initiator.lun;
    wire->initiator.lun = UNIT_NOT_THERE;
    ask_inquiry(wire, "INQUIRY at LUN 5", "12 00 00 00 FF 00");
    expect_number(wire, "qualifier and type", wire->room[0], 0x7f);
    try_steps(wire, not_there, COUNT(not_there));
    wire->initiator.lun = there;
}

/* ---- operation codes */

/* Documents 01 and 02 serve these, and the daemon the last three. */
static const uint8_t served[] = {0x00, 0x01, 0x03, 0x05, 0x08, 0x0a, 0x10, 0x11, 0x15, 0x19,
                                 0x1a, 0x1b, 0x2b, 0x34, 0x91, 0x92, 0x12, 0x1e, 0xa0};

/* How many of sixteen codes are answered by 5/20/00; the first that is not served, and is answered otherwise, is
 * shown. */
static inline size_t count_not_served(struct wire *wire, unsigned first)
{
    struct bytes wanted = bytes_of(NOT_SERVED);
    size_t count = 0;
    for (unsigned code = first; code < first + 16; code++) {
        uint8_t command[LONGEST_COMMAND] = {(uint8_t)code};
        if (memchr(served, (int)code, sizeof served) != NULL)
            continue;
        struct reply reply = ask_or_end(wire, &(struct request){.command = command, .command_length = sizeof command});
        if (reply.sense_length == wanted.length && memcmp(reply.sense, wanted.at, wanted.length) == 0) {
            count++;
            continue;
        }
        printf("operation code %02Xh: ", code);
        print_reply(&reply);
        printf("\n");
    }
    return count;
}

static inline void try_unserved_codes(struct wire *wire)
{
    static const uint8_t wanted[16] = {10, 8, 15, 15, 16, 16, 16, 16, 16, 14, 15, 16, 16, 16, 16, 16};
    for (unsigned group = 0; group < 16; group++) {
        char subject[] = "operation codes 00h to 0Fh";
        subject[16] = subject[23] = "0123456789ABCDEF"[group];
        wire->subject = subject;
        expect_number(wire, "the number answered by 5/20/00", count_not_served(wire, group * 16), wanted[group]);
    }
}

static inline void try_identity(struct wire *wire)
{
    expect_standard_inquiry(wire);
    expect_pages(wire);
    try_steps(wire, logical_units, COUNT(logical_units));
    expect_no_unit(wire);
}

#endif
