/* identity.h: who the drive is, which the library leaves to the daemon: INQUIRY with its pages, and REPORT LUNS.
 * Part of daemon.c. */
#ifndef IDENTITY_H
#define IDENTITY_H

#include "exchange.h"

/* Padded with spaces to the widths of the standard data. */
#define VENDOR "STRMTGL "
#define PRODUCT "CARTRIDGE DRIVE "
#define REVISION "0001"
#define SERIAL "STORMTOGGLE-0001"

enum { SEQUENTIAL_ACCESS = 0x01, NO_SUCH_UNIT = 0x7f, REMOVABLE = 0x80, SPC_4 = 0x06, RESPONSE_FORMAT = 0x02 };
enum { EVPD = 0x01, SUPPORTED_PAGES = 0x00, SERIAL_NUMBER = 0x80, DEVICE_IDENTIFICATION = 0x83 };

/* A page: its head, and the bytes behind it. */
static inline void answer_page(struct exchange *x, uint8_t type, const void *bytes, size_t length, size_t allocation)
{
    uint8_t page[64] = {type, x->command[2], BYTE(length, 8), BYTE(length, 0)};
    memcpy(page + 4, bytes, length);
    answer_data(x, page, 4 + length, allocation);
}

static inline void inquire_page(struct exchange *x, uint8_t type, size_t allocation)
{
    static const uint8_t pages[] = {SUPPORTED_PAGES, SERIAL_NUMBER, DEVICE_IDENTIFICATION};
    /* One designator: of the unit, in ASCII, made of the vendor's name and what the vendor calls it. */
    enum { ASCII = 0x02, OF_UNIT_BY_VENDOR = 0x01 };
    static const char name[] = VENDOR SERIAL;
    uint8_t designator[4 + sizeof name - 1] = {ASCII, OF_UNIT_BY_VENDOR, 0, sizeof name - 1};
    switch (x->command[2]) {
    case SUPPORTED_PAGES:
        answer_page(x, type, pages, sizeof pages, allocation);
        return;
    case SERIAL_NUMBER:
        answer_page(x, type, SERIAL, sizeof SERIAL - 1, allocation);
        return;
    case DEVICE_IDENTIFICATION:
        memcpy(designator + 4, name, sizeof name - 1);
        answer_page(x, type, designator, sizeof designator, allocation);
        return;
    default:
        answer_check(x, INVALID_FIELD_IN_COMMAND, "no such page");
    }
}

/* A unit that is not there has a type that says so. */
static inline void inquire(struct exchange *x, int is_here)
{
    const uint8_t type = is_here ? SEQUENTIAL_ACCESS : NO_SUCH_UNIT;
    const uint8_t *command = x->command;
    static const char names[] = VENDOR PRODUCT REVISION;
    enum { HEAD = 8, NAMES = sizeof names - 1, BEHIND_LENGTH = HEAD + NAMES - 5 };
    uint8_t data[HEAD + NAMES] = {type, REMOVABLE, SPC_4, RESPONSE_FORMAT, BEHIND_LENGTH};
    size_t allocation = (size_t)command[3] << 8 | command[4];
    memcpy(data + HEAD, names, NAMES);
    if ((command[1] & ~EVPD) != 0 || (command[1] == 0 && command[2] != 0))
        answer_check(x, INVALID_FIELD_IN_COMMAND, "invalid field in command block");
    else if (command[1] == EVPD)
        inquire_page(x, type, allocation);
    else
        answer_data(x, data, sizeof data, allocation);
}

/* One unit, number 0; no well known ones, for which the report 01h asks. */
static inline void report_luns(struct exchange *x)
{
    enum { ALL_BUT_WELL_KNOWN = 0x00, WELL_KNOWN = 0x01, ALL = 0x02, HEAD = 8, UNIT = 8 };
    const uint8_t *command = x->command;
    uint8_t list[HEAD + UNIT] = {0, 0, 0, command[2] == WELL_KNOWN ? 0 : UNIT};
    if (command[2] > ALL)
        answer_check(x, INVALID_FIELD_IN_COMMAND, "no such report");
    else
        answer_data(x, list, HEAD + (size_t)list[3], number_at(command + 6));
}

#endif
