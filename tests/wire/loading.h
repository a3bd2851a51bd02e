/* loading.h: attention, removal, loading, and the translations for stock programs, over the wire. Part of raw.c. */
#ifndef LOADING_H
#define LOADING_H

#include "identity.h"
#include "parameters.h"

#define TEST_UNIT_READY "00 00 00 00 00 00"
#define LOAD "1B 00 00 00 01 00"
#define UNLOAD "1B 00 00 00 00 00"

/* ---- attention */

/* These pass it by. A REQUEST SENSE that is in error does not tell it, and so does not clear it. */
static inline void pass_attention(struct wire *wire)
{
    static const struct step bad_request = {.subject = "the attention waits: REQUEST SENSE with byte 2 set",
                                            .command = "03 00 01 00 12 00", .room = 18, .sense = FIELD,
                                            .received = ""};
    wire->subject = "the attention waits: INQUIRY";
    struct reply reply = ask_receiving(wire, "12 00 00 00 24 00", 36);
    expect_good(wire, &reply);
    expect_number(wire, "the peripheral type", wire->room[0], 0x01);
    wire->subject = "the attention waits: REPORT LUNS";
    reply = ask_receiving(wire, "A0 00 00 00 00 00 00000010 00 00", 16);
    expect_good(wire, &reply);
    try_step(wire, &bad_request);
}

/* A mount's attention, met by the first command that is not let by, whatever else is wrong with that one; then it is
 * gone. Each tells it in another way. */
static const struct step met_by_ready[] = {
    {"the attention: TEST UNIT READY meets it", AS_IT_STANDS, 0, 0, TEST_UNIT_READY, NULL, 0, CHANGED, NULL, NULL},
    {"the attention: TEST UNIT READY meets it once", AS_IT_STANDS, 0, 0, TEST_UNIT_READY, NULL, 0, NULL, NULL,
     AT_THE_BEGINNING},
};
static const struct step met_by_code[] = {
    {"the attention comes before the operation code: FFh meets it", AS_IT_STANDS, 0, 0, "FF FF FF FF FF FF", NULL, 0,
     CHANGED, NULL, NULL},
    {"the attention is kept as sense: REQUEST SENSE", AS_IT_STANDS, 0, 0, ASK_SENSE, NULL, 18, NULL, CHANGED, NULL},
    {"the attention is told: REQUEST SENSE again", AS_IT_STANDS, 0, 0, ASK_SENSE, NULL, 18, NULL, EMPTY_SENSE, NULL},
    {"the attention is met once: operation code FFh", AS_IT_STANDS, 0, 0, "FF FF FF FF FF FF", NULL, 0, NOT_SERVED,
     NULL, AT_THE_BEGINNING},
};
static const struct step met_by_field[] = {
    {"the attention comes before the fields: SPACE code 15 meets it", AS_IT_STANDS, 0, 0, "11 0F 000001 00", NULL, 0,
     CHANGED, NULL, NULL},
    {"the attention is met once: SPACE code 15", AS_IT_STANDS, 0, 0, "11 0F 000001 00", NULL, 0, FIELD, NULL,
     AT_THE_BEGINNING},
};
static const struct step met_by_page[] = {
    {"the attention comes before a page that the daemon answers: MODE SENSE page 11h", AS_IT_STANDS, 0, 0,
     "1A 08 11 00 FF 00", NULL, 255, CHANGED, "", NULL},
    {"the attention is met once: MODE SENSE page 11h with a subpage", AS_IT_STANDS, 0, 0, "1A 08 11 01 FF 00", NULL,
     255, FIELD, "", AT_THE_BEGINNING},
};
static const struct step met_by_position[] = {
    {"the attention comes before a translation: READ POSITION, form 01h", AS_IT_STANDS, 0, 0,
     "34 01 00 00 00 00 00 00 00 00", NULL, 20, CHANGED, "", NULL},
    {"the attention is met once: READ POSITION, form 01h", AS_IT_STANDS, 0, 0, "34 01 00 00 00 00 00 00 00 00", NULL,
     20, NULL, AT_THE_BEGINNING, AT_THE_BEGINNING},
};
static const struct step met_by_prevent[] = {
    {"the attention comes before PREVENT ALLOW", AS_IT_STANDS, 0, 0, "1E 00 00 00 00 00", NULL, 0, CHANGED, NULL,
     NULL},
    {"the attention is met once: PREVENT ALLOW", AS_IT_STANDS, 0, 0, "1E 00 00 00 00 00", NULL, 0, NULL, NULL,
     AT_THE_BEGINNING},
};
static const struct step told_by_sense[] = {
    {"the attention is told by REQUEST SENSE", AS_IT_STANDS, 0, 0, ASK_SENSE, NULL, 18, NULL, CHANGED, NULL},
    {"the attention is told, so it is gone: TEST UNIT READY", AS_IT_STANDS, 0, 0, TEST_UNIT_READY, NULL, 0, NULL, NULL,
     AT_THE_BEGINNING},
};
static const struct step told_in_descriptors[] = {
    {"the attention is told in descriptors", AS_IT_STANDS, 0, 0, ASK_DESCRIPTORS, NULL, 252, NULL,
     "72 06 2800 000000 04 04 02 00 00", NULL},
    {"the attention is told, so it is gone: REQUEST SENSE", AS_IT_STANDS, 0, 0, ASK_SENSE, NULL, 18, NULL, EMPTY_SENSE,
     AT_THE_BEGINNING},
};

/* What a mount of a blank cartridge leaves, before anything is selected or written. */
static const struct step as_mounted[] = {
    {"as mounted: MODE SENSE tells 32,768", AS_IT_STANDS, 0, 0, ASK_MODES, NULL, 12, NULL, MODES_ARE("008000"),
     AT_THE_BEGINNING},
    {"as mounted: READ 5 on the blank", AS_IT_STANDS, 0, 0, READ_FIVE, NULL, 5, SENSE("F0", "08", "00000005", "0005"),
     "", AT_THE_BEGINNING},
};

/* ---- removal */

static const struct step removing[] = {
    {"LOAD at 2 of E, which is loaded", EXAMPLE_E, 3, 2, LOAD, NULL, 0, NULL, NULL, AT_THE_BEGINNING},
    {"PREVENT", AS_IT_STANDS, 0, 0, "1E 00 00 00 01 00", NULL, 0, NULL, NULL, NULL},
    {"unload while it is prevented", AS_IT_STANDS, 0, 0, UNLOAD, NULL, 0, REMOVAL_PREVENTED, NULL, AT_THE_BEGINNING},
    {"unload with a reserved bit while it is prevented", AS_IT_STANDS, 0, 0, "1B 00 01 00 00 00", NULL, 0, FIELD, NULL,
     AT_THE_BEGINNING},
    {"PREVENT with a reserved bit", AS_IT_STANDS, 0, 0, "1E 00 01 00 00 00", NULL, 0, FIELD, NULL, NULL},
    {"unload while it is still prevented", AS_IT_STANDS, 0, 0, "1B 01 00 00 00 00", NULL, 0, REMOVAL_PREVENTED, NULL,
     AT_THE_BEGINNING},
    {"LOAD while removal is prevented", AS_IT_STANDS, 0, 0, LOAD, NULL, 0, NULL, NULL, AT_THE_BEGINNING},
    {"ALLOW", AS_IT_STANDS, 0, 0, "1E 00 00 00 00 00", NULL, 0, NULL, NULL, NULL},
    {"unload with IMMED", AS_IT_STANDS, 0, 0, "1B 01 00 00 00 00", NULL, 0, NULL, NULL, NULL},
};

/* Fields are tested before the cartridge. 03h, 05h, 15h and 1Ah need none, and INQUIRY is the daemon's. */
static const struct step unloaded[] = {
    {"unloaded: TEST UNIT READY", AS_IT_STANDS, 0, 0, TEST_UNIT_READY, NULL, 0, NOT_LOADED, NULL, NULL},
    {"unloaded: REQUEST SENSE", AS_IT_STANDS, 0, 0, ASK_SENSE, NULL, 18, NULL, NOT_LOADED, NULL},
    {"unloaded: READ POSITION", AS_IT_STANDS, 0, 0, "34 00 00 00 00 00 00 00 00 00", NULL, 20, NOT_LOADED, "", NULL},
    {"unloaded: READ 5", AS_IT_STANDS, 0, 0, READ_FIVE, NULL, 5, NOT_LOADED, "", NULL},
    {"unloaded: WRITE 3", AS_IT_STANDS, 0, 0, "0A 00 000003 00", "010203", 0, NOT_LOADED, NULL, NULL},
    {"unloaded: WRITE 3 with nothing sent", AS_IT_STANDS, 0, 0, "0A 00 000003 00", NULL, 0, NOT_LOADED, NULL, NULL},
    {"unloaded: LOCATE with CP, partition 9", AS_IT_STANDS, 0, 0, "2B 02 00 00000000 00 09 00", NULL, 0, NOT_LOADED,
     NULL, NULL},
    {"unloaded: READ with FIXED and SILI", AS_IT_STANDS, 0, 0, "08 03 000001 00", NULL, 3, FIELD, "", NULL},
    {"unloaded: LOCATE (16) destination 2", AS_IT_STANDS, 0, 0, "92 10 00 00 0000000000000000 000000 00", NULL, 0,
     FIELD, NULL, NULL},
    {"unloaded: operation code FFh", AS_IT_STANDS, 0, 0, "FF 00 00 00 00 00", NULL, 0, NOT_SERVED, NULL, NULL},
    {"unloaded: unload", AS_IT_STANDS, 0, 0, UNLOAD, NULL, 0, NOT_LOADED, NULL, NULL},
    {"unloaded: LOAD with a reserved bit", AS_IT_STANDS, 0, 0, "1B 00 00 01 01 00", NULL, 0, FIELD, NULL, NULL},
    {"unloaded: READ BLOCK LIMITS", AS_IT_STANDS, 0, 0, "05 00 00 00 00 00", NULL, 6, NULL, "00 10 00 00 00 01", NULL},
    {"unloaded: MODE SENSE, the block length stays", AS_IT_STANDS, 0, 0, ASK_MODES, NULL, 12, NULL,
     MODES_ARE("000003"), NULL},
    {"unloaded: MODE SELECT block length 5", AS_IT_STANDS, 0, 0, SELECT_TWELVE, "00 00 00 08 00000000 00 000005", 0,
     NULL, NULL, NULL},
    {"unloaded: MODE SENSE tells 5", AS_IT_STANDS, 0, 0, ASK_MODES, NULL, 12, NULL, MODES_ARE("000005"), NULL},
};

static inline void unload(struct wire *wire)
{
    try_steps(wire, removing, COUNT(removing));
    try_steps(wire, unloaded, COUNT(unloaded));
    wire->subject = "unloaded: INQUIRY";
    struct reply reply = ask_receiving(wire, "12 00 00 00 24 00", 36);
    expect_good(wire, &reply);
    expect_number(wire, "the peripheral type", wire->room[0], 0x01);
}

/* ---- as the library has it, and as stock programs want it */

/* By document 01 these are field errors, nothing is put or moved, and what is unloaded stays so. */
static const struct step exact_translations[] = {
    {"exact: READ POSITION, form 01h", EXAMPLE_E, MOUNTED, 1, "34 01 00 00 00 00 00 00 00 00", NULL, 20, FIELD, "",
     AT("00", "00000001")},
    {"exact: LOCATE with BT", AS_IT_STANDS, 0, 0, "2B 04 00 00000002 00 00 00", NULL, 0, FIELD, NULL,
     AT("00", "00000001")},
    {"exact: MODE SENSE page 11h with DBD", AS_IT_STANDS, 0, 0, "1A 08 11 00 FF 00", NULL, 255, FIELD, "", NULL},
    {"exact: MODE SENSE page 11h", AS_IT_STANDS, 0, 0, "1A 00 11 00 FF 00", NULL, 255, FIELD, "", NULL},
    {"exact: LOAD with RETEN", AS_IT_STANDS, 0, 0, "1B 00 00 00 03 00", NULL, 0, FIELD, NULL, AT("00", "00000001")},
    {"exact: WRITE FILEMARKS with IMMED", AS_IT_STANDS, 0, 0, "10 01 000001 00", NULL, 0, FIELD, NULL,
     AT("00", "00000001")},
    {"exact: nothing was put: SPACE to end of data", AS_IT_STANDS, 0, 0, "11 03 000000 00", NULL, 0, NULL, NULL,
     AT("00", "00000002")},
};
static const struct step exact_load[] = {
    {"exact: LOAD while unloaded", AS_IT_STANDS, 0, 0, LOAD, NULL, 0, NOT_LOADED, NULL, NULL},
    {"exact: still unloaded: TEST UNIT READY", AS_IT_STANDS, 0, 0, TEST_UNIT_READY, NULL, 0, NOT_LOADED, NULL, NULL},
};

static const struct step stock_translations[] = {
    {"stock: READ POSITION, form 01h", EXAMPLE_E, MOUNTED, 1, "34 01 00 00 00 00 00 00 00 00", NULL, 20, NULL,
     AT("00", "00000001"), AT("00", "00000001")},
    {"stock: LOCATE with BT", AS_IT_STANDS, 0, 0, "2B 04 00 00000002 00 00 00", NULL, 0, NULL, NULL,
     AT("00", "00000002")},
    {"stock: LOCATE with BT past the end", AS_IT_STANDS, 0, 0, "2B 04 00 00000003 00 00 00", NULL, 0,
     SENSE("70", "08", NO_INFORMATION, "0005"), NULL, AT("00", "00000002")},
    {"stock: LOAD with RETEN", AS_IT_STANDS, 0, 0, "1B 00 00 00 03 00", NULL, 0, NULL, NULL, AT_THE_BEGINNING},
    {"stock: READ POSITION, form 01h, with a control byte", AS_IT_STANDS, 0, 0, "34 01 00 00 00 00 00 00 00 01", NULL,
     20, FIELD, "", NULL},
    {"stock: LOCATE with BT and a reserved bit", AS_IT_STANDS, 0, 0, "2B 0C 00 00000002 00 00 00", NULL, 0, FIELD,
     NULL, AT_THE_BEGINNING},
    {"stock: MODE SENSE page 11h with a subpage", AS_IT_STANDS, 0, 0, "1A 08 11 01 FF 00", NULL, 255, FIELD, "", NULL},
    {"stock: MODE SENSE page 11h of saved values", AS_IT_STANDS, 0, 0, "1A 08 D1 00 FF 00", NULL, 255, FIELD, "",
     NULL},
    {"stock: WRITE FILEMARKS 2 with IMMED", EXAMPLE_E, MOUNTED, 1, "10 01 000002 00", NULL, 0, NULL, NULL,
     AT("00", "00000003")},
    {"stock: a filemark was put: SPACE filemarks -1", AS_IT_STANDS, 0, 0, "11 01 FFFFFF 00", NULL, 0, NULL, NULL,
     AT("00", "00000002")},
};

/* The page comes behind the header, and behind the block descriptor if there is one. */
static inline void expect_partition_page(struct wire *wire, const char *subject, const char *command,
                                         size_t descriptor_length)
{
    size_t start = 4 + descriptor_length;
    wire->subject = subject;
    struct reply reply = ask_receiving(wire, command, ALLOCATION);
    expect_good(wire, &reply);
    expect_at_least(wire, "its length", reply.received, start + 8);
    expect_number(wire, "the length by the mode data length", wire->room[0] + 1u, reply.received);
    expect_number(wire, "the medium type", wire->room[1], 0);
    expect_number(wire, "the device-specific parameter", wire->room[2], 0);
    expect_number(wire, "the block descriptor length", wire->room[3], descriptor_length);
    expect_number(wire, "the page code", wire->room[start] & 0x3f, 0x11);
    expect_number(wire, "the length by the page length", start + 2 + wire->room[start + 1], reply.received);
    expect_number(wire, "the number of additional partitions", wire->room[start + 3], 0);
}

static inline void expect_partition_pages(struct wire *wire)
{
    uint8_t whole[6];
    expect_partition_page(wire, "stock: MODE SENSE page 11h", "1A 00 11 00 FF 00", 8);
    expect_partition_page(wire, "stock: MODE SENSE page 11h with DBD", "1A 08 11 00 FF 00", 0);
    memcpy(whole, wire->room, sizeof whole);
    wire->subject = "stock: MODE SENSE page 11h with DBD, cut at 6";
    struct reply reply = ask_receiving(wire, "1A 08 11 00 06 00", sizeof whole);
    expect_good(wire, &reply);
    expect_received(wire, &reply, sizeof whole, whole, sizeof whole);
}

/* Mounted again: the attention waits, everything is still there, and the block length is a mount's. */
static inline void load_again(struct wire *wire, const struct step *attention, size_t count)
{
    static const struct step reload[] = {
        {"stock: LOAD while unloaded", AS_IT_STANDS, 0, 0, LOAD, NULL, 0, NULL, NULL, NULL},
    };
    static const struct step still_there[] = {
        {"loaded again: MODE SENSE tells 32,768", AS_IT_STANDS, 0, 0, ASK_MODES, NULL, 12, NULL, MODES_ARE("008000"),
         NULL},
        {"loaded again: READ 3", AS_IT_STANDS, 0, 0, "08 00 000003 00", NULL, 3, NULL, "010203", AT("00", "00000001")},
        {"loaded again: the filemark", AS_IT_STANDS, 0, 0, READ_FIVE, NULL, 5, SENSE("F0", "80", "00000005", "0001"),
         "", AT("00", "00000002")},
        {"loaded again: end of data", AS_IT_STANDS, 0, 0, READ_FIVE, NULL, 5, SENSE("F0", "08", "00000005", "0005"),
         "", AT("00", "00000002")},
    };
    try_steps(wire, reload, COUNT(reload));
    try_steps(wire, attention, count);
    try_steps(wire, still_there, COUNT(still_there));
}

static inline void unload_and_load_again(struct wire *wire, const struct step *attention, size_t count)
{
    static const struct step plain_unload = {.subject = "stock: unload", .command = UNLOAD};
    try_step(wire, &plain_unload);
    load_again(wire, attention, count);
}

#endif
