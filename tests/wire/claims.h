/* claims.h: command blocks that claim other lengths than the wire carries, and what then comes: 5/24/00 where the
 * library refuses by number 2 or 3, and nothing is written or moved. Part of raw.c. */
#ifndef CLAIMS_H
#define CLAIMS_H

#include "edges.h"

static const struct step claims[] = {
    {"WRITE 10 with 3 bytes sent", BLANK, MOUNTED, 0, "0A 00 00000A 00", "010203", 0, FIELD, NULL, AT_THE_BEGINNING},
    {"WRITE 3 with nothing sent", AS_IT_STANDS, 0, 0, "0A 00 000003 00", NULL, 0, FIELD, NULL, AT_THE_BEGINNING},
    {"WRITE 3 with room and nothing sent", AS_IT_STANDS, 0, 0, "0A 00 000003 00", NULL, 3, FIELD, "",
     AT_THE_BEGINNING},
    {"FIXED WRITE 2 with one block sent", BLANK, 10, 0, "0A 01 000002 00", TEN("1"), 0, FIELD, NULL, AT_THE_BEGINNING},
    {"MODE SELECT 12 with 4 bytes sent", AS_IT_STANDS, 0, 0, "15 10 00 00 0C 00", "00 00 00 08", 0, FIELD, NULL, NULL},
    {"nothing was written: READ 5", AS_IT_STANDS, 0, 0, READ_FIVE, NULL, 5, SENSE("F0", "08", "00000005", "0005"), "",
     AT_THE_BEGINNING},
    {"READ 5 with room for 3", EXAMPLE_E, MOUNTED, 0, READ_FIVE, NULL, 3, FIELD, "", AT_THE_BEGINNING},
    {"READ 5 with no room", AS_IT_STANDS, 0, 0, READ_FIVE, NULL, 0, FIELD, NULL, AT_THE_BEGINNING},
    {"READ 3 with data sent", AS_IT_STANDS, 0, 0, "08 00 000003 00", "010203", 0, FIELD, NULL, AT_THE_BEGINNING},
    {"FIXED READ 2 with room for one block less a byte", AS_IT_STANDS, 0, 0, "08 01 000002 00", NULL, 65535, FIELD, "",
     AT_THE_BEGINNING},
    {"READ 5 at end of data with room for 4", EXAMPLE_E, MOUNTED, 2, READ_FIVE, NULL, 4, FIELD, "",
     AT("00", "00000002")},
    {"READ 16,777,215 with room for 100", EXAMPLE_E, MOUNTED, 0, "08 00 FFFFFF 00", NULL, 100, FIELD, "",
     AT_THE_BEGINNING},
    {"FIXED READ of FFFFFFh blocks of 1,048,576 with room for 100", EXAMPLE_E, 1048576, 0, "08 01 FFFFFF 00", NULL,
     100, FIELD, "", AT_THE_BEGINNING},
    {"FIXED READ of 001000h blocks of 1,048,576, 2^32 bytes, with no room", AS_IT_STANDS, 0, 0, "08 01 001000 00",
     NULL, 0, FIELD, NULL, AT_THE_BEGINNING},
    {"FIXED WRITE of FFFFFFh blocks of 1,048,576 with 40 bytes sent", AS_IT_STANDS, 0, 0, "0A 01 FFFFFF 00", FORTY, 0,
     FIELD, NULL, AT_THE_BEGINNING},
    {"FIXED WRITE of 001000h blocks of 1,048,576, 2^32 bytes, with nothing sent", AS_IT_STANDS, 0, 0,
     "0A 01 001000 00", NULL, 0, FIELD, NULL, AT_THE_BEGINNING},
    {"E stands as it did: READ 3", AS_IT_STANDS, 0, 0, "08 00 000003 00", NULL, 3, NULL, "010203",
     AT("00", "00000001")},
    {"READ BLOCK LIMITS with room for 5", AS_IT_STANDS, 0, 0, "05 00 00 00 00 00", NULL, 5, FIELD, "", NULL},
    {"READ POSITION, form 00h, with room for 19", AS_IT_STANDS, 0, 0, "34 00 00 00 00 00 00 00 00 00", NULL, 19, FIELD,
     "", NULL},
    {"READ POSITION, form 06h, with room for 31", AS_IT_STANDS, 0, 0, "34 06 00 00 00 00 00 00 00 00", NULL, 31, FIELD,
     "", NULL},
    {"MODE SENSE, allocation 12, with room for 4", AS_IT_STANDS, 0, 0, "1A 00 00 00 0C 00", NULL, 4, FIELD, "", NULL},
    {"MODE SENSE, allocation 255, with room for 12", AS_IT_STANDS, 0, 0, "1A 00 00 00 FF 00", NULL, 12, NULL,
     "0B 00 00 08 0000000000 100000", NULL},
    {"MODE SENSE, allocation 4, with room for 255", AS_IT_STANDS, 0, 0, "1A 00 00 00 04 00", NULL, 255, NULL,
     "0B 00 00 08", NULL},
    {"REQUEST SENSE, allocation 18, with room for 17", AS_IT_STANDS, 0, 0, "03 00 00 00 12 00", NULL, 17, FIELD, "",
     NULL},
    {"REQUEST SENSE, allocation 252, with room for 18", AS_IT_STANDS, 0, 0, "03 00 00 00 FC 00", NULL, 18, NULL,
     EMPTY_SENSE, NULL},
    {"READ BLOCK LIMITS with room for 100", AS_IT_STANDS, 0, 0, "05 00 00 00 00 00", NULL, 100, NULL,
     "00 10 00 00 00 01", NULL},
    {"operation code FFh with room for 100", AS_IT_STANDS, 0, 0, "FF 00 00 00 00 00", NULL, 100, NOT_SERVED, "", NULL},
    {"operation code FFh with 10 bytes sent", AS_IT_STANDS, 0, 0, "FF 00 00 00 00 00", TEN("1"), 0, NOT_SERVED, NULL,
     NULL},
    {"TEST UNIT READY with 10 bytes sent", AS_IT_STANDS, 0, 0, "00 00 00 00 00 00", TEN("1"), 0, NULL, NULL, NULL},
    {"TEST UNIT READY with room for 100", AS_IT_STANDS, 0, 0, "00 00 00 00 00 00", NULL, 100, NULL, "", NULL},
};

/* More is sent than the command takes: the rest is not put, and told as a residual. */
static inline void try_more_sent(struct wire *wire)
{
    static const struct step read_back = {.subject = "what WRITE 3 put of 10 bytes sent: READ 5 at 0",
                                          .command = READ_FIVE, .room = 5,
                                          .sense = SENSE("F0", "20", "00000002", "0000"), .received = "101112",
                                          .position = AT("00", "00000001")};
    wire->subject = "WRITE 3 with 10 bytes sent";
    make_tape(wire, BLANK, MOUNTED, 0);
    struct reply reply = ask_sending_text(wire, "0A 00 000003 00", TEN("1"));
    expect_good(wire, &reply);
    expect_number(wire, "whether the residual is an underflow of 7", (uint64_t)is_underflow(&reply, 7), 1);
    expect_position(wire, AT("00", "00000001"));
    locate(wire, 0);
    try_step(wire, &read_back);
}

/* The largest block does not fit here, so all of it is carried over the wire and none is put. */
static inline void try_largest_block(struct wire *wire)
{
    static uint8_t block[LARGEST_ROOM];
    wire->subject = "WRITE 1,048,576 on the blank";
    make_tape(wire, BLANK, MOUNTED, 0);
    struct reply reply = ask_sending(wire, "0A 00 100000 00", block, sizeof block);
    expect_sense(wire, &reply, SENSE("F0", "4D", "00100000", "0002"));
    expect_position(wire, AT_THE_BEGINNING);
    wire->subject = "READ 1,048,576 of E at 0";
    make_tape(wire, EXAMPLE_E, MOUNTED, 0);
    reply = ask_receiving(wire, "08 00 100000 00", LARGEST_ROOM);
    expect_sense(wire, &reply, SENSE("F0", "20", "000FFFFD", "0000"));
    expect_data(wire, &reply, LARGEST_ROOM, "010203");
    expect_position(wire, AT("00", "00000001"));
}

static inline void try_claims(struct wire *wire)
{
    try_steps(wire, claims, COUNT(claims));
    try_more_sent(wire);
    try_largest_block(wire);
}

#endif
