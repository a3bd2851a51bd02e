/* blocks.c: a host with numbered blocks: `blocks URL put FROM COUNT` appends some at end of data, with a filemark behind
 * each; `blocks URL get COUNT` reads all that stand from the beginning, and compares; `blocks URL refused` sees that
 * nothing can be written, and why. */
#include "answers.h"

enum { LARGEST = 5000 };

/* Lengths and bytes follow from the number. */
static size_t block_of(unsigned number, uint8_t *bytes)
{
    size_t length = 1 + number * 977u % LARGEST;
    for (size_t i = 0; i < length; i++)
        bytes[i] = (uint8_t)(number * 31 + i * 7 + i / 251);
    return length;
}

/* The attention of a mount is told once. */
static void be_ready(struct wire *wire)
{
    struct reply reply = ask_plainly(wire, "00 00 00 00 00 00");
    wire->subject = "TEST UNIT READY, asked again if attention waits";
    if (reply.status != SCSI_STATUS_GOOD)
        reply = ask_plainly(wire, "00 00 00 00 00 00");
    expect_good(wire, &reply);
}

static void put(struct wire *wire, unsigned from, unsigned count)
{
    uint8_t bytes[LARGEST];
    char command[32];
    wire->subject = "SPACE to end of data";
    struct reply reply = ask_plainly(wire, "11 03 00 00 00 00");
    expect_good(wire, &reply);
    for (unsigned i = from; i < from + count; i++) {
        size_t length = block_of(i, bytes);
        snprintf(command, sizeof command, "0A 00 %06X 00", (unsigned)length);
        wire->subject = "WRITE";
        reply = ask_sending(wire, command, bytes, length);
        expect_good(wire, &reply);
        wire->subject = "WRITE FILEMARKS";
        reply = ask_plainly(wire, "10 00 00 00 01 00");
        expect_good(wire, &reply);
    }
}

static void get(struct wire *wire, unsigned count)
{
    uint8_t bytes[LARGEST];
    wire->subject = "REWIND";
    struct reply reply = ask_plainly(wire, "01 00 00 00 00 00");
    expect_good(wire, &reply);
    for (unsigned i = 0; i < count; i++) {
        size_t length = block_of(i, bytes);
        wire->subject = "READ of more than the block has";
        reply = ask_receiving(wire, "08 00 00 20 00 00", 0x2000);
        expect_received(wire, &reply, 0x2000, bytes, length);
        wire->subject = "READ of a filemark";
        reply = ask_receiving(wire, "08 00 00 20 00 00", 0x2000);
        expect_sense(wire, &reply, "F0 00 80 00 00 20 00 0A 00 00 00 00 00 01 00 00 00 00");
    }
    wire->subject = "READ at end of data";
    reply = ask_receiving(wire, "08 00 00 20 00 00", 0x2000);
    expect_sense(wire, &reply, "F0 00 08 00 00 20 00 0A 00 00 00 00 00 05 00 00 00 00");
}

static void be_refused(struct wire *wire)
{
    static const char *const refused = "70 00 07 00 00 00 00 0A 00 00 00 00 27 00 00 00 00 00";
    wire->subject = "WRITE";
    struct reply reply = ask_sending_text(wire, "0A 00 00 00 03 00", "01 02 03");
    expect_sense(wire, &reply, refused);
    wire->subject = "WRITE FILEMARKS";
    reply = ask_plainly(wire, "10 00 00 00 01 00");
    expect_sense(wire, &reply, refused);
    wire->subject = "ERASE";
    reply = ask_plainly(wire, "19 00 00 00 00 00");
    expect_sense(wire, &reply, refused);
    wire->subject = "MODE SENSE, write protected";
    reply = ask_receiving(wire, "1A 08 00 00 04 00", 4);
    expect_data(wire, &reply, 4, "03 00 80 00");
}

int main(int count, char **words)
{
    static struct wire wire;
    if (count < 3)
        give_up("blocks", "URL put FROM COUNT, URL get COUNT, or URL refused");
    wire.initiator = connect_to("iqn.2026-11.example.stormtoggle:blocks", words[1]);
    be_ready(&wire);
    if (strcmp(words[2], "put") == 0 && count == 5)
        put(&wire, (unsigned)atoi(words[3]), (unsigned)atoi(words[4]));
    else if (strcmp(words[2], "get") == 0 && count == 4)
        get(&wire, (unsigned)atoi(words[3]));
    else if (strcmp(words[2], "refused") == 0)
        be_refused(&wire);
    else
        give_up(words[2], "is nothing that can be asked for");
    disconnect(&wire.initiator);
    return checks_failed > 0;
}
