/* worked.c: worked command blocks: what a daemon hands to stormtoggle_command and what it gets back, to the byte, on a
 * cartridge of 64 bytes. docs/DAEMON.md has what this prints, and tests/daemon/worked.sh holds the two together. */
#include "codes.h"
#include "decode.h"
#include <string.h>

enum { LENGTH = 64, WIDTH = 34 };

static uint8_t record[STORMTOGGLE_RECORD_LENGTH], image[LENGTH];

static void print_bytes(const char *what, const uint8_t *bytes, size_t length)
{
    printf("%s", what);
    for (size_t i = 0; i < length; i++)
        printf(" %02X", bytes[i]);
    printf("\n");
}

/* Where the drive then is. */
static void print_place(void)
{
    if (record[STORMTOGGLE_RECORD_LOADED])
        printf("; at %u:%u\n", record[STORMTOGGLE_RECORD_CURRENT],
               (unsigned)number_at(record + STORMTOGGLE_RECORD_POSITION));
    else
        printf("; unloaded\n");
}

/* One call: what it is, the command block, the bytes sent, the room to receive. */
struct call {
    const char *words;
    uint8_t command[SIXTEEN];
    size_t command_length;
    uint8_t sent[64];
    size_t sent_length, room;
};

static void carry_out(const struct call *c)
{
    uint8_t received[64] = {0};
    printf("%-*s", WIDTH, c->words);
    print_bytes("", c->command, c->command_length);
    if (c->sent_length > 0)
        print_bytes("    sent    ", c->sent, c->sent_length);
    uint64_t answer = stormtoggle_command(record, sizeof record, c->command, c->command_length, image, LENGTH, NULL, 0,
                                          c->sent, c->sent_length, received, c->room);
    if (c->room > 0 && STORMTOGGLE_CARRIED(answer) > 0)
        print_bytes("    received", received, STORMTOGGLE_CARRIED(answer));
    if (STORMTOGGLE_STATUS(answer) != STORMTOGGLE_GOOD)
        print_bytes("    sense   ", record + STORMTOGGLE_RECORD_SENSE, STORMTOGGLE_SENSE_LENGTH);
    printf("    answer %016llXh: ", (unsigned long long)answer);
    print_answer(stdout, answer, record);
    print_place();
}

static void carry_out_all(const struct call *calls, size_t count)
{
    for (size_t i = 0; i < count; i++)
        carry_out(&calls[i]);
}

/* Words, the command block, its length; then the bytes sent, how many; or the room. */
static const struct call first[] = {
    {"TEST UNIT READY", {0x00}, SIX, {0}, 0, 0},
    {"TEST UNIT READY", {0x00}, SIX, {0}, 0, 0},
    {"READ BLOCK LIMITS", {0x05}, SIX, {0}, 0, 6},
    {"MODE SENSE", {0x1a, 0, 0, 0, 12}, SIX, {0}, 0, 12},
    {"WRITE 3 bytes", {0x0a, 0, 0, 0, 3}, SIX, {1, 2, 3}, 3, 0},
    {"WRITE FILEMARKS 1", {0x10, 0, 0, 0, 1}, SIX, {0}, 0, 0},
};

static const struct call then[] = {
    {"READ POSITION", {0x34}, TEN, {0}, 0, 20},
    {"READ POSITION, long form", {0x34, 6}, TEN, {0}, 0, 32},
    {"SPACE blocks -5", {0x11, 0, 0xff, 0xff, 0xfb}, SIX, {0}, 0, 0},
    {"REQUEST SENSE", {0x03, 0, 0, 0, 18}, SIX, {0}, 0, 18},
    {"SPACE blocks -5", {0x11, 0, 0xff, 0xff, 0xfb}, SIX, {0}, 0, 0},
    {"REQUEST SENSE, descriptor form", {0x03, 1, 0, 0, 24}, SIX, {0}, 0, 24},
    {"READ 5 bytes", {0x08, 0, 0, 0, 5}, SIX, {0}, 0, 5},
    {"READ 5 bytes", {0x08, 0, 0, 0, 5}, SIX, {0}, 0, 5},
    {"READ 5 bytes", {0x08, 0, 0, 0, 5}, SIX, {0}, 0, 5},
    {"SPACE filemarks -1", {0x11, 1, 0xff, 0xff, 0xff}, SIX, {0}, 0, 0},
    {"SPACE filemarks 8,388,607", {0x11, 1, 0x7f, 0xff, 0xff}, SIX, {0}, 0, 0},
    {"LOCATE object 1", {0x2b, 0, 0, 0, 0, 0, 1}, TEN, {0}, 0, 0},
    {"LOCATE object 3", {0x2b, 0, 0, 0, 0, 0, 3}, TEN, {0}, 0, 0},
    {"LOCATE (16) file 1", {0x92, 0x08, 0, 0, 0, 0, 0, 0, 0, 0, 0, 1}, SIXTEEN, {0}, 0, 0},
    {"SPACE (16) blocks -1", {0x91, 0, 0, 0, 255, 255, 255, 255, 255, 255, 255, 255}, SIXTEEN, {0}, 0, 0},
    {"REWIND", {0x01}, SIX, {0}, 0, 0},
    {"MODE SELECT block length 3", {0x15, 0x10, 0, 0, 12}, SIX, {0, 0, 0, 8, 0, 0, 0, 0, 0, 0, 0, 3}, 12, 0},
    {"READ FIXED 2 blocks", {0x08, 1, 0, 0, 2}, SIX, {0}, 0, 6},
    {"WRITE FIXED 2 blocks", {0x0a, 1, 0, 0, 2}, SIX, {4, 5, 6, 7, 8, 9}, 6, 0},
    {"WRITE FILEMARKS 7", {0x10, 0, 0, 0, 7}, SIX, {0}, 0, 0},
    {"ERASE", {0x19}, SIX, {0}, 0, 0},
    {"LOCATE object 1", {0x2b, 0, 0, 0, 0, 0, 1}, TEN, {0}, 0, 0},
    {"ERASE, LONG", {0x19, 1}, SIX, {0}, 0, 0},
    {"WRITE 3 bytes, 2 sent", {0x0a, 0, 0, 0, 3}, SIX, {1, 2}, 2, 0},
    {"READ 5 bytes, room for 4", {0x08, 0, 0, 0, 5}, SIX, {0}, 0, 4},
    {"READ, cut short", {0x08, 0, 0}, 3, {0}, 0, 5},
    {"INQUIRY", {0x12, 0, 0, 0, 36}, SIX, {0}, 0, 36},
    {"unload", {0x1b}, SIX, {0}, 0, 0},
    {"TEST UNIT READY", {0x00}, SIX, {0}, 0, 0},
};

static void house(const char *words, uint64_t answer)
{
    printf("%s\n    answer %016llXh: ", words, (unsigned long long)answer);
    print_done(stdout, answer);
    print_place();
}

static void print_image(void)
{
    printf("the image\n");
    for (size_t at = 0; at < LENGTH; at += 16) {
        printf("    %2zu      ", at);
        print_bytes("", image + at, 16);
    }
}

static void view(uint64_t object)
{
    uint64_t found = stormtoggle_view(image, LENGTH, NULL, 0, 0, object);
    printf("view partition 0, object %u\n    view %016llXh: %u bytes from byte %u on\n", (unsigned)object,
           (unsigned long long)found, (unsigned)STORMTOGGLE_VIEW_LENGTH(found),
           (unsigned)STORMTOGGLE_VIEW_START(found));
}

int main(void)
{
    house("fresh", stormtoggle_fresh(record, sizeof record));
    house("blank, 64 bytes", stormtoggle_blank(image, LENGTH));
    house("mount, one partition", stormtoggle_mount(record, sizeof record, image, LENGTH, NULL, 0));
    print_bytes("    record  ", record, sizeof record);
    carry_out_all(first, sizeof first / sizeof *first);
    print_image();
    view(0);
    view(1);
    carry_out_all(then, sizeof then / sizeof *then);
    return 0;
}
