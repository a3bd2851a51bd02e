/* host.h: what the hosts that load and disturb a drive say to it: the few commands that they need, over initiator.h,
 * and answers as one number to compare. */
#ifndef HOST_H
#define HOST_H

#include "codes.h"
#include "content.h"
#include "decode.h"
#ifdef PAST_THE_TRANSPORT
#include "local.h"
#else
#include "initiator.h"
#endif
#include <stdarg.h>
#include <time.h>

/* Beside the conditions of the drive itself: nothing came back, and what the transport tells while there is no daemon,
 * and of a command during which it fell. */
enum { ABORTED_COMMAND = 0xb, INQUIRY = 0x12 };
#define NOT_ANSWERED UINT32_MAX
#define NO_DAEMON ((uint32_t)CONDITION(NOT_READY, 0x0401))
#define DAEMON_FELL ((uint32_t)CONDITION(ABORTED_COMMAND, 0x0800))

/* Whether ever a command got no whole answer. */
static int has_lost_answers;

static inline uint32_t condition(const struct reply *r)
{
    if (r->status == SCSI_STATUS_GOOD)
        return GOOD;
    if (r->status == SCSI_STATUS_CHECK_CONDITION && r->sense_length >= STORMTOGGLE_SENSE_LENGTH)
        return condition_of(sense_in_fixed_form(r->sense));
    has_lost_answers = 1;
    return NOT_ANSWERED;
}

/* ---- checks, a line each */

static int failures;

static inline int verdict(int holds, const char *format, ...)
{
    va_list arguments;
    failures += !holds;
    printf(holds ? "ok: " : "FAILED: ");
    va_start(arguments, format);
    vprintf(format, arguments);
    va_end(arguments);
    printf("\n");
    fflush(stdout);
    return holds;
}

static inline double seconds_now(void)
{
    struct timespec now;
    clock_gettime(CLOCK_MONOTONIC, &now);
    return (double)now.tv_sec + (double)now.tv_nsec / 1e9;
}

/* The sum of a file's bytes: a cartridge that nothing is written to keeps it. 0 if it cannot be read. */
static inline uint64_t sum_of_file(const char *name)
{
    static uint8_t piece[LARGEST_BLOCK];
    FILE *file = fopen(name, "rb");
    uint64_t sum = 1;
    size_t length;
    if (file == NULL)
        return 0;
    while ((length = fread(piece, 1, sizeof piece, file)) > 0)
        sum = mixed(sum ^ sum_of(piece, length));
    int is_read = ferror(file) == 0;
    fclose(file);
    return is_read ? sum : 0;
}

static inline void expect_same_file(const char *name, uint64_t before)
{
    verdict(before != 0 && sum_of_file(name) == before, "not a byte of the cartridge's file has changed");
}

/* ---- commands */

static inline struct reply ask_alone(const struct initiator *to, const uint8_t *command, size_t length)
{
    return ask(to, &(struct request){.command = command, .command_length = length});
}

static inline struct reply ask_receiving(const struct initiator *to, const uint8_t *command, size_t length,
                                         uint8_t *room, size_t room_length)
{
    return ask(to, &(struct request){.command = command, .command_length = length, .room = room,
                                     .room_length = room_length});
}

static inline struct reply test_ready(const struct initiator *to)
{
    return ask_alone(to, (uint8_t[SIX]){TEST_UNIT_READY}, SIX);
}

static inline struct reply write_block(const struct initiator *to, const uint8_t *bytes, uint32_t length)
{
    const uint8_t command[SIX] = {WRITE, 0, THREE_BYTES(length), 0};
    return ask(to, &(struct request){.command = command, .command_length = SIX, .sent = bytes, .sent_length = length});
}

/* The next block, whole, whatever its length: the answer tells it. */
static inline struct reply read_block(const struct initiator *to, uint8_t *room)
{
    return ask_receiving(to, (uint8_t[SIX]){READ, SILI, THREE_BYTES(LARGEST_BLOCK), 0}, SIX, room, LARGEST_BLOCK);
}

static inline struct reply write_filemarks(const struct initiator *to, uint32_t count)
{
    return ask_alone(to, (uint8_t[SIX]){WRITE_FILEMARKS, 0, THREE_BYTES(count), 0}, SIX);
}

static inline struct reply locate(const struct initiator *to, uint8_t partition, uint32_t object)
{
    return ask_alone(to, (uint8_t[TEN]){LOCATE, CHANGE_PARTITION, 0, FOUR_BYTES(object), 0, partition, 0}, TEN);
}

/* READ POSITION's short form: where the drive stands. */
enum { SHORT_POSITION = 20, SHORT_PARTITION = 1, SHORT_OBJECT = 4 };

struct place {
    uint32_t condition, partition, object;
};

static inline struct place place_of(const struct initiator *of)
{
    uint8_t data[SHORT_POSITION];
    struct reply r = ask_receiving(of, (uint8_t[TEN]){READ_POSITION}, TEN, data, sizeof data);
    struct place place = {.condition = condition(&r)};
    if (place.condition == GOOD && r.received != sizeof data)
        place.condition = NOT_ANSWERED;
    if (place.condition == GOOD) {
        place.partition = data[SHORT_PARTITION];
        place.object = number_at(data + SHORT_OBJECT);
    }
    return place;
}

#endif
