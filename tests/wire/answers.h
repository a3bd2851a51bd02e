/* answers.h: what a drive must answer on the wire, as counted checks. Bytes are written in hexadecimal, as documents 01
 * and 02 write them. */
#ifndef ANSWERS_H
#define ANSWERS_H

#include "decode.h"
#include "initiator.h"
#include <stdarg.h>

enum { LONGEST_TEXT = 256, LARGEST_ROOM = 1048576 };

/* Bytes read from text such as "08 00 000005 00": two digits a byte, spaces anywhere. */
struct bytes {
    size_t length;
    uint8_t at[LONGEST_TEXT];
};

/* A drive on the wire, with room for what it sends, and what is being asked of it, in words. */
struct wire {
    struct initiator initiator;
    uint8_t room[LARGEST_ROOM];
    const char *subject;
};

static unsigned long checks_passed, checks_failed;

/* ---- bytes */

static inline int digit_of(char digit)
{
    const char *digits = "0123456789ABCDEF", *found = strchr(digits, digit);
    if (digit == '\0' || found == NULL)
        give_up("bytes in hexadecimal", "neither a digit nor a space");
    return (int)(found - digits);
}

static inline struct bytes bytes_of(const char *text)
{
    struct bytes bytes = {0};
    size_t digits = 0;
    for (; *text != '\0'; text++) {
        if (*text == ' ')
            continue;
        if (digits / 2 >= LONGEST_TEXT)
            give_up("bytes in hexadecimal", "too many");
        bytes.at[digits / 2] = (uint8_t)(bytes.at[digits / 2] << 4 | digit_of(*text));
        digits++;
    }
    if (digits % 2 != 0)
        give_up("bytes in hexadecimal", "half a byte");
    bytes.length = digits / 2;
    return bytes;
}

static inline void print_bytes(const uint8_t *bytes, size_t length)
{
    enum { SHOWN = 40 };
    for (size_t i = 0; i < length && i < SHOWN; i++)
        printf("%s%02X", i == 0 ? "" : " ", bytes[i]);
    printf("%s", length > SHOWN ? " ..." : length == 0 ? "nothing" : "");
}

/* ---- asking */

/* A connection that is gone answers nothing any more: what is left to check is not checked, and that fails. */
static inline struct reply ask_or_end(struct wire *wire, const struct request *request)
{
    struct reply reply = ask(&wire->initiator, request);
    if (reply.status != NO_ANSWER)
        return reply;
    printf("FAILED: %s: no answer within %d seconds, or the connection is lost\n", wire->subject, SECONDS_TO_WAIT);
    printf("%lu passed, %lu failed, and the rest was not tried\n", checks_passed, checks_failed + 1);
    exit(EXIT_FAILURE);
}

static inline struct reply ask_sending(struct wire *wire, const char *command, const uint8_t *sent, size_t length)
{
    struct bytes block = bytes_of(command);
    return ask_or_end(wire, &(struct request){.command = block.at, .command_length = block.length, .sent = sent,
                                              .sent_length = length});
}

static inline struct reply ask_receiving(struct wire *wire, const char *command, size_t room)
{
    struct bytes block = bytes_of(command);
    return ask_or_end(wire, &(struct request){.command = block.at, .command_length = block.length,
                                              .room = wire->room, .room_length = room});
}

static inline struct reply ask_plainly(struct wire *wire, const char *command)
{
    return ask_receiving(wire, command, 0);
}

static inline struct reply ask_sending_text(struct wire *wire, const char *command, const char *sent)
{
    struct bytes data = bytes_of(sent);
    return ask_sending(wire, command, data.at, data.length);
}

/* ---- answers */

static inline void print_reply(const struct reply *reply)
{
    if (reply->status == SCSI_STATUS_GOOD)
        printf("GOOD");
    else if (reply->status != SCSI_STATUS_CHECK_CONDITION)
        printf("status %02Xh", (unsigned)reply->status);
    else if (reply->sense_length < STORMTOGGLE_SENSE_LENGTH)
        printf("CHECK CONDITION with %zu bytes of sense", reply->sense_length);
    else
        print_sense(stdout, sense_of(reply->sense, reply->sense_length));
    if (reply->sense_length > 0) {
        printf(" (");
        print_bytes(reply->sense, reply->sense_length);
        printf(")");
    }
}

/* Each check is counted here, and begins its line. */
static inline int begin_line(const struct wire *wire, int holds)
{
    *(holds ? &checks_passed : &checks_failed) += 1;
    printf("%s: %s: ", holds ? "ok" : "FAILED", wire->subject);
    return holds;
}

static inline void expect_good(const struct wire *wire, const struct reply *reply)
{
    if (!begin_line(wire, reply->status == SCSI_STATUS_GOOD))
        printf("is ");
    print_reply(reply);
    printf("%s\n", reply->status == SCSI_STATUS_GOOD ? "" : ", and not GOOD");
}

/* CHECK CONDITION with just these bytes of sense, all of them. */
static inline void expect_sense(const struct wire *wire, const struct reply *reply, const char *sense)
{
    struct bytes wanted = bytes_of(sense);
    int holds = reply->status == SCSI_STATUS_CHECK_CONDITION && reply->sense_length == wanted.length &&
                memcmp(reply->sense, wanted.at, wanted.length) == 0;
    if (!begin_line(wire, holds))
        printf("is ");
    print_reply(reply);
    if (!holds) {
        printf(", and not ");
        print_sense(stdout, sense_of(wanted.at, wanted.length));
        printf(" (");
        print_bytes(wanted.at, wanted.length);
        printf(")");
    }
    printf("\n");
}

static inline void expect_answer(const struct wire *wire, const struct reply *reply, const char *sense_or_none)
{
    if (sense_or_none == NULL)
        expect_good(wire, reply);
    else
        expect_sense(wire, reply, sense_or_none);
}

static inline void print_residual(const struct reply *reply)
{
    if (reply->residual_kind == SCSI_RESIDUAL_NO_RESIDUAL)
        printf("no residual");
    else
        printf("%s %zu", reply->residual_kind == SCSI_RESIDUAL_UNDERFLOW ? "underflow" : "overflow", reply->residual);
}

/* An iSCSI residual: an underflow of so many bytes, or none at all. */
static inline int is_underflow(const struct reply *reply, size_t bytes)
{
    enum scsi_residual kind = bytes > 0 ? SCSI_RESIDUAL_UNDERFLOW : SCSI_RESIDUAL_NO_RESIDUAL;
    return reply->residual_kind == kind && (kind == SCSI_RESIDUAL_NO_RESIDUAL || reply->residual == bytes);
}

static inline int is_untouched(const uint8_t *bytes, size_t length)
{
    for (size_t i = 0; i < length; i++)
        if (bytes[i] != UNTOUCHED)
            return 0;
    return 1;
}

/* Just these bytes in a room of so many: the residual tells the rest of it, and no byte of that is touched. */
static inline void expect_received(const struct wire *wire, const struct reply *reply, size_t room,
                                   const uint8_t *wanted, size_t length)
{
    int is_told = length <= room && is_underflow(reply, room - length);
    int holds = is_told && memcmp(wire->room, wanted, length) == 0 && is_untouched(wire->room + length, room - length);
    if (!begin_line(wire, holds))
        printf("is ");
    printf("%zu bytes, ", reply->received);
    print_bytes(wire->room, holds ? length : room);
    printf(", ");
    print_residual(reply);
    if (!holds) {
        printf(", and not %zu bytes, ", length);
        print_bytes(wanted, length);
        printf(", and the rest of %zu untouched and told", room);
    }
    printf("\n");
}

static inline void expect_data(const struct wire *wire, const struct reply *reply, size_t room, const char *data)
{
    struct bytes wanted = bytes_of(data);
    expect_received(wire, reply, room, wanted.at, wanted.length);
}

/* A number that the answer has, or that was counted over several. */
static inline void expect_number(const struct wire *wire, const char *what, uint64_t seen, uint64_t wanted)
{
    if (begin_line(wire, seen == wanted))
        printf("%s is %llu\n", what, (unsigned long long)seen);
    else
        printf("%s: is %llu, and not %llu\n", what, (unsigned long long)seen, (unsigned long long)wanted);
}

static inline void expect_at_least(const struct wire *wire, const char *what, uint64_t seen, uint64_t least)
{
    if (begin_line(wire, seen >= least))
        printf("%s is %llu\n", what, (unsigned long long)seen);
    else
        printf("%s: is %llu, and not %llu or more\n", what, (unsigned long long)seen, (unsigned long long)least);
}

/* ---- what a case needs first: not counted when it goes well */

static inline void require_good(const struct wire *wire, const char *doing, const struct reply *reply)
{
    if (reply->status == SCSI_STATUS_GOOD)
        return;
    begin_line(wire, 0);
    printf("%s: is ", doing);
    print_reply(reply);
    printf(", and not GOOD\n");
}

/* ---- the end */

/* A check that was left out, or that came twice, is seen by the number that the program has written down. */
static inline int end_of_checks(unsigned long wanted)
{
    unsigned long seen = checks_passed + checks_failed;
    if (seen != wanted)
        printf("FAILED: the number of checks: is %lu, and not %lu\n", seen, wanted);
    printf("%lu passed, %lu failed\n", checks_passed, checks_failed + (seen != wanted));
    return checks_failed > 0 || seen != wanted ? EXIT_FAILURE : EXIT_SUCCESS;
}

#endif
