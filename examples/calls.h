/* calls.h: the services as a daemon calls them, a function for each: it makes the command block, lends the bytes, and
 * logs a line: what was asked, the answer in words, the position as partition:object. Part of facility.c. */
#ifndef CALLS_H
#define CALLS_H

#include "codes.h"
#include "decode.h"
#include "stormtoggle.h"
#include <stdarg.h>
#include <stdio.h>

struct partition {
    uint8_t *image;
    size_t length;
};

/* All that a daemon keeps of a drive is its record; of a cartridge, its partitions. */
struct drive {
    uint8_t record[STORMTOGGLE_RECORD_LENGTH];
    struct partition tape[2];
    uint64_t answer; /* to the last call */
    char asked[48];  /* by the last call */
};

/* ---- the log */

enum { ASKED_WIDTH = 43, ANSWER_WIDTH = 78 };

static inline void log_heading(void)
{
    printf("%-*s%-*s%s\n", ASKED_WIDTH, "asked", ANSWER_WIDTH, "answered", "partition:object");
}

static inline void ask(struct drive *d, const char *format, ...)
{
    va_list rest;
    va_start(rest, format);
    vsnprintf(d->asked, sizeof d->asked, format, rest);
    va_end(rest);
    printf("%-*s", ASKED_WIDTH, d->asked);
}

/* Ends the line; its answer took that many characters. */
static inline void log_position(const struct drive *d, int printed)
{
    const uint8_t *record = d->record;
    unsigned object = number_at(record + STORMTOGGLE_RECORD_POSITION);
    printf("%*s", printed < ANSWER_WIDTH ? ANSWER_WIDTH - printed : 1, "");
    if (record[STORMTOGGLE_RECORD_LOADED])
        printf("%u:%u\n", record[STORMTOGGLE_RECORD_CURRENT], object);
    else
        printf("unloaded\n");
}

/* ---- the house services */

static inline void log_done(struct drive *d, uint64_t answer)
{
    d->answer = answer;
    log_position(d, print_done(stdout, answer));
}

static inline void fresh(struct drive *d)
{
    ask(d, "fresh record");
    log_done(d, stormtoggle_fresh(d->record, sizeof d->record));
}

static inline void blank(struct drive *d, int partition)
{
    struct partition p = d->tape[partition];
    ask(d, "blank partition %d, %zu bytes", partition, p.length);
    log_done(d, stormtoggle_blank(p.image, p.length));
}

static inline void mount(struct drive *d)
{
    const struct partition *p = d->tape;
    ask(d, "mount %s", p[1].length == 0 ? "one partition" : "both partitions");
    log_done(d, stormtoggle_mount(d->record, sizeof d->record, p[0].image, p[0].length, p[1].image, p[1].length));
}

static inline void protect(struct drive *d, int partition)
{
    struct partition p = d->tape[partition];
    ask(d, "protect partition %d", partition);
    log_done(d, stormtoggle_protect(p.image, p.length, 1));
}

/* A block where it lies in the mapped file, not copied; NULL if there is none. Nothing is refused. */
static inline const uint8_t *view(struct drive *d, int partition, uint32_t object, size_t *length)
{
    const struct partition *p = d->tape;
    ask(d, "view partition %d, object %u", partition, (unsigned)object);
    uint64_t found = stormtoggle_view(p[0].image, p[0].length, p[1].image, p[1].length, (uint64_t)partition, object);
    *length = STORMTOGGLE_VIEW_LENGTH(found);
    log_position(d, printf("%zu bytes from byte %u on", *length, (unsigned)STORMTOGGLE_VIEW_START(found)));
    return *length == 0 ? NULL : p[partition].image + STORMTOGGLE_VIEW_START(found);
}

/* ---- the SCSI commands */

/* The bytes lent beside the command block; a command uses one direction or none. */
struct data {
    const uint8_t *sent;
    size_t sent_length;
    uint8_t *received;
    size_t received_length;
};
#define NO_DATA (struct data){NULL, 0, NULL, 0}
#define SEND(bytes, length) (struct data){(bytes), (length), NULL, 0}
#define RECEIVE(bytes, length) (struct data){NULL, 0, (bytes), (length)}

static inline void carry_out(struct drive *d, const uint8_t *command, size_t length, struct data data)
{
    const struct partition *p = d->tape;
    d->answer = stormtoggle_command(d->record, sizeof d->record, command, length, p[0].image, p[0].length, p[1].image,
                                    p[1].length, data.sent, data.sent_length, data.received, data.received_length);
    log_position(d, print_answer(stdout, d->answer, d->record));
}

static inline void test_unit_ready(struct drive *d)
{
    const uint8_t command[SIX] = {TEST_UNIT_READY};
    ask(d, "TEST UNIT READY");
    carry_out(d, command, sizeof command, NO_DATA);
}

/* Byte 1 of REQUEST SENSE: the form, which is this call's own. What it tells is read, and then no longer kept. */
enum sense_form { IN_FIXED_FORM = 0x00, IN_DESCRIPTOR_FORM = 0x01 };

static inline struct sense request_sense(struct drive *d, enum sense_form form)
{
    uint8_t bytes[STORMTOGGLE_DESCRIPTORS_BOTH] = {0};
    const uint8_t command[SIX] = {REQUEST_SENSE, form, 0, 0, sizeof bytes};
    ask(d, "REQUEST SENSE in %s form", form == IN_DESCRIPTOR_FORM ? "descriptor" : "fixed");
    carry_out(d, command, sizeof command, RECEIVE(bytes, sizeof bytes));
    struct sense told = sense_of(bytes, STORMTOGGLE_CARRIED(d->answer));
    printf("    it tells: ");
    print_sense(stdout, told);
    printf("\n");
    return told;
}

static inline void rewind_tape(struct drive *d)
{
    const uint8_t command[SIX] = {REWIND};
    ask(d, "REWIND");
    carry_out(d, command, sizeof command, NO_DATA);
}

/* How long a block may be: the most in three bytes behind the first, then the least in two. */
struct limits {
    uint32_t least, most;
};

static inline struct limits read_block_limits(struct drive *d)
{
    uint8_t data[6] = {0};
    const uint8_t command[SIX] = {READ_BLOCK_LIMITS};
    ask(d, "READ BLOCK LIMITS");
    carry_out(d, command, sizeof command, RECEIVE(data, sizeof data));
    struct limits told = {.least = number_at(data + 2) & 0xffff, .most = number_at(data) & 0xffffff};
    printf("    it tells: a block has %u to %u bytes\n", (unsigned)told.least, (unsigned)told.most);
    return told;
}

static inline void read_block(struct drive *d, uint8_t *bytes, uint32_t length)
{
    const uint8_t command[SIX] = {READ, 0, THREE_BYTES(length)};
    ask(d, "READ %u bytes", (unsigned)length);
    carry_out(d, command, sizeof command, RECEIVE(bytes, length));
}

/* With SILI: a block of another length than is asked for is not told where the drive may hide it. */
static inline void read_sili(struct drive *d, uint8_t *bytes, uint32_t length)
{
    const uint8_t command[SIX] = {READ, SILI, THREE_BYTES(length)};
    ask(d, "READ SILI %u bytes", (unsigned)length);
    carry_out(d, command, sizeof command, RECEIVE(bytes, length));
}

static inline void write_block(struct drive *d, const uint8_t *bytes, uint32_t length)
{
    const uint8_t command[SIX] = {WRITE, 0, THREE_BYTES(length)};
    ask(d, "WRITE %u bytes", (unsigned)length);
    carry_out(d, command, sizeof command, SEND(bytes, length));
}

/* Many blocks of the length that is set, which the record tells. */
static inline size_t fixed_bytes(const struct drive *d, uint32_t count)
{
    return count * (size_t)number_at(d->record + STORMTOGGLE_RECORD_BLOCK_LENGTH);
}

static inline void write_fixed(struct drive *d, const uint8_t *bytes, uint32_t count)
{
    const uint8_t command[SIX] = {WRITE, FIXED, THREE_BYTES(count)};
    ask(d, "WRITE FIXED %u blocks", (unsigned)count);
    carry_out(d, command, sizeof command, SEND(bytes, fixed_bytes(d, count)));
}

static inline void read_fixed(struct drive *d, uint8_t *bytes, uint32_t count)
{
    const uint8_t command[SIX] = {READ, FIXED, THREE_BYTES(count)};
    ask(d, "READ FIXED %u blocks", (unsigned)count);
    carry_out(d, command, sizeof command, RECEIVE(bytes, fixed_bytes(d, count)));
}

static inline void write_filemarks(struct drive *d, uint32_t count)
{
    const uint8_t command[SIX] = {WRITE_FILEMARKS, 0, THREE_BYTES(count)};
    ask(d, "WRITE FILEMARKS %u", (unsigned)count);
    carry_out(d, command, sizeof command, NO_DATA);
}

/* A count below 0 goes back; its three bytes are two's complement. */
static inline void space(struct drive *d, enum space_code code, int count)
{
    const uint8_t command[SIX] = {SPACE, (uint8_t)code, THREE_BYTES(count)};
    if (code == TO_END_OF_DATA)
        ask(d, "SPACE to end of data");
    else
        ask(d, "SPACE %s %d", code == BLOCKS ? "blocks" : "filemarks", count);
    carry_out(d, command, sizeof command, NO_DATA);
}

static inline void locate(struct drive *d, uint8_t partition, uint32_t object)
{
    const uint8_t command[TEN] = {LOCATE, CHANGE_PARTITION, 0, FOUR_BYTES(object), 0, partition};
    ask(d, "LOCATE partition %u, object %u", partition, (unsigned)object);
    carry_out(d, command, sizeof command, NO_DATA);
}

/* SPACE in sixteen bytes: the same but for a count of eight. */
static inline void space_16(struct drive *d, enum space_code code, int64_t count)
{
    const uint8_t command[SIXTEEN] = {SPACE_16, (uint8_t)code, 0, 0, EIGHT_BYTES(count)};
    ask(d, "SPACE (16) %s %lld", code == BLOCKS ? "blocks" : "filemarks", (long long)count);
    carry_out(d, command, sizeof command, NO_DATA);
}

/* LOCATE in sixteen bytes: to an object; to a file, just after that many filemarks; or to end of data. */
static inline void locate_16(struct drive *d, uint8_t partition, enum destination destination, uint64_t identifier)
{
    const uint8_t command[SIXTEEN] = {LOCATE_16, (uint8_t)(destination << DESTINATION_SHIFT | CHANGE_PARTITION), 0,
                                      partition, EIGHT_BYTES(identifier)};
    if (destination == TO_END)
        ask(d, "LOCATE (16) partition %u, end of data", partition);
    else
        ask(d, "LOCATE (16) partition %u, %s %llu", partition, destination == TO_FILE ? "file" : "object",
            (unsigned long long)identifier);
    carry_out(d, command, sizeof command, NO_DATA);
}

/* A buffer that cannot hold the long form is refused, and gets none of it. */
static inline void read_position(struct drive *d, uint8_t *bytes, size_t length)
{
    const uint8_t command[TEN] = {READ_POSITION, LONG_FORM};
    ask(d, "READ POSITION into %zu bytes", length);
    carry_out(d, command, sizeof command, RECEIVE(bytes, length));
    if (STORMTOGGLE_CARRIED(d->answer) == 0)
        return;
    printf("    it tells: ");
    print_position(stdout, bytes);
    printf("\n");
}

/* The list is a header, which says how long the descriptor behind it is, and the descriptor, which sets the length. */
static inline void set_block_length(struct drive *d, uint32_t length)
{
    const uint8_t list[HEADER + DESCRIPTOR] = {0, 0, 0, DESCRIPTOR, 0, 0, 0, 0, 0, THREE_BYTES(length)};
    const uint8_t command[SIX] = {MODE_SELECT, PAGE_FORMAT, 0, 0, sizeof list};
    ask(d, "MODE SELECT block length %u", (unsigned)length);
    carry_out(d, command, sizeof command, SEND(list, sizeof list));
}

/* What a host's driver goes by: the block length of the mode data. */
static inline uint32_t sense_block_length(struct drive *d)
{
    uint8_t data[HEADER + DESCRIPTOR] = {0};
    const uint8_t command[SIX] = {MODE_SENSE, 0, 0, 0, sizeof data};
    ask(d, "MODE SENSE");
    carry_out(d, command, sizeof command, RECEIVE(data, sizeof data));
    uint32_t length = number_at(data + sizeof data - 4) & 0xffffff;
    printf("    it tells: block length %u\n", (unsigned)length);
    return length;
}

static inline void unload(struct drive *d)
{
    const uint8_t command[SIX] = {LOAD_UNLOAD};
    ask(d, "LOAD UNLOAD, unload");
    carry_out(d, command, sizeof command, NO_DATA);
}

#endif
