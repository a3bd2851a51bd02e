/* drive.h: one drive as the daemon keeps it, and the way of a command through it: what the daemon answers by itself,
 * what the library answers, and when its data is made final. One command at a time, under the drive's lock.
 * Part of daemon.c. */
#ifndef DRIVE_H
#define DRIVE_H

#include "cartridge.h"
#include "exchange.h"
#include "identity.h"
#include "stock.h"
#include "wire.h"
#include <pthread.h>
#include <time.h>

struct drive {
    pthread_mutex_t lock;
    uint8_t record[STORMTOGGLE_RECORD_LENGTH];
    struct cartridge tape[2]; /* the second has length 0 if there is none */
    int is_exact;             /* nothing is translated for stock programs */
    int is_locked;            /* a host prevents the cartridge's removal */
    FILE *log;
};

/* So many bytes may wait for a filemark; more are made final without one. */
enum { MOST_NOT_FINAL = 64 << 20 };

static inline uint32_t position_of(const struct drive *d)
{
    return number_at(d->record + STORMTOGGLE_RECORD_POSITION);
}

static inline struct cartridge *current_of(struct drive *d)
{
    return &d->tape[d->record[STORMTOGGLE_RECORD_CURRENT] & 1];
}

static inline int is_loaded(const struct drive *d)
{
    return d->record[STORMTOGGLE_RECORD_LOADED] != 0;
}

static inline unsigned mount(struct drive *d)
{
    const struct cartridge *p = d->tape;
    return STORMTOGGLE_REFUSAL(
        stormtoggle_mount(d->record, sizeof d->record, p[0].lent, p[0].length, p[1].lent, p[1].length));
}

/* ---- durability */

/* Both partitions: a host may have gone from one to the other since it wrote. */
static inline int make_all_final(struct drive *d)
{
    int is_final = 1;
    for (int i = 0; i < 2; i++)
        if (!make_final(&d->tape[i])) {
            fprintf(stderr, "OPERATOR: %s could not be made final: %s\n", d->tape[i].name, strerror(errno));
            is_final = 0;
        }
    return is_final;
}

static inline int is_writing(uint8_t operation)
{
    return operation == WRITE || operation == WRITE_FILEMARKS || operation == ERASE;
}

/* WRITE and WRITE FILEMARKS have put something exactly if the position moved; ERASE cuts and moves nothing. */
static inline void note_written(struct drive *d, const uint8_t *command, uint32_t from, uint64_t answer)
{
    int is_erased = command[0] == ERASE && STORMTOGGLE_STATUS(answer) == STORMTOGGLE_GOOD;
    if (is_writing(command[0]) && (is_erased || position_of(d) != from))
        note_change(current_of(d), from, is_erased && (command[1] & 1));
}

/* Whether a command did what it could, and was stopped by no test: GOOD, or told of the end of the partition. */
static inline int is_carried_out(const struct drive *d, uint64_t answer)
{
    uint8_t key = sense_in_fixed_form(d->record + STORMTOGGLE_RECORD_SENSE).key;
    return STORMTOGGLE_REFUSAL(answer) == 0 &&
           (STORMTOGGLE_STATUS(answer) == STORMTOGGLE_GOOD || key == NO_SENSE || key == VOLUME_OVERFLOW);
}

/* Filemarks, an erase and an unload make final what stands, and so does a WRITE when enough waits. */
static inline int is_final_point(const struct drive *d, const uint8_t *command, uint64_t answer)
{
    if (!is_carried_out(d, answer))
        return 0;
    return command[0] == WRITE_FILEMARKS || command[0] == ERASE || (command[0] == LOAD_UNLOAD && !is_loaded(d)) ||
           (command[0] == WRITE && bytes_not_final(&d->tape[0]) + bytes_not_final(&d->tape[1]) > MOST_NOT_FINAL);
}

/* ---- the library */

static inline uint64_t call(struct drive *d, const uint8_t *command, size_t length, const struct exchange *x,
                            uint8_t *received, size_t room)
{
    const struct cartridge *p = d->tape;
    uint32_t from = position_of(d);
    uint64_t answer = stormtoggle_command(d->record, sizeof d->record, command, length, p[0].lent, p[0].length,
                                          p[1].lent, p[1].length, x->sent, x->sent_length, received, room);
    if (STORMTOGGLE_REFUSAL(answer) == 0)
        note_written(d, command, from, answer);
    return answer;
}

/* A refusal is no SCSI status: the host gets one that it understands. 4 says that the record or the images are no
 * drive's any more, which no host can cause or mend; 5 to 7 never come from a command. */
static inline void answer_refusal(struct exchange *x, unsigned refusal)
{
    if (refusal != STORMTOGGLE_BY_DRIVE) {
        answer_check(x, INVALID_FIELD_IN_COMMAND, refusal_in_words(refusal));
        return;
    }
    answer_check(x, INTERNAL_FAILURE, refusal_in_words(refusal));
    fprintf(stderr, "OPERATOR: the drive is out of order: %s. Stop it, and check its cartridge.\n",
            refusal_in_words(refusal));
}

static inline int sends_data(uint8_t operation)
{
    return operation == WRITE || operation == MODE_SELECT;
}

/* What the library answered, for the wire. The kept sense is the autosense. */
static inline void answer_by(struct exchange *x, uint64_t answer, const uint8_t *record)
{
    size_t carried = STORMTOGGLE_CARRIED(answer);
    x->answer = answer;
    if (STORMTOGGLE_REFUSAL(answer) != 0) {
        answer_refusal(x, STORMTOGGLE_REFUSAL(answer));
        return;
    }
    x->status = STORMTOGGLE_STATUS(answer);
    x->taken = sends_data(operation_of(x)) ? carried : 0;
    x->received_length = carried - x->taken;
    memcpy(x->sense, record + STORMTOGGLE_RECORD_SENSE, sizeof x->sense);
}

static inline void ask_library(struct drive *d, struct exchange *x)
{
    uint8_t command[LONGEST_COMMAND];
    memcpy(command, x->command, x->command_length);
    x->is_translated = !d->is_exact && translate(command, x->command_length);
    uint64_t answer = call(d, command, x->command_length, x, x->received, x->room);
    answer_by(x, answer, d->record);
    if (is_final_point(d, command, answer) && !make_all_final(d))
        answer_check(x, WRITE_ERROR, "the file could not be written");
}

/* ---- what the daemon answers by itself, or turns into another command */

/* While an attention waits, every command but INQUIRY, REPORT LUNS and REQUEST SENSE tells it, the daemon's own too: a
 * TEST UNIT READY in its place does. */
static inline int tells_attention(struct drive *d, struct exchange *x)
{
    const uint8_t ready[SIX] = {TEST_UNIT_READY};
    if (d->record[STORMTOGGLE_RECORD_ATTENTION] == 0)
        return 0;
    answer_by(x, call(d, ready, sizeof ready, x, NULL, 0), d->record);
    return 1;
}

static inline void prevent_allow(struct drive *d, struct exchange *x)
{
    const uint8_t *command = x->command;
    if (tells_attention(d, x))
        return;
    if (command[1] != 0 || command[2] != 0 || command[3] != 0 || command[4] > 1 || command[5] != 0) {
        answer_check(x, INVALID_FIELD_IN_COMMAND, "invalid field in command block");
        return;
    }
    d->is_locked = command[4];
    answer_good(x);
}

/* The mode data without pages, and the page behind it. */
static inline void tell_partitions(struct drive *d, struct exchange *x)
{
    const size_t lengths[2] = {d->tape[0].length, d->tape[1].length};
    uint8_t data[64], command[SIX];
    memcpy(command, x->command, SIX);
    command[2] = 0;
    command[4] = HEADER + DESCRIPTOR;
    uint64_t answer = call(d, command, SIX, x, data, sizeof data);
    answer_by(x, answer, d->record);
    x->is_translated = 1;
    if (x->status != STORMTOGGLE_GOOD)
        return;
    size_t length = append_partitions(data, STORMTOGGLE_CARRIED(answer), d->record[STORMTOGGLE_RECORD_PARTITIONS],
                                      lengths);
    answer_data(x, data, length, x->command[4]);
}

/* Whether the library would carry out this unload: no attention waits, and no bit is set but IMMED. */
static inline int would_unload(const struct drive *d, const struct exchange *x)
{
    uint8_t command[LONGEST_COMMAND];
    memcpy(command, x->command, SIX);
    if (!d->is_exact)
        translate(command, SIX);
    return is_loaded(d) && d->record[STORMTOGGLE_RECORD_ATTENTION] == 0 && (command[1] & ~IMMEDIATE) == 0 &&
           command[2] == 0 && command[3] == 0 && command[4] == 0 && command[5] == 0;
}

/* Whether the library told that nothing is loaded, and nothing that comes before that. */
static inline int is_not_loaded(const struct exchange *x)
{
    return x->why == NULL && x->status == STORMTOGGLE_CHECK_CONDITION &&
           condition_of(sense_in_fixed_form(x->sense)) == MEDIUM_NOT_PRESENT;
}

/* An unload while a host prevents the removal; and LOAD of a cartridge that was unloaded: it lies in the drive yet, so
 * it is mounted again. The attention that a mount leaves is for the next command. */
static inline void load_unload(struct drive *d, struct exchange *x)
{
    if (d->is_locked && would_unload(d, x)) {
        answer_check(x, REMOVAL_PREVENTED, "a host prevents the removal");
        return;
    }
    ask_library(d, x);
    if (d->is_exact || !is_not_loaded(x) || (x->command[4] & 1) == 0)
        return;
    if (mount(d) == 0)
        answer_good(x);
    else
        answer_refusal(x, STORMTOGGLE_BY_DRIVE);
}

/* Of a unit that is not there: REQUEST SENSE is GOOD, and tells as data what other commands are told as sense. */
static inline void answer_elsewhere(struct exchange *x)
{
    if (operation_of(x) == INQUIRY) {
        inquire(x, 0);
        return;
    }
    if (operation_of(x) == REPORT_LUNS) {
        report_luns(x);
        return;
    }
    answer_check(x, UNIT_NOT_SUPPORTED, "logical unit not supported");
    if (operation_of(x) == REQUEST_SENSE)
        answer_data(x, x->sense, sizeof x->sense, x->command[4]);
}

/* A block that is shorter than its operation code says is the library's to refuse. */
static inline int is_whole(const struct exchange *x)
{
    return x->command_length >= (operation_of(x) == REPORT_LUNS ? TWELVE : SIX);
}

static inline void answer(struct drive *d, struct exchange *x, uint64_t unit)
{
    uint8_t operation = operation_of(x);
    if (!is_whole(x))
        ask_library(d, x);
    else if (unit != 0)
        answer_elsewhere(x);
    else if (operation == INQUIRY)
        inquire(x, 1);
    else if (operation == REPORT_LUNS)
        report_luns(x);
    else if (operation == PREVENT_ALLOW)
        prevent_allow(d, x);
    else if (operation == LOAD_UNLOAD)
        load_unload(d, x);
    else if (!d->is_exact && asks_for_partitions(x))
        tell_partitions(d, x);
    else
        ask_library(d, x);
}

/* ---- the log: a line for each command */

static inline const char *name_of(uint8_t operation)
{
    switch (operation) {
    case TEST_UNIT_READY: return "TEST UNIT READY";
    case REWIND: return "REWIND";
    case REQUEST_SENSE: return "REQUEST SENSE";
    case READ_BLOCK_LIMITS: return "READ BLOCK LIMITS";
    case READ: return "READ";
    case WRITE: return "WRITE";
    case WRITE_FILEMARKS: return "WRITE FILEMARKS";
    case SPACE: return "SPACE";
    case INQUIRY: return "INQUIRY";
    case MODE_SELECT: return "MODE SELECT";
    case ERASE: return "ERASE";
    case MODE_SENSE: return "MODE SENSE";
    case LOAD_UNLOAD: return "LOAD UNLOAD";
    case PREVENT_ALLOW: return "PREVENT ALLOW";
    case LOCATE: return "LOCATE";
    case READ_POSITION: return "READ POSITION";
    case SPACE_16: return "SPACE (16)";
    case LOCATE_16: return "LOCATE (16)";
    case REPORT_LUNS: return "REPORT LUNS";
    default: return "not served";
    }
}

/* When, for which host, what, the answer in words, and the position as partition:object. */
static inline void log_command(const struct drive *d, const struct exchange *x, unsigned host)
{
    struct timespec now;
    struct tm when;
    clock_gettime(CLOCK_REALTIME, &now);
    localtime_r(&now.tv_sec, &when);
    fprintf(d->log, "%02d:%02d:%02d.%03d host %u %s", when.tm_hour, when.tm_min, when.tm_sec,
            (int)(now.tv_nsec / 1000000), host, name_of(operation_of(x)));
    for (size_t i = 0; i < x->command_length && i < (operation_of(x) < 0x20 ? SIX : SIXTEEN); i++)
        fprintf(d->log, " %02x", x->command[i]);
    fprintf(d->log, x->is_translated ? " (translated): " : ": ");
    if (x->why == NULL)
        print_answer(d->log, x->answer, d->record);
    else if (x->status == STORMTOGGLE_GOOD)
        fprintf(d->log, "GOOD, %zu bytes, %s", x->received_length, x->why);
    else
        fprintf(d->log, "%X/%02X/%02X by the daemon: %s", x->sense[STORMTOGGLE_SENSE_KEY] & STORMTOGGLE_KEY,
                x->sense[STORMTOGGLE_SENSE_ASC], x->sense[STORMTOGGLE_SENSE_ASCQ], x->why);
    if (is_loaded(d))
        fprintf(d->log, "; at %u:%u\n", d->record[STORMTOGGLE_RECORD_CURRENT], (unsigned)position_of(d));
    else
        fprintf(d->log, "; unloaded\n");
}

/* One command from the wire: one at a time. */
static inline void serve(struct drive *d, struct exchange *x, uint64_t unit, unsigned host)
{
    pthread_mutex_lock(&d->lock);
    answer(d, x, unit);
    log_command(d, x, host);
    pthread_mutex_unlock(&d->lock);
}

#endif
