/* calls.h: the calls of a life: each is made, counted, and its puts and cuts taken into the list. */
#ifndef CALLS_H
#define CALLS_H

#include "sender.h"

/* ---- what every call has */

static inline void begin_call(unsigned kind, struct holder *by, struct loan loan)
{
    reached.calls++;
    latest.kind = kind;
    latest.by = by;
    latest.loan = loan;
    if (by == NULL)
        return;
    latest.before = drive_of(by->record);
    note_use(by, loan);
}

/* Whether the command came so far as to act: what it met then has key 0, 8 or Dh. */
static inline int has_acted(uint64_t answer, const uint8_t *record)
{
    unsigned key = TOLD_KEY(told_by(record + STORMTOGGLE_RECORD_SENSE));
    return STORMTOGGLE_STATUS(answer) == STORMTOGGLE_GOOD || key == KEY_NONE || key == KEY_BLANK || key == KEY_OVERFLOW;
}

static inline void count_answer(unsigned refusal)
{
    if (refusal != 0) {
        reached.refused[latest.kind]++;
        reached.refusals[refusal]++;
    } else if (latest.kind >= FRESH || has_acted(latest.answer, latest.by->record)) {
        reached.acted[latest.kind]++;
    } else {
        reached.stopped[latest.kind]++;
    }
}

/* "It equals the distance between old and new position", and "every other call, refusals included, answers 0 there". */
static inline void hold_crossed(unsigned refusal)
{
    int is_space = latest.kind == SPACE || latest.kind == SPACE_16, goes = is_space && refusal == 0;
    uint32_t from = goes ? latest.before.position : 0, to = goes ? drive_of(latest.by->record).position : 0;
    uint32_t distance = from < to ? to - from : from - to, crossed = STORMTOGGLE_CROSSED(latest.answer);
    happens(CROSSED_SOME, distance > 0);
    happens(CROSSED_TO_FILEMARK,
            distance > 0 && told_by(latest.by->record + STORMTOGGLE_RECORD_SENSE) == TOLD_FILEMARK);
    if (crossed != distance)
        mismatch("objects crossed expected %u, came %u", (unsigned)distance, (unsigned)crossed);
}

/* "After a mount the block length shall be 32,768", of a fresh record it is 0, and MODE SELECT alone sets another. */
static inline uint32_t length_expected(unsigned refusal)
{
    int selects = latest.kind == MODE_SELECT && STORMTOGGLE_CARRIED(latest.answer) == MODE_BYTES;
    if (refusal != 0)
        return latest.before.block_length;
    if (latest.kind == FRESH || latest.kind == MOUNT)
        return latest.kind == MOUNT ? MOUNTED_LENGTH : 0;
    return selects ? get32(latest.sent.bytes + AT_BLOCK_LENGTH - 1) & COUNT_MOST : latest.before.block_length;
}

static inline void hold_length(unsigned refusal)
{
    uint32_t expected = length_expected(refusal), came = drive_of(latest.by->record).block_length;
    int is_other = latest.before.block_length != 0 && latest.before.block_length != MOUNTED_LENGTH;
    happens(MOUNTS_OVER_ANOTHER, latest.kind == MOUNT && refusal == 0 && is_other);
    if (refusal == 0 && (latest.kind == FRESH || latest.kind == MOUNT || latest.kind == MODE_SELECT))
        latest.by->as_mounted = latest.kind == MOUNT;
    if (came != expected)
        mismatch("block length expected %u, came %u", (unsigned)expected, (unsigned)came);
}

/* Alone with the cartridge since its mount, a record is never refused by 4. */
static inline void end_call(uint64_t answer)
{
    unsigned refusal = STORMTOGGLE_REFUSAL(answer);
    latest.answer = answer;
    count_answer(refusal);
    hold_crossed(refusal);
    if (latest.by == NULL)
        return;
    hold_length(refusal);
    latest.by->was_refused = refusal == BY_DRIVE;
    happens(NEVER_BY_4, latest.by->alone_since);
    if (refusal == BY_DRIVE && latest.by->alone_since)
        mismatch("refused, though neither record nor cartridge was used with another since the mount");
}

/* ---- the house services */

static inline void call_fresh(struct holder *by)
{
    begin_call(FRESH, by, (struct loan){{NULL, NULL}});
    end_call(stormtoggle_fresh(by->record, by->length));
    if (latest.answer != DONE)
        return;
    note_unloaded(by);
    by->was_unloaded = 0;
}

/* Of each slice so many bytes at most; a mount that is done has all of them. */
static inline void call_mount(struct holder *by, struct loan loan, size_t most)
{
    size_t first = length_at(loan, 0), second = length_at(loan, 1);
    begin_call(MOUNT, by, loan);
    end_call(mount_service(by->record, by->length, bytes_at(loan, 0), first < most ? first : most, bytes_at(loan, 1),
                           second < most ? second : most));
    if (latest.answer != DONE)
        return;
    by->usual = loan;
    by->is_mounted = by->alone_since = is_whole(loan);
    happens(MOUNTS, 1);
    happens(REMOUNTS, by->was_unloaded);
    by->was_unloaded = 0;
}

static inline void call_protect(struct tape *tape, size_t length, uint64_t on)
{
    begin_call(PROTECT, NULL, (struct loan){{tape, NULL}});
    end_call(protect_service(tape->image, length, on));
    happens(on != 0 ? PROTECTION_SET : PROTECTION_CLEARED, latest.answer == DONE && is_ours(tape));
}

/* Never a partition that is followed: that would begin another life. */
static inline void call_blank_foreign(struct tape *tape)
{
    begin_call(BLANK, NULL, (struct loan){{tape, NULL}});
    end_call(stormtoggle_blank(tape->image, tape->length));
}

/* ---- the SCSI commands */

static inline void count_loan(struct loan loan)
{
    int lone = lends_ours(loan) && !is_whole(loan);
    happens(LONE_FIRST, lone && is_ours(loan.at[0]));
    happens(LONE_SECOND, lone && is_ours(loan.at[1]));
    happens(LONE_BESIDE_ANOTHER, lone && loan.at[0] != NULL && loan.at[1] != NULL);
}

static inline void count_command(unsigned refusal)
{
    const struct tape *tape = &ours[latest.before.current % partitions];
    const uint8_t *sense = latest.by->record + STORMTOGGLE_RECORD_SENSE;
    uint32_t told = refusal == 0 && STORMTOGGLE_STATUS(latest.answer) != STORMTOGGLE_GOOD ? told_by(sense) : TOLD_GOOD;
    count_loan(latest.loan);
    happens(UNDER_ODD_RECORDS, latest.by == &holders[ODD]);
    happens(ABOVE_N, refusal == BY_DRIVE && latest.by->is_mounted && is_whole(latest.loan) &&
                         latest.before.position > end_of(&tape->history));
    happens(ATTENTIONS_TOLD, told == TOLD_MOUNTED || told == TOLD_FRESH);
    happens(CODES_NOT_SERVED, told == TOLD_NOT_SERVED);
    happens(BAD_FIELDS, told == TOLD_FIELD);
    happens(STOPPED_BY_PROTECTION, told == TOLD_PROTECTED);
    happens(SENSE_DESCRIBED, latest.kind == REQUEST_SENSE && refusal == 0 && told == TOLD_GOOD &&
                                 latest.block.at[1] & DESC);
}

/* The block, and what is sent and received, stand in latest already. */
static inline void call_command(struct holder *by, struct loan loan)
{
    begin_call(latest.block.at[0], by, loan);
    end_call(command_service(by->record, by->length, latest.block.at, latest.block.length, bytes_at(loan, 0),
                             length_at(loan, 0), bytes_at(loan, 1), length_at(loan, 1), latest.sent.bytes,
                             latest.sent.length, latest.received, latest.received_length));
    count_command(STORMTOGGLE_REFUSAL(latest.answer));
    if (STORMTOGGLE_REFUSAL(latest.answer) == 0 && latest.before.loaded && !drive_of(by->record).loaded) {
        note_unloaded(by);
        by->was_unloaded = 1;
    }
    follow_command();
}

#endif
