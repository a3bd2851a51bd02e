/* sender.h: a call as its sender makes and sees it, and what the list takes from it: the puts and cuts that it says. */
#ifndef SENDER_H
#define SENDER_H

#include "cartridge.h"
#include "coverage.h"
#include "faults.h"

/* The latest call of the life: what was asked, and what was answered. */
static struct call {
    unsigned kind; /* an operation code or a house service */
    struct holder *by;
    struct loan loan;
    struct bytes block;
    struct slice sent;
    uint8_t *received;
    size_t received_length;
    struct drive before; /* the record as it was */
    uint64_t answer;
} latest;

/* ---- what differs is told in a line */

/* Enough to see what is wrong; more would only repeat it. */
enum { MISMATCHES_SHOWN = 20 };

static int life_is_over; /* a list that was left behind once cannot be followed further */

static inline void print_loan(struct loan loan)
{
    for (int place = 0; place < 2; place++) {
        const struct tape *tape = loan.at[place];
        printf("%s", place == 0 ? ", lent " : " and ");
        if (tape == NULL)
            printf("nothing");
        else
            printf("%s %d of %zu bytes", is_ours(tape) ? "partition" : "foreign",
                   (int)(is_ours(tape) ? tape - ours : tape - foreign), tape->length);
    }
}

static inline void print_latest(void)
{
    printf("seed %" PRIu64 ", life %lu, call %lu, %s", seed, reached.lives, reached.calls, name_of_call(latest.kind));
    for (size_t i = 0; latest.kind < FRESH && i < latest.block.length && i < 16; i++)
        printf("%s%02x", i == 0 ? " (" : " ", latest.block.at[i]);
    printf("%s", latest.kind < FRESH ? ")" : "");
    if (latest.by != NULL)
        printf(" under record %d at %u:%u, block length %u", (int)(latest.by - holders), latest.before.current,
               (unsigned)latest.before.position, (unsigned)latest.before.block_length);
    print_loan(latest.loan);
    printf(", answered: ");
    if (latest.kind < FRESH)
        print_answer(stdout, latest.answer, latest.by->record);
    else
        print_done(stdout, latest.answer);
    printf(": ");
}

/* Ends the line, and flushes it so that a crash cannot take it along. */
static inline void end_mismatch(void)
{
    printf("\n");
    fflush(stdout);
    reached.mismatches++;
    life_is_over = 1;
}

static inline void mismatch(const char *format, ...)
{
    va_list arguments;
    print_latest();
    va_start(arguments, format);
    vprintf(format, arguments);
    va_end(arguments);
    end_mismatch();
}

static inline int is_over(void)
{
    return reached.calls >= reached.wanted || reached.mismatches + checks_failed >= MISMATCHES_SHOWN;
}

/* ---- how many objects a write says that it put, told in three ways */

#define UNTOLD UINT32_MAX

/* What a WRITE or WRITE FILEMARKS asks for. */
struct writing {
    enum event_kind kind;
    uint32_t request; /* of its block; bytes if it is variable, else objects */
    uint32_t objects, size;
    int is_variable;
};

static inline struct writing writing_of(const uint8_t *block, uint32_t block_length)
{
    uint32_t request = get32(block + AT_COUNT - 1) & COUNT_MOST;
    if (block[0] == WRITE_FILEMARKS)
        return (struct writing){PUT_FILEMARK, request, request, 0, 0};
    if (block[1] & FIXED)
        return (struct writing){PUT_BLOCK, request, request, block_length, 0};
    return (struct writing){PUT_BLOCK, request, request > 0, request, 1};
}

/* GOOD says all. Early warning does too, by its residue of 0; overflow has the residue of what was not put. */
static inline uint32_t told_by_residue(const struct writing *writing, uint64_t answer, const uint8_t *sense)
{
    uint32_t left = get32(sense + STORMTOGGLE_SENSE_INFORMATION);
    if (STORMTOGGLE_STATUS(answer) == STORMTOGGLE_GOOD)
        return writing->objects;
    if (sense[STORMTOGGLE_SENSE_FIRST] != STORMTOGGLE_VALID || left > writing->request)
        return UNTOLD;
    if ((told_by(sense) == TOLD_ZONE) != (left == 0))
        return UNTOLD;
    if (!writing->is_variable)
        return writing->request - left;
    return left == 0 ? 1 : left == writing->request ? 0 : UNTOLD;
}

/* A filemark has no bytes, so there they tell nothing but that there are none. No more are put than were sent. */
static inline uint32_t told_by_bytes(const struct writing *writing, uint64_t answer, uint32_t by_residue)
{
    uint32_t carried = STORMTOGGLE_CARRIED(answer);
    if (writing->size == 0)
        return carried == 0 ? by_residue : UNTOLD;
    return carried <= latest.sent.length && carried % writing->size == 0 ? carried / writing->size : UNTOLD;
}

static inline uint32_t told_by_position(const struct drive *before, const struct drive *after)
{
    int stays = after->loaded == before->loaded && after->current == before->current;
    return stays && after->position >= before->position ? after->position - before->position : UNTOLD;
}

/* ---- the list */

/* What is counted of a put or a cut, before the list takes it. */
static inline void count_change(const struct tape *tape)
{
    int lone = lends_ours(latest.loan) && !is_whole(latest.loan);
    happens(CHANGED_BY_ODD_RECORDS, latest.by == &holders[ODD] && is_ours(tape));
    happens(LONE_CHANGED, lone && is_ours(tape));
    happens(ANOTHER_CHANGED, lone && !is_ours(tape));
}

static inline void count_writing(const struct writing *writing, uint32_t put)
{
    int as_mounted = writing->kind == PUT_BLOCK && !writing->is_variable && latest.by->as_mounted;
    happens(BLOCKS_PUT, put > 0 && writing->is_variable);
    happens(FORMER_PUT, put > 0 && writing->size == FORMER_LARGEST);
    happens(LARGER_PUT, put > 0 && writing->size > FORMER_LARGEST);
    happens(LARGEST_PUT, put > 0 && writing->size == LARGEST_BLOCK);
    happens(LARGER_FIXED, put > 0 && !writing->is_variable && writing->size > FORMER_LARGEST);
    happens(FIXED_PUT, put > 1 && writing->kind == PUT_BLOCK);
    happens(PUT_AS_MOUNTED, as_mounted && put > 1);
    happens(PARTLY_AS_MOUNTED, as_mounted && put > 0 && put < writing->objects);
    happens(FILEMARKS_PUT, put > 0 && writing->kind == PUT_FILEMARK);
    happens(ALL_IN_THE_ZONE, put == writing->objects && STORMTOGGLE_STATUS(latest.answer) != STORMTOGGLE_GOOD);
    happens(PARTLY_PUT, put > 0 && put < writing->objects);
    happens(NONE_FITTED, put == 0 && writing->objects > 0);
    happens(NONE_ASKED, writing->objects == 0);
}

/* From the position on, as many as it says; those that are put on a foreign slice are not followed. */
static inline void note_puts(struct tape *tape, const struct writing *writing, uint32_t put)
{
    uint32_t number = latest.before.position;
    count_writing(writing, put);
    if (put == 0)
        return;
    count_change(tape);
    if (!is_ours(tape))
        return;
    happens(OVERWRITES, number < end_of(&tape->history));
    for (uint32_t i = 0; i < put; i++) {
        const uint8_t *bytes = writing->kind == PUT_BLOCK ? latest.sent.bytes + (size_t)i * writing->size : NULL;
        note(&tape->history, (struct event){writing->kind, number + i, writing->size, bytes});
    }
}

/* A write that acted ends GOOD, with early warning or with overflow; any other was stopped by a test. */
static inline void follow_write(struct tape *tape, const uint8_t *record)
{
    struct writing writing = writing_of(latest.block.at, latest.before.block_length);
    struct drive after = drive_of(record);
    uint32_t told = told_by(after.sense), by_residue, by_bytes, by_position;
    if (STORMTOGGLE_STATUS(latest.answer) != STORMTOGGLE_GOOD && told != TOLD_ZONE && told != TOLD_OVERFLOW)
        return;
    by_residue = told_by_residue(&writing, latest.answer, after.sense);
    by_bytes = told_by_bytes(&writing, latest.answer, by_residue);
    by_position = told_by_position(&latest.before, &after);
    if (by_residue == UNTOLD || by_bytes != by_residue || by_position != by_residue)
        mismatch("objects put, -1 if it cannot be: %d by the residue, %d by the position, %d by %u bytes carried",
                 (int)by_residue, (int)by_position, (int)by_bytes, (unsigned)STORMTOGGLE_CARRIED(latest.answer));
    else
        note_puts(tape, &writing, by_residue);
}

static inline void follow_erase(struct tape *tape)
{
    uint32_t from = latest.before.position;
    if (STORMTOGGLE_STATUS(latest.answer) != STORMTOGGLE_GOOD)
        return;
    count_change(tape);
    if (!is_ours(tape))
        return;
    happens(CUTS, from < end_of(&tape->history));
    happens(LONG_CUTS, from < end_of(&tape->history) && latest.block.at[1] & LONG);
    happens(CUTS_OF_NOTHING, from == end_of(&tape->history));
    note(&tape->history, (struct event){CUT, from, 0, NULL});
}

/* Nothing but a write or an erase that is not refused puts or cuts, on the partition that the record was at. */
static inline void follow_command(void)
{
    struct tape *tape = latest.loan.at[latest.before.current == 1];
    uint8_t code = latest.block.at[0];
    if (STORMTOGGLE_REFUSAL(latest.answer) != 0 || tape == NULL)
        return;
    if (code == WRITE || code == WRITE_FILEMARKS)
        follow_write(tape, latest.by->record);
    else if (code == ERASE)
        follow_erase(tape);
}

#endif
