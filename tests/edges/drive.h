/* drive.h: one command on a drive in plain C: what is lent, what must be left, and the call that is held to it. */
#ifndef DRIVE_H
#define DRIVE_H

#include "../blocks.h"
#include "../lend.h"
#include "../record.h"
#include "stormtoggle.h"
#include "tapes.h"

/* ---- a case */

#define BYTES(...) {sizeof((uint8_t[]){__VA_ARGS__}), {__VA_ARGS__}}

/* What CHECK CONDITION tells: byte 0 of the sense (0 stands for GOOD, and the empty sense), what, and its residue. */
struct told {
    uint8_t first;
    uint32_t number, information;
};
#define PLAIN(number) {STORMTOGGLE_NOT_VALID, number, 0}
#define RESIDUE(number, information) {STORMTOGGLE_VALID, number, information}

enum erasure { NOT_ERASED, CUT, CUT_AND_ZEROED };

struct edge {
    /* what is lent */
    const char *what;
    enum cartridge p0;
    struct bytes command;
    struct drive before;
    enum cartridge p1;
    size_t sent, room; /* how many bytes of a pattern are sent; the receiving buffer's length */
    struct bytes list; /* the bytes sent, where a pattern will not do */
    int cut;           /* bytes that the record lacks of thirty */
    /* what must be left; with a refusal, all as it was */
    unsigned refusal;
    struct drive after; /* its sense is what is told */
    struct told told;
    uint32_t carried;  /* from the bytes sent; what is received counts by itself */
    uint32_t crossed;  /* objects, by SPACE */
    struct bytes data; /* bytes received, from the first on */
    size_t reads;      /* the same, where they are what the partition holds from the position on */
    const char *puts;  /* objects put from the position on, of the bytes sent */
    enum erasure erased;
};

/* No command may leave this sense: it is neither empty nor any that a drive tells. */
#define OLD_SENSE {0xf0, 0x5a, 0x25, 0xde, 0xad, 0xbe, 0xef, 0x0b, 1, 2, 3, 4, 0x24, 0x7f, 5, 6, 7, 8}
#define LOADED(attention, position, block_length) {1, 1, 0, attention, position, block_length, OLD_SENSE}
#define SET(block_length, position) LOADED(ATTENTION_NONE, position, block_length)
#define BARE(attention, block_length) {0, 0, 0, attention, 0, block_length, OLD_SENSE}
#define EMPTY(block_length) BARE(ATTENTION_NONE, block_length)

/* A case that names no block length says the same of each of these, which a drive has until MODE SELECT, fresh and
 * mounted: it is run with both, and keeps the one that it is run with. EITHER is the length of no record. */
#define EITHER UINT32_MAX
static const uint32_t either_length[] = {0, MOUNTED_LENGTH};
#define WAITING(attention, position) LOADED(attention, position, EITHER)
#define AT(position) SET(EITHER, position)
#define TWO(current, position) {1, 2, current, ATTENTION_NONE, position, EITHER, OLD_SENSE}
#define UNLOADED EMPTY(EITHER)

/* As a mount leaves it, once its attention is told. */
#define MOUNTED(position) SET(MOUNTED_LENGTH, position)

/* ---- the call */

enum span { THE_RECORD, THE_COMMAND, PARTITION_0, PARTITION_1, THE_SENT, THE_RECEIVED, SPANS };
static const char *const span_names[SPANS] = {"record", "command", "partition 0", "partition 1", "sent", "received"};

/* The slices of a call, each as it is lent and as it must be left, and the whole answer. */
struct call {
    size_t length[SPANS];
    uint8_t *before[SPANS], *after[SPANS];
    uint64_t answer;
};

static unsigned long cases_run;

/* Makes room for a slice in both states. */
static inline void make_span(struct call *call, enum span span, size_t length)
{
    call->length[span] = length;
    call->before[span] = malloc(length + 1);
    call->after[span] = malloc(length + 1);
    if (call->before[span] == NULL || call->after[span] == NULL)
        abort();
}

/* A slice of these bytes, in both states. */
static inline void make_equal(struct call *call, enum span span, const uint8_t *bytes, size_t length)
{
    make_span(call, span, length);
    memcpy(call->before[span], bytes, length);
    memcpy(call->after[span], bytes, length);
}

static inline void make_tape(struct call *call, enum span span, enum cartridge cartridge)
{
    const struct tape *tape = &tapes[cartridge];
    make_span(call, span, tape->length);
    if (tape->length == 0)
        return;
    memset(call->before[span], tape->free, tape->length);
    lay_trailer(call->before[span], tape->length, 0, tape->flags);
    put_objects(call->before[span], tape->length, 0, tape->objects, NULL);
    memcpy(call->after[span], call->before[span], tape->length);
}

/* The thirty bytes, with what is told as the kept sense. */
static inline void lay_told(uint8_t *record, const struct drive *drive, const struct told *told)
{
    struct drive left = *drive;
    memcpy(left.sense, (uint8_t[SENSE_BYTES])EMPTY_SENSE, SENSE_BYTES);
    if (told->first != 0) {
        left.sense[STORMTOGGLE_SENSE_FIRST] = told->first;
        left.sense[STORMTOGGLE_SENSE_KEY] = TOLD_BYTE_2(told->number);
        put32(left.sense + STORMTOGGLE_SENSE_INFORMATION, told->information);
        left.sense[STORMTOGGLE_SENSE_ASC] = TOLD_ASC(told->number);
        left.sense[STORMTOGGLE_SENSE_ASCQ] = TOLD_ASCQ(told->number);
    }
    lay_drive(record, &left);
}

static inline void make_sent(struct call *call, const struct edge *edge)
{
    if (edge->list.length > 0) {
        make_equal(call, THE_SENT, edge->list.at, edge->list.length);
        return;
    }
    make_span(call, THE_SENT, edge->sent);
    lay_pattern(call->before[THE_SENT], edge->sent);
    lay_pattern(call->after[THE_SENT], edge->sent);
}

/* The slices as they are lent; what is left is the same until something is laid over it. */
static inline void make_lent(struct call *call, const struct edge *edge)
{
    uint8_t record[RECORD_BYTES + 8] = {0};
    lay_drive(record, &edge->before);
    make_equal(call, THE_RECORD, record, (size_t)(RECORD_BYTES - edge->cut));
    make_equal(call, THE_COMMAND, edge->command.at, edge->command.length);
    make_tape(call, PARTITION_0, edge->p0);
    make_tape(call, PARTITION_1, edge->p1);
    make_sent(call, edge);
    make_span(call, THE_RECEIVED, edge->room);
    memset(call->before[THE_RECEIVED], 0xa7, edge->room);
    memset(call->after[THE_RECEIVED], 0xa7, edge->room);
}

/* What the command makes of the current partition. */
static inline void change_tape(struct call *call, const struct edge *edge, enum span span)
{
    size_t length = call->length[span], from = edge->before.position, end, directory;
    uint8_t *image = call->after[span];
    if (edge->puts != NULL)
        put_objects(image, length, from, edge->puts, call->before[THE_SENT]);
    if (edge->erased == NOT_ERASED)
        return;
    end = end_at(image, length, from);
    lay_trailer(image, length, from, get_field(image, length, TRAILER_FLAGS));
    directory = get_field(image, length, TRAILER_D);
    if (edge->erased == CUT_AND_ZEROED)
        memset(image + end, 0, directory - end);
}

/* The whole answer of a command that is not refused. */
static inline uint64_t answer_wanted(const struct edge *edge)
{
    return (edge->carried + edge->data.length + edge->reads) | (uint64_t)(edge->told.first != 0) << ANSWER_STATUS |
           (uint64_t)edge->crossed << ANSWER_CROSSED;
}

/* What must be left of the slices that are lent. */
static inline void make_left(struct call *call, const struct edge *edge)
{
    enum span current = edge->before.current == 1 ? PARTITION_1 : PARTITION_0;
    call->answer = REFUSED(edge->refusal);
    if (edge->refusal != 0)
        return;
    call->answer = answer_wanted(edge);
    lay_told(call->after[THE_RECORD], &edge->after, &edge->told);
    memcpy(call->after[THE_RECEIVED], edge->data.at, edge->data.length);
    if (edge->reads > 0)
        memcpy(call->after[THE_RECEIVED],
               call->before[current] + end_at(call->before[current], call->length[current], edge->before.position),
               edge->reads);
    change_tape(call, edge, current);
}

static inline struct call call_of(const struct edge *edge)
{
    struct call call;
    make_lent(&call, edge);
    make_left(&call, edge);
    return call;
}

/* A slice as another call must leave it, in the place of the one that was made; the other call has none then. */
static inline void take_over(struct call *call, enum span span, struct call *left)
{
    free(call->before[span]);
    free(call->after[span]);
    free(left->before[span]);
    make_equal(call, span, left->after[span], left->length[span]);
    free(left->after[span]);
    left->before[span] = left->after[span] = NULL;
}

static inline uint64_t answer_of(uint8_t *const lent[SPANS], const size_t length[SPANS])
{
    return stormtoggle_command(lent[0], length[0], lent[1], length[1], lent[2], length[2], lent[3], length[3], lent[4],
                               length[4], lent[5], length[5]);
}

/* Every slice between canaries; an empty one is NULL if asked for. */
static inline void hold_to(const struct call *call, int empty_is_null, const char *what)
{
    uint8_t *rooms[SPANS], *lent[SPANS];
    for (int span = 0; span < SPANS; span++) {
        rooms[span] = lend(call->before[span], call->length[span]);
        lent[span] = empty_is_null && call->length[span] == 0 ? NULL : rooms[span];
    }
    expect_equal(answer_of(lent, call->length), call->answer, "answer, %s", what);
    for (int span = 0; span < SPANS; span++) {
        expect_bytes(rooms[span], call->after[span], call->length[span], "%s, %s", span_names[span], what);
        take_back(rooms[span], call->length[span]);
    }
}

/* A slice whose bytes stay gets no store, be it a partition, a buffer or the record of a refused call: each lies on
 * pages that cannot be written, unless it is changed. The record of another call may be written as it was. */
static inline uint64_t answer_read_only(const struct call *call)
{
    uint8_t *lent[SPANS];
    for (int span = 0; span < SPANS; span++) {
        size_t length = call->length[span];
        int stays = length > 0 && memcmp(call->before[span], call->after[span], length) == 0;
        int may_store = span == THE_RECORD && STORMTOGGLE_REFUSAL(call->answer) == 0;
        lent[span] = stays && !may_store ? sealed(call->before[span], length) : call->before[span];
    }
    return answer_of(lent, call->length);
}

static inline int agree_read_only(const struct call *calls, size_t count)
{
    size_t agree = 0;
    while (agree < count && answer_read_only(&calls[agree]) == calls[agree].answer)
        agree++;
    return agree == count;
}

/* The pages are the child's alone, and gone with it: a fork is slow where many are mapped, and slow at all, so that the
 * calls of a case have one. */
static inline void hold_read_only(const struct call *calls, size_t count, const char *what)
{
    expect_in_child(agree_read_only(calls, count), "on read-only pages, %s", what);
}

/* SPACE crosses what lies between the positions, and nothing else crosses, or the case itself is wrong. */
static inline void hold_crossed(const struct edge *edge, uint32_t from, const char *what)
{
    int is_space = edge->command.at[0] == SPACE || edge->command.at[0] == SPACE_16;
    uint32_t to = edge->refusal != 0 ? from : edge->after.position, distance = from < to ? to - from : from - to;
    expect_equal(edge->crossed, is_space ? distance : 0, "the case, objects crossed of %s", what);
}

/* A partition that is changed must be sound again, or the case itself is wrong. */
static inline void hold_sound(const struct call *call, const char *what)
{
    for (int span = PARTITION_0; span <= PARTITION_1; span++)
        if (memcmp(call->before[span], call->after[span], call->length[span]) != 0)
            expect(sound(call->after[span], call->length[span]), "the case, %s of %s", span_names[span], what);
}

static inline void free_call(struct call *call)
{
    for (int span = 0; span < SPANS; span++) {
        free(call->before[span]);
        free(call->after[span]);
    }
}

static inline void hold(const struct edge *edge, const struct call *call)
{
    char what[120];
    snprintf(what, sizeof what, "%s, from block length %u", edge->what, (unsigned)edge->before.block_length);
    hold_crossed(edge, edge->before.position, what);
    hold_sound(call, what);
    hold_to(call, 0, what);
    hold_to(call, 1, what);
    cases_run++;
}

/* The drive with a block length, where it names none. */
static inline struct drive with_length(struct drive drive, uint32_t block_length)
{
    if (drive.block_length == EITHER)
        drive.block_length = block_length;
    return drive;
}

static inline struct edge edge_with(struct edge edge, uint32_t block_length)
{
    edge.before = with_length(edge.before, block_length);
    edge.after = with_length(edge.after, block_length);
    return edge;
}

/* With how many lengths a case is run that begins with this drive. */
static inline size_t lengths_of(const struct drive *before)
{
    return before->block_length == EITHER ? COUNT(either_length) : 1;
}

static inline void run(const struct edge *edges, size_t count)
{
    for (const struct edge *edge = edges; edge < edges + count; edge++) {
        struct call calls[COUNT(either_length)];
        size_t lengths = lengths_of(&edge->before);
        for (size_t i = 0; i < lengths; i++) {
            struct edge named = edge_with(*edge, either_length[i]);
            calls[i] = call_of(&named);
            hold(&named, &calls[i]);
        }
        hold_read_only(calls, lengths, edge->what);
        for (size_t i = 0; i < lengths; i++)
            free_call(&calls[i]);
    }
}

/* One drive's calls: each finds the record and the partitions that the one before it left, which is where its drive
 * comes from; the first finds those of the call that is handed in, and the last one's are handed back in its place. */
static inline void run_in_turn(struct call *left, const struct edge *edges, size_t count)
{
    for (size_t i = 0; i < count; i++) {
        struct edge edge = edges[i];
        struct call call;
        edge.before = drive_of(left->after[THE_RECORD]);
        make_lent(&call, &edge);
        take_over(&call, PARTITION_0, left);
        take_over(&call, PARTITION_1, left);
        make_left(&call, &edge);
        hold(&edge, &call);
        hold_read_only(&call, 1, edge.what);
        free_call(left);
        *left = call;
    }
}

#endif
