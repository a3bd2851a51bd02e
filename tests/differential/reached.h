/* reached.h: what the calls have reached, counted by the model's answers. */
#ifndef REACHED_H
#define REACHED_H

#include "sizes.h"

enum service { FRESH, BLANK, MOUNT, PROTECT, VIEW, A_COMMAND, SERVICES };
static const char *const service_names[] = {"fresh", "blank", "mount", "protect", "view", "command"};

struct call {
    enum service service;
    enum slice image;  /* of blank and protect */
    uint64_t number_1; /* on, or the view's partition */
    uint64_t number_2; /* the view's object */
    int empty_is_null;
};

static struct call latest;
static uint8_t record_before[64];

/* The slices that this call may not store to: the library has them on pages that cannot be written. */
static int sealed[SLICES];

/* Numbers whose width could be cut on the way: counted by how many bits hold one less, so that a number above 2^16 is
 * one of more than 16 bits. */
enum width {
    WIDE_N, WIDE_POSITION, WIDE_FILEMARKS, WIDE_FIXED, WIDE_BLOCK, WIDE_CARRIED, WIDE_ZEROED, WIDE_ROOM, WIDE_START,
    WIDE_OBJECT, WIDE_FILE, WIDE_SPACE, WIDE_END_ROOM, WIDE_CROSSED, WIDE_CROSSED_16, WIDTHS
};
enum { WIDEST = 65 };

static struct {
    unsigned long calls, wanted, mismatches, services[SERVICES], refusals[SERVICES][BY_MOST + 1];
    unsigned long good[256], check[256], refused[256], read_only[256]; /* by operation code */
    unsigned long sense[16][256][256];                                 /* by key, ASC and ASCQ */
    unsigned long widths[WIDTHS][WIDEST];
    unsigned long views_found, null_slices, puts_nothing, receives_nothing, refused_records, beside;
    unsigned long wide_products, wide_done, largest_blocks, codes_run, after_space[SERVICES];
    int with_largest;
} reached;

static inline void note_width(enum width width, uint64_t number)
{
    unsigned bits = 0;
    for (uint64_t rest = number == 0 ? 0 : number - 1; rest > 0; rest >>= 1)
        bits++;
    reached.widths[width][bits]++;
}

/* ---- the drive and its cartridge after the call */

static inline uint32_t told_in(const uint8_t *record)
{
    return told_in_sense(record + STORMTOGGLE_RECORD_SENSE);
}

/* Of LOCATE (16) and SPACE (16) that came just where they were sent. */
static inline void count_wide_move(const uint8_t *block)
{
    uint64_t number = get64(block + AT_IDENTIFIER);
    if (block[0] == SPACE_16 && block[1] != TO_END_OF_DATA)
        note_width(WIDE_SPACE, number >> 63 == 0 ? number : -number);
    if (block[0] == LOCATE_16 && (block[1] & DESTINATION) == TO_OBJECT)
        note_width(WIDE_OBJECT, number);
    if (block[0] == LOCATE_16 && (block[1] & DESTINATION) == TO_FILE)
        note_width(WIDE_FILE, number);
}

/* Of a command that found its cartridge and was not refused; carried is what the answer says. */
static inline void count_cartridge(const uint8_t *block, uint64_t carried)
{
    const uint8_t *record = bytes_of(RECORD, MODEL);
    enum slice current = record[STORMTOGGLE_RECORD_CURRENT] == 0 ? P0 : P1;
    uint64_t position = get32(record + STORMTOGGLE_RECORD_POSITION), room = room_in(current, position);
    note_width(WIDE_N, get32(bytes_of(current, MODEL) + twins[current].length - TRAILER_N));
    note_width(WIDE_POSITION, get32(record_before + STORMTOGGLE_RECORD_POSITION));
    if (block[0] == READ_POSITION && carried > 0)
        note_width(WIDE_ROOM, room * ZONE_SHARE);
    if (is_end_of_data(told_in(record)))
        note_width(WIDE_END_ROOM, room * ZONE_SHARE);
    if (block[0] == READ_POSITION && carried == LONG_BYTES)
        note_width(WIDE_FILEMARKS, get32(bytes_of(RECEIVED, MODEL) + LONG_FILEMARKS));
    if (block[0] == READ || block[0] == WRITE) {
        note_width(WIDE_CARRIED, carried);
        if (is_fixed(block) && carried > 0)
            note_width(WIDE_FIXED, count_of(block));
    }
    if (block[0] == ERASE && block[1] & LONG && told_in(record) == TOLD_GOOD)
        note_width(WIDE_ZEROED, room);
    if (is_long_move(block[0]) && told_in(record) == TOLD_GOOD)
        count_wide_move(block);
}

/* ---- the call */

static inline void count_sealed(const uint8_t *block, unsigned refusal)
{
    const uint8_t *record = bytes_of(RECORD, MODEL);
    int current = record_before[STORMTOGGLE_RECORD_CURRENT] == 0 ? P0 : P1;
    int writes = block[0] == WRITE || block[0] == WRITE_FILEMARKS;
    reached.refused_records += refusal != 0 && sealed[RECORD];
    reached.receives_nothing += refusal == 0 && sealed[RECEIVED];
    if (refusal != 0 || record_before[STORMTOGGLE_RECORD_LOADED] == 0)
        return;
    reached.read_only[block[0]] += (unsigned long)sealed[current];
    reached.beside += (unsigned long)sealed[P0 + P1 - current];
    reached.puts_nothing +=
        sealed[current] && writes && (told_in(record) == TOLD_GOOD || told_in(record) == TOLD_OVERFLOW);
}

static inline void count_command(unsigned refusal, uint64_t answer)
{
    const uint8_t *block = bytes_of(COMMAND, MODEL), *record = bytes_of(RECORD, MODEL);
    uint32_t told = refusal == 0 ? told_in(record) : TOLD_GOOD;
    uint64_t crossed = count_crossing(block, refusal, told, record_before, record);
    crossings.just_before = crossed;
    count_sealed(block, refusal);
    count_length(block, refusal, told, STORMTOGGLE_CARRIED(answer), record_before, record);
    count_asking(block, refusal, told, record_before);
    count_size(block, refusal, told, STORMTOGGLE_CARRIED(answer), record_before, record);
    if (refusal != 0) {
        reached.refused[block[0]]++;
        note_move(ONE_BYTE_SHORT, is_long_move(block[0]) && twins[COMMAND].length == BYTES_16 - 1);
        return;
    }
    if (crossed > 0)
        note_width(block[0] == SPACE ? WIDE_CROSSED : WIDE_CROSSED_16, crossed);
    if (is_long_move(block[0]))
        count_move(block, told, record_before, record);
    note_width(WIDE_BLOCK, twins[COMMAND].length);
    if (record[STORMTOGGLE_RECORD_LOADED]) {
        count_cartridge(block, STORMTOGGLE_CARRIED(answer));
        count_end(block, told, record_before, record);
    }
    if (STORMTOGGLE_STATUS(answer) == STORMTOGGLE_GOOD) {
        reached.good[block[0]]++;
        return;
    }
    reached.check[block[0]]++;
    reached.sense[TOLD_KEY(told)][TOLD_ASC(told)][TOLD_ASCQ(told)]++;
}

static inline void count_reached(uint64_t answer)
{
    unsigned refusal = latest.service == VIEW ? 0 : STORMTOGGLE_REFUSAL(answer);
    look_at_source(record_before);
    reached.services[latest.service]++;
    reached.refusals[latest.service][refusal]++;
    reached.after_space[latest.service] += crossings.just_before > 0 && refusal == 0;
    if (latest.service == VIEW && answer != 0) {
        reached.views_found++;
        note_width(WIDE_START, STORMTOGGLE_VIEW_START(answer));
        if (size_of(STORMTOGGLE_VIEW_LENGTH(answer)) < SIZES)
            note_size(BLOCK_VIEWED, size_of(STORMTOGGLE_VIEW_LENGTH(answer)), 1);
    }
    for (int i = 0; i < SLICES; i++)
        reached.null_slices += latest.empty_is_null && twins[i].length == 0;
    if (latest.service == A_COMMAND && twins[COMMAND].length > 0 && twins[RECORD].length > 0) {
        count_command(refusal, answer);
    } else {
        crossings.just_before = 0;
        senses.form_behind = FORMS;
    }
    if (latest.service == MOUNT && twins[RECORD].length == RECORD_BYTES) {
        count_mount(refusal, record_before, bytes_of(RECORD, MODEL));
        count_sized_mount(refusal, record_before);
    }
    if (latest.service == FRESH)
        mounts.source = FROM_ELSEWHERE;
    keep_source(bytes_of(RECORD, MODEL));
}

#endif
