/* left_over.h: work right after a SPACE that crossed something, where a number left over from it would be told: a SPACE
 * that crosses nothing, is ended by a test or is refused, every other command, the house services. */
#ifndef LEFT_OVER_H
#define LEFT_OVER_H

#include "near_end.h"

/* ---- the SPACE */

/* On the current partition, which has objects then: on or back from anywhere, by either length, by what there is to
 * count, less or more. */
static inline void cross_some(unsigned current)
{
    enum slice slice = current == 0 ? P0 : P1;
    uint64_t count;
    int back;
    uint8_t code;
    if (objects_in(slice) == 0)
        lay_partition(slice, draw(ROOMS - 1));
    begin_in(current);
    back = seen.position == seen.tape.count || (seen.position > 0 && one_in(2));
    code = (uint8_t)(!back && one_in(3) ? TO_END_OF_DATA : draw(2));
    count = 1 + draw(seen_to_count(code, back) + 2);
    if (one_in(2))
        send(SPACE_16, code, back ? -count : count);
    else
        send(SPACE, code, back ? -count & COUNT_MOST : count);
    look();
}

/* ---- another SPACE */

/* The record of another drive, which has an attention to tell, nothing loaded, or what is wrong with it. */
static inline void take_turns(size_t at, uint8_t byte)
{
    lay(RECORD, at, &byte, 1);
}

static inline void take_turns_with_unloaded(void)
{
    static const uint8_t unloaded[STORMTOGGLE_RECORD_SENSE];
    lay(RECORD, 0, unloaded, sizeof unloaded);
}

/* By the record alone, by the position, or by the number of partitions lent: there the rest is as it was, so that the
 * SPACE had somewhere to go. */
static inline void refuse_by_drive(uint8_t code)
{
    uint8_t partitions = bytes_of(RECORD, MODEL)[STORMTOGGLE_RECORD_PARTITIONS];
    switch (draw(3)) {
    case 0: take_turns(STORMTOGGLE_RECORD_ATTENTION, 1 + ATTENTION_FRESH); break;
    case 1: take_turns(STORMTOGGLE_RECORD_POSITION, 1); break;
    default:
        take_turns(STORMTOGGLE_RECORD_PARTITIONS, 3 - partitions);
        take_turns(STORMTOGGLE_RECORD_CURRENT, 0);
        break;
    }
    send(code, one_in(2) ? TO_END_OF_DATA : FILEMARKS, 1 + draw(3));
}

static inline void send_space_after(enum aftermath aftermath, uint8_t code)
{
    uint8_t byte_1 = (uint8_t)(one_in(3) ? TO_END_OF_DATA : draw(2));
    switch (aftermath) {
    case CROSSED_NOTHING: send(code, (uint8_t)draw(2), 0); break;
    case MET_ATTENTION:
        take_turns(STORMTOGGLE_RECORD_ATTENTION, one_in(2) ? ATTENTION_FRESH : ATTENTION_MOUNTED);
        send(code, byte_1, draw(3));
        break;
    case MET_FIELD: send(code, one_in(2) ? 2 : 4 + draw(12), draw(3)); break;
    case MET_NO_CARTRIDGE:
        take_turns_with_unloaded();
        send(code, byte_1, draw(3));
        break;
    case REFUSED_BY_1:
        make_ready(code, byte_1, draw(3), 0);
        lend_block(block_bytes(code) - 1);
        call_command();
        break;
    default: refuse_by_drive(code); break;
    }
}

/* ---- other calls */

static inline void send_other(uint8_t code, size_t length)
{
    set_block(code);
    lend_block(length);
    lend_buffers();
    call_command();
}

static inline void call_house(enum service service)
{
    switch (service) {
    case FRESH: call_fresh(); break;
    case BLANK: call_blank(either_partition()); break;
    case MOUNT:
        take_turns_with_unloaded();
        call_mount();
        break;
    case PROTECT: call_protect(); break;
    default: call_view(); break;
    }
}

/* ---- the work */

static inline void run_after_space(unsigned current)
{
    for (int aftermath = 0; aftermath < AFTERMATHS; aftermath++) {
        cross_some(current);
        send_space_after((enum aftermath)aftermath, SPACE);
        cross_some(current);
        send_space_after((enum aftermath)aftermath, SPACE_16);
    }
    for (size_t i = 0; i < COUNT(all_served); i++) {
        uint8_t code = all_served[i].code;
        if (is_space(code))
            continue;
        cross_some(current);
        send_other(code, block_bytes(code));
    }
    cross_some(current);
    send_other(one_in(2) ? LOCATE : READ, BYTES_6 - 1);
    for (int service = 0; service < A_COMMAND; service++) {
        cross_some(current);
        call_house((enum service)service);
    }
}

/* In either partition. */
static inline void run_left_over(void)
{
    lay_partition(P0, draw(ROOMS - 1));
    lay_partition(P1, draw(ROOMS - 1));
    run_after_space(0);
    run_after_space(1);
}

#endif
