/* asking.h: work on REQUEST SENSE in both forms: every allocation and buffer, under each attention, over any eighteen
 * bytes kept, and with bits of byte 1 that are none of its mask. */
#ifndef ASKING_H
#define ASKING_H

#include "near_end.h"
#include "state.h"

/* ---- the drive */

/* Eighteen bytes as no command leaves them, some of them as one does; VALID or not. */
static inline void lay_kept(int valid)
{
    uint8_t sense[SENSE_BYTES];
    memcpy(sense, noise + draw(1000), SENSE_BYTES);
    switch (draw(8)) {
    case 0: memset(sense, valid ? 0xff : 0x00, SENSE_BYTES); break;
    case 1: memset(sense, valid ? 0x80 : 0x7f, SENSE_BYTES); break;
    case 2: memcpy(sense, nothing_told, SENSE_BYTES); break;
    case 3: sense[STORMTOGGLE_SENSE_FIRST] = STORMTOGGLE_VALID; break;
    case 4: sense[STORMTOGGLE_SENSE_KEY] ^= 0x10; break;
    default: sense[STORMTOGGLE_SENSE_INFORMATION] ^= 0x80; break;
    }
    sense[STORMTOGGLE_SENSE_FIRST] = (uint8_t)((sense[STORMTOGGLE_SENSE_FIRST] & ~VALID_BIT) | valid * VALID_BIT);
    lay(RECORD, STORMTOGGLE_RECORD_SENSE, sense, SENSE_BYTES);
}

static inline void begin_asking(void)
{
    if (one_in(2)) {
        lay_record(0);
        return;
    }
    lay_partition(P0, draw(ROOMS));
    place(P1, 0);
    begin_in(0);
}

/* ---- the calls */

/* The allocations by turns: each up to 30, the last of all, and any other. */
enum { TURNS_OF_ALLOCATION = EACH_UP_TO + 3 };
static inline uint8_t allocation_in_turn(unsigned turn)
{
    if (turn <= EACH_UP_TO)
        return (uint8_t)turn;
    return (uint8_t)(turn == EACH_UP_TO + 1 ? ALLOCATION_MOST : draw(256));
}

static inline size_t length_in_turn(enum buffer buffer, size_t need)
{
    switch (buffer) {
    case JUST_ENOUGH: return need;
    case ONE_SHORT: return need == 0 ? 0 : need - 1;
    default: return need + 1 + draw(20);
    }
}

static inline void lay_attention(unsigned turn)
{
    static const uint8_t attentions[] = {ATTENTION_NONE, ATTENTION_MOUNTED, ATTENTION_FRESH};
    lay(RECORD, STORMTOGGLE_RECORD_ATTENTION, &attentions[turn % COUNT(attentions)], 1);
}

/* The next of all that there are together: form, VALID, attention, buffer and allocation. */
static inline void ask_next(void)
{
    static unsigned turns;
    unsigned turn = turns++;
    enum buffer buffer = (enum buffer)(turn / 12 % BUFFERS);
    struct session asked;
    lay_kept((int)(turn / 2 % 2));
    lay_attention(turn / 4);
    memset(block, 0, 20);
    block[0] = REQUEST_SENSE;
    block[1] = (uint8_t)(turn % FORMS == DESC_FORM ? DESC : 0);
    block[AT_ALLOCATION] = allocation_in_turn(turn / 36 % TURNS_OF_ALLOCATION);
    lend_block(BYTES_6);
    asked = session_with(block);
    lend_received(length_in_turn(buffer, (size_t)bytes_to_hand_over(&asked)));
    call_command();
}

/* With a bit of byte 1 that is not in the mask, and then as it should be: an attention still waits. */
static inline void ask_wrongly(void)
{
    lay_kept((int)draw(2));
    lay_attention(draw(3));
    set_block(REQUEST_SENSE);
    block[1] |= (uint8_t)(2 << draw(7));
    lend_block(BYTES_6);
    lend_received(draw(40));
    call_command();
    likely_command_of(REQUEST_SENSE);
}

/* ---- the work */

/* Its draws are its own, so that the other work of a seed is what it is without it. */
static inline void run_asking(void)
{
    enum { CALLS = 12 };
    static uint64_t draws;
    uint64_t others = random_state;
    random_state = draws == 0 ? seed ^ UINT64_C(0x5555555555555555) : draws;
    begin_asking();
    for (int i = 0; i < CALLS; i++)
        ask_next();
    ask_wrongly();
    draws = random_state;
    random_state = others;
}

#endif
