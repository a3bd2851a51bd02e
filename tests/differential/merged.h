/* merged.h: pairs of SPACE and the one in their place, on small cartridges, held to the rule of Q-12. */
#ifndef MERGED_H
#define MERGED_H

#include "pairs.h"

/* ---- the counts */

/* Beside a bound at which a count, a sum or a residue no longer fits, and the one count of 24 bits without an opposite
 * among them. */
static inline int64_t far_count(void)
{
    static const uint8_t powers[] = {23, 23, 24, 31, 31, 32, 63};
    uint8_t power = powers[draw(COUNT(powers))];
    uint64_t count = (UINT64_C(1) << power) + draw(9) - 4;
    if (one_in(8))
        return -COUNT_SIGN;
    return (int64_t)(one_in(2) ? -count : count);
}

/* As much as there is to count from here, or less, on or back; 0 where there is nothing either way. */
static inline int64_t count_from_here(void)
{
    uint64_t most[2];
    int back = one_in(2);
    look();
    most[0] = seen_to_count(pair.of, 0);
    most[1] = seen_to_count(pair.of, 1);
    if (most[back] == 0)
        back = !back;
    return (back ? -1 : 1) * (int64_t)(most[back] == 0 ? 0 : 1 + draw(most[back]));
}

/* Mostly such that the move is GOOD, or not by little. */
static inline int64_t likely_count(void)
{
    switch (draw(16)) {
    case 0: return far_count();
    case 1: return 0;
    case 2: case 3: case 4: case 5: return (int64_t)draw(17) - 8;
    case 6: case 7: case 8: return (int64_t)draw(7) - 3;
    default: return count_from_here();
    }
}

/* At times the way home, and at times to a sum beside the bounds of 24 bits. */
static inline int64_t likely_second(int64_t a)
{
    int64_t beside = (one_in(2) ? COUNT_SIGN : -COUNT_SIGN) + (int64_t)draw(5) - 2;
    if (a != INT64_MIN && one_in(6))
        return -a;
    return fits_24_bits(a) && one_in(12) ? beside - a : likely_count();
}

/* ---- the calls */

/* By 24 bits only what they hold. */
static inline void set_move(struct move *move, int64_t count)
{
    move->code = fits_24_bits(count) && one_in(2) ? SPACE : SPACE_16;
    move->count = count;
    move->wrong = one_in(24) ? (one_in(2) ? TOO_SHORT : OUTSIDE_ITS_MASK) : LAWFUL;
}

static inline void keep_left(struct move *move)
{
    move->answer = answered_last;
    for (int slice = 0; slice < SLICES; slice++)
        memcpy(move->left[slice], bytes_of((enum slice)slice, LIBRARY), smaller(twins[slice].length, KEPT_BYTES));
}

static inline void make_move(struct move *move)
{
    size_t bytes = block_bytes(move->code);
    memset(block, 0, 20);
    block[0] = move->code;
    block[1] = pair.of;
    if (move->code == SPACE)
        set_count((uint64_t)move->count);
    else
        put64(block + AT_COUNT_16, (uint64_t)move->count);
    if (move->wrong == OUTSIDE_ITS_MASK)
        block[one_in(2) ? 1 : bytes - 1] |= (uint8_t)(0x10 << draw(4));
    lend_block(move->wrong == TOO_SHORT ? draw(bytes) : one_in(4) ? bytes + draw(8) : bytes);
    call_command();
    keep_left(move);
}

/* Up to eight objects; at times as many as fit, so that it ends in the zone, or near it. */
static inline void lay_small(enum slice slice)
{
    static const uint32_t filemarks[] = {0, 15, 40, 70};
    int is_full = one_in(4);
    place(slice, SHORTEST + draw(is_full ? 8 : 50));
    lay_image(slice, is_full ? 8 : draw(9), filemarks[draw(COUNT(filemarks))], is_full ? 9 : 3);
}

/* The buffers are of no use to a SPACE, and must stay. */
static inline void lay_pair_state(void)
{
    uint8_t none = ATTENTION_NONE;
    lay_small(P0);
    if (one_in(3))
        lay_small(P1);
    else
        place(P1, 0);
    lay_record(!one_in(16));
    if (!one_in(3))
        lay(RECORD, STORMTOGGLE_RECORD_ATTENTION, &none, 1);
    keep_state();
    place(SENT, draw(20));
    place(RECEIVED, draw(20));
    lay_noise(RECEIVED);
    memcpy(pair.record, kept.record, RECORD_BYTES);
}

static inline void make_two(void)
{
    lay_pair_state();
    pair.of = (uint8_t)draw(2);
    set_move(&pair.first, likely_count());
    make_move(&pair.first);
    set_move(&pair.second, likely_second(pair.first.count));
    make_move(&pair.second);
}

/* A sum that 24 bits do not hold goes by SPACE (16); the slip sends its low bits. */
static inline void make_one(int64_t a, int64_t b)
{
    set_move(&pair.one, a + b);
    if (FAULT == 122 && fits_24_bits(a) && fits_24_bits(b) && !fits_24_bits(a + b))
        pair.one.code = SPACE;
    lay_state_again();
    make_move(&pair.one);
}

/* A run that is over has not made all of its last pair's calls. */
static inline void run_pair(void)
{
    make_two();
    if (!sum_fits(pair.first.count, pair.second.count)) {
        note_pair(SUM_PAST_64_BITS, 1);
        return;
    }
    make_one(pair.first.count, pair.second.count);
    if (is_over())
        return;
    pairs.made++;
    count_pair();
    hold_to_the_rule();
}

/* Their draws are their own, so that the other work of a seed is what it is without them. */
static inline void run_merged(void)
{
    enum { PAIRS = 240 };
    static uint64_t draws;
    uint64_t others = random_state;
    random_state = draws == 0 ? ~seed : draws;
    for (int i = 0; i < PAIRS; i++)
        run_pair();
    draws = random_state;
    random_state = others;
}

#endif
