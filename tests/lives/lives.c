/* lives.c SEED CALLS: random lives of cartridges, each beside a plain list of puts and cuts that is kept by the words
 * of demand 3 alone; after every call, views and reads are held to what stands by that list. */
#define _DEFAULT_SOURCE
#include "compare.h"
#include "work.h"

/* Mostly small, so that it fills up and objects are few; at times with room for one to three blocks of the length that
 * a mount sets, or a byte or two beside that, and for the largest blocks. */
static size_t likely_image_length(void)
{
    uint32_t kind = draw(200);
    if (kind < 60)
        return SHORTEST + draw(64);
    if (kind < 130)
        return SHORTEST + draw(200);
    if (kind < 184)
        return 200 + draw(500);
    if (kind < 191)
        return 700 + draw(3300);
    if (kind < 194)
        return (size_t)near(TRAILER + (1 + draw(3)) * (uint64_t)(ENTRY + MOUNTED_LENGTH));
    return 132000 + draw(9000);
}

/* One life in so many has room for the largest block, and is short: each of its calls takes the time of many others. */
enum { LIVES_TO_A_VAST_ONE = 64 };

static int is_vast_life(void)
{
    return reached.lives % LIVES_TO_A_VAST_ONE == LIVES_TO_A_VAST_ONE / 2;
}

static size_t image_length(unsigned partition)
{
    if (partition > 0 || !is_vast_life())
        return likely_image_length();
    return TRAILER + ENTRY + LARGEST_BLOCK + draw(one_in(2) ? 8 : 1 << 17);
}

static void begin_life(void)
{
    reached.lives++;
    life_is_over = 0;
    partitions = 1 + draw(2);
    drives = 1 + draw(DRIVES);
    latest = (struct call){.kind = BLANK, .loan = whole_cartridge()};
    for (unsigned i = 0; i < partitions; i++) {
        lend_ours(&ours[i], image_length(i));
        latest.answer = stormtoggle_blank(ours[i].image, ours[i].length);
        if (latest.answer != DONE)
            mismatch("partition %u of %zu bytes is not made blank", i, ours[i].length);
    }
    for (int i = 0; i < HOLDERS; i++) {
        lend_record(&holders[i]);
        stormtoggle_fresh(holders[i].record, RECORD_BYTES);
    }
    make_odd();
    happens(partitions == 1 ? LIVES_OF_ONE : LIVES_OF_TWO, 1);
    happens(LONG_LIVES, is_long(&ours[0]) || (partitions == 2 && is_long(&ours[1])));
    happens(VAST_LIVES, is_vast_life());
}

/* The canaries around all that was lent are looked at here. */
static void end_life(void)
{
    for (unsigned i = 0; i < partitions; i++)
        take_tape_back(&ours[i]);
    for (int i = 0; i < HOLDERS; i++)
        take_back(holders[i].record, holders[i].room);
    look_at_canaries(receive_room, RECEIVE_ROOM);
    look_at_reading();
}

/* So that it is reached whatever is drawn then: by a variable WRITE, and by a FIXED one in every second such life. */
static void begin_with_the_largest(void)
{
    static const uint8_t list[MODE_BYTES] = {
        [AT_DESCRIPTOR] = MODE_DESCRIPTOR, [AT_BLOCK_LENGTH] = LARGEST_BLOCK >> 16};
    struct holder *by = &holders[0];
    struct slice nothing = {NULL, 0}, block = {some_noise(LARGEST_BLOCK), LARGEST_BLOCK};
    int is_fixed = reached.lives / LIVES_TO_A_VAST_ONE % 2 == 1;
    call_mount(by, whole_cartridge(), SIZE_MAX);
    plain_command(by, (struct bytes)SIX(TEST_UNIT_READY, 0, 0), nothing);
    if (is_fixed)
        plain_command(by, (struct bytes)SIX(MODE_SELECT, PF, MODE_BYTES), (struct slice){list, MODE_BYTES});
    plain_command(by, (struct bytes)SIX(WRITE, is_fixed ? FIXED : 0, is_fixed ? 1 : LARGEST_BLOCK), block);
}

static void live(void)
{
    unsigned long calls;
    begin_life();
    calls = is_vast_life() ? 60 : 150 + draw(350);
    if (!life_is_over && is_vast_life())
        begin_with_the_largest();
    if (!life_is_over)
        compare();
    for (unsigned long call = 1; call <= calls && !life_is_over && !is_over(); call++) {
        likely_call();
        if (!life_is_over)
            compare();
        if (!life_is_over && call % 64 == 0)
            read_lists_whole();
    }
    if (!life_is_over)
        read_lists_whole();
    end_life();
}

int main(int arguments, char **argument)
{
    if (arguments != 3) {
        printf("lives SEED CALLS\n");
        return 2;
    }
    seed = strtoull(argument[1], NULL, 10);
    reached.wanted = strtoul(argument[2], NULL, 10);
    random_state = seed;
    make_noise();
    receive_room = lend(noise, RECEIVE_ROOM);
    lend_for_reading();
    for (int i = 0; i < 2; i++)
        lend_tape(&foreign[i], SHORTEST);
    while (!is_over())
        live();
    return report();
}
