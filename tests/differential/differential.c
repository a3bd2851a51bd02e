/* differential.c SEED CALLS [largest]: the library held to the model of documents 01 and 02, call by call, on seeded
 * random work. With the largest, bytes carried and zeroed come near 2^30, which takes 3 GiB of memory. */
#define _DEFAULT_SOURCE
#include "asking.h"
#include "large.h"
#include "left_over.h"
#include "report.h"

/* ---- sequences from a blank cartridge */

/* Mostly small, where the zone and the end are near; at times large enough for blocks of 65,536 bytes and more. Where
 * sixteen divides the length, room can lie on the zone's very bound. */
static size_t likely_image_length(void)
{
    uint32_t kind = draw(200);
    if (kind < 40)
        return SHORTEST + ZONE_SHARE * draw(8);
    if (kind < 80)
        return SHORTEST + draw(20);
    if (kind < 120)
        return SHORTEST + draw(100);
    if (kind < 165)
        return 128 + draw(500);
    if (kind < 190)
        return 500 + draw(4000);
    if (kind < 198)
        return 4000 + draw(20000);
    return 66000 + draw(240000);
}

static void run_sequence(void)
{
    size_t lengths[2] = {likely_image_length(), one_in(2) ? likely_image_length() : 0};
    place(P0, lengths[0]);
    place(P1, lengths[1]);
    place(RECORD, RECORD_BYTES);
    lay_noise(P0);
    lay_noise(P1);
    call_blank(P0);
    call_blank(P1);
    call_fresh();
    run_calls(50 + draw(140));
}

/* ---- one byte off, at every field */

static void call_any_service(void)
{
    switch (draw(5)) {
    case 0: call_mount(); break;
    case 1: call_protect(); break;
    case 2: call_view(); break;
    default: likely_command(); break;
    }
}

static void run_with_byte_off(enum slice slice, size_t at)
{
    const uint8_t changes[] = {1, 0xff, (uint8_t)(1 << draw(8)), (uint8_t)(1 + draw(255))};
    for (size_t i = 0; i < COUNT(changes); i++) {
        uint8_t byte = (uint8_t)(bytes_of(slice, MODEL)[at] + changes[i]);
        lay(slice, at, &byte, 1);
        look();
        likely_command();
        call_any_service();
        lay_state_again();
    }
}

static void run_bytes_off(void)
{
    lay_state();
    for (size_t at = 0; at < RECORD_BYTES; at++)
        run_with_byte_off(RECORD, at);
    for (enum slice slice = P0; slice <= P1; slice++) {
        size_t length = twins[slice].length;
        for (size_t back = 1; length > 0 && back <= TRAILER + ENTRY * objects_of(slice); back++)
            run_with_byte_off(slice, length - back);
    }
}

/* ---- an operation code, bit by bit and length by length */

static void call_with_block(size_t length)
{
    lend_block(length);
    lend_buffers();
    call_command();
    lay_state_again();
}

/* A bit alone, and a bit turned in a block that is mostly lawful; a code not served has no such block. */
static void run_code(uint8_t code)
{
    lay_state();
    look();
    for (unsigned bit = 0; bit < 20 * 8; bit++) {
        for (int lawful = 0; lawful <= (served_as(code) != NULL); lawful++) {
            memset(block, 0, 20);
            block[0] = code;
            if (lawful)
                set_block(code);
            block[bit / 8] ^= (uint8_t)(1 << bit % 8);
            call_with_block(20);
        }
    }
    reached.codes_run++;
    for (size_t length = 0; length <= 20; length++) {
        set_block(code);
        call_with_block(length);
    }
}

/* ---- bytes and lengths at random */

static void run_noise(void)
{
    for (int calls = 0; calls < 40; calls++) {
        for (int slice = 0; slice < SLICES; slice++) {
            place((enum slice)slice, one_in(4) ? 0 : draw(110));
            lay_noise((enum slice)slice);
        }
        if (one_in(2))
            lay_record(0);
        look();
        switch (draw(8)) {
        case 0: call_fresh(); break;
        case 1: call_blank(either_partition()); break;
        case 2: call_mount(); break;
        case 3: call_protect(); break;
        case 4: call_view(); break;
        default: make_call((struct call){.service = A_COMMAND}); break;
        }
    }
}

/* ---- more objects than 16 bits count */

static void run_many_objects(void)
{
    size_t counts[] = {65530 + draw(12), 70000 + draw(20000), 100001 + draw(20000)};
    size_t count = counts[draw(COUNT(counts))], spare = one_in(2) ? draw(60) : draw(30000);
    place(P0, one_in(2) ? 0 : SHORTEST + draw(100));
    place(P1, TRAILER + ENTRY * count + spare);
    lay_image(P1, count, 100, 1);
    if (twins[P0].length > 0) {
        lay_image(P0, 3, 50, 9);
    } else {
        /* The one partition that there is. */
        place(P0, TRAILER + ENTRY * count + spare);
        lay_image(P0, count, one_in(2) ? 100 : 99, 3);
        place(P1, 0);
    }
    lay_record(0);
    call_mount();
    run_calls(40);
}

/* ---- more bytes lent than 32 bits count */

/* With room for some blocks of the length that is set, or for none. */
static void lay_wide_image(uint32_t block_length)
{
    if (block_length == LARGEST_BLOCK && one_in(2)) {
        place(P0, LARGEST_BLOCK + 3000 + draw(LARGEST_BLOCK));
        call_blank(P0);
    } else {
        place(P0, one_in(2) ? 3000 + draw(3000) : 140000 + draw(70000));
        lay_image(P0, draw(4), 10, 1);
    }
    place(P1, 0);
}

/* READ and WRITE of 2^32 bytes and a little more, lent in full or a byte short; only touched pages take memory. */
static void run_wide(void)
{
    static struct twin wide_sent, wide_received;
    struct twin sent, received;
    if (wide_sent.room_length == 0) {
        wide_sent = sparse_twin(beyond_32_bits);
        wide_received = sparse_twin(beyond_32_bits);
    }
    take_large_rooms();
    sent = twins[SENT];
    received = twins[RECEIVED];
    for (int calls = 0; calls < 12; calls++) {
        uint32_t lengths[] = {LARGEST_BLOCK, LARGEST_BEFORE, 257 + draw(2000)}, block_length = lengths[calls % 3];
        uint64_t count = BEYOND_32_BITS / block_length + draw(3), bytes = count * block_length;
        uint8_t record[RECORD_BYTES] = {[STORMTOGGLE_RECORD_LOADED] = 1, [STORMTOGGLE_RECORD_PARTITIONS] = 1};
        lay_wide_image(block_length);
        put32(record + STORMTOGGLE_RECORD_BLOCK_LENGTH, block_length);
        place(RECORD, RECORD_BYTES);
        lay(RECORD, 0, record, RECORD_BYTES);
        look();
        twins[SENT] = wide_sent;
        twins[RECEIVED] = wide_received;
        twins[SENT].length = twins[RECEIVED].length = (size_t)bytes - one_in(4);
        for (int i = 0; i < 6; i++) {
            set_block(i == 0 ? WRITE : i == 1 ? REWIND : i == 2 || one_in(2) ? READ : WRITE);
            block[1] = block[0] != REWIND ? FIXED : 0;
            if (block[0] != REWIND)
                set_count(count);
            lend_block(BYTES_6);
            reached.wide_done += STORMTOGGLE_REFUSAL(call_command()) == 0 && block[0] != REWIND;
        }
        twins[SENT] = sent;
        twins[RECEIVED] = received;
    }
    exchange_rooms();
}

int main(int arguments, char **argument)
{
    if (arguments < 3 || arguments > 4 || (arguments == 4 && strcmp(argument[3], "largest") != 0)) {
        printf("differential SEED CALLS [largest]\n");
        return 2;
    }
    seed = strtoull(argument[1], NULL, 10);
    reached.wanted = strtoul(argument[2], NULL, 10);
    random_state = seed;
    map_twins();
    catch_faults(on_fault);
    reached.with_largest = arguments == 4;
    for (unsigned round = 0; !is_over(); round++) {
        for (int sequences = 0; sequences < 8; sequences++)
            run_sequence();
        run_code((uint8_t)round);
        run_bytes_off();
        run_noise();
        run_asking();
        if (round % 4 == 0)
            run_merged();
        if (round % 8 == 0)
            run_near_end();
        if (round % 8 == 4)
            run_mounted();
        if (round % 4 == 2)
            run_large();
        if (round % 16 == 0) {
            run_left_over();
            run_many_objects();
        }
        if (round % 64 == 0)
            run_wide();
        /* Once, and not first: a slip that any cartridge shows is found without it. */
        if (round == 1)
            run_vast(reached.with_largest);
    }
    return report();
}
