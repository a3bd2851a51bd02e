/* work.h: one random call after another on the cartridge of a life, under records that take turns. */
#ifndef WORK_H
#define WORK_H

#include "calls.h"

/* ---- what the drive is in, looked up so that most of the work is to the point */

static struct {
    uint32_t position, objects, block_length;
    uint64_t room; /* at the position; 0 if the partition is unsound */
    int is_long, is_vast;
} seen;

static inline void look(const struct holder *by, struct loan loan)
{
    struct drive drive = drive_of(by->record);
    const struct tape *tape = loan.at[drive.current == 1];
    seen.position = drive.position;
    seen.block_length = drive.block_length;
    seen.objects = 0;
    seen.room = 0;
    seen.is_long = tape != NULL && is_long(tape);
    seen.is_vast = tape != NULL && is_vast(tape);
    if (tape == NULL || !sound(tape->image, tape->length))
        return;
    seen.objects = get_field(tape->image, tape->length, TRAILER_N);
    if (seen.position > seen.objects)
        seen.position = seen.objects;
    seen.room = tape->length - TRAILER - ENTRY * (uint64_t)seen.position;
    seen.room -= end_at(tape->image, tape->length, seen.position);
}

/* ---- the numbers in a command block */

/* Where there is room for more than a few bytes: the largest block, which had 65,536 bytes once, about that, or any. */
static inline uint64_t long_length(void)
{
    uint32_t largest = seen.is_vast ? LARGEST_BLOCK : FORMER_LARGEST;
    switch (draw(4)) {
    case 0: return largest;
    case 1: return near(largest);
    case 2: return 1 + draw(largest);
    default: return 1 + draw(seen.is_vast ? LARGEST_BLOCK / 2 : 2 * FORMER_LARGEST);
    }
}

/* Lengths that fit, that just fit, and that do not. */
static inline uint64_t write_length(void)
{
    switch (draw(14)) {
    case 0: return near(less(seen.room, ENTRY));
    case 1: return draw(seen.room + 8);
    case 2: return one_in(3) ? 0 : near(one_in(2) ? LARGEST_BLOCK : FORMER_LARGEST);
    case 3: case 4: return draw(seen.room / 3 + 2);
    case 5: return seen.block_length;
    case 6: case 7: return seen.is_long ? long_length() : 1 + draw(4);
    case 8: return one_in(4) ? draw(1 << COUNT_BITS) : 1;
    default: return 1 + draw(16);
    }
}

/* Of objects that take so many bytes each. */
static inline uint64_t object_count(uint64_t each)
{
    switch (draw(16)) {
    case 0: return one_in(2) ? near(seen.room / each) : draw(seen.room / each + 2);
    case 1: return one_in(4) ? draw(1 << COUNT_BITS) : 0;
    default: return 1 + draw(4);
    }
}

static inline uint64_t read_length(int fixed)
{
    if (one_in(30))
        return draw(1 << COUNT_BITS);
    return fixed ? draw(5) : one_in(3) ? LARGEST_BLOCK : draw(40);
}

/* ---- command blocks */

static uint8_t mode_list[256]; /* what MODE SELECT sends */

static inline void set_count(uint64_t count)
{
    uint8_t *block = latest.block.at;
    put32(block + AT_COUNT - 1, (uint32_t)block[AT_COUNT - 1] << COUNT_BITS | (uint32_t)(count & COUNT_MOST));
}

static inline void set_mode_select(void)
{
    static const uint32_t lengths[] = {
        0, 0, 1, 2, 3, 4, 7, 12, 30, 100, 512, MOUNTED_LENGTH, FORMER_LARGEST, LARGEST_BLOCK, LARGEST_BLOCK + 1};
    uint32_t length = seen.is_long && one_in(2) ? (uint32_t)long_length() : lengths[draw(COUNT(lengths))];
    uint8_t *block = latest.block.at;
    block[1] = one_in(20) ? 0 : PF;
    block[AT_ALLOCATION] = (uint8_t)(one_in(12) ? draw(256) : one_in(8) ? MODE_HEADER : MODE_BYTES);
    memset(mode_list, 0, sizeof mode_list);
    mode_list[0] = (uint8_t)draw(256);
    mode_list[AT_DESCRIPTOR] = block[AT_ALLOCATION] == MODE_BYTES ? MODE_DESCRIPTOR : 0;
    put32(mode_list + AT_BLOCK_LENGTH - 1, length);
    if (one_in(12))
        mode_list[draw(MODE_BYTES)] ^= (uint8_t)(1 << draw(8));
}

static inline void set_locate(void)
{
    uint8_t *block = latest.block.at;
    uint64_t object = one_in(4) ? near(seen.objects) : draw(seen.objects + 1);
    block[1] = (uint8_t)(draw(2) | (one_in(3) ? CP : 0));
    put32(block + AT_OBJECT, (uint32_t)(one_in(12) ? draw_64() : object));
    block[AT_PARTITION] = (uint8_t)(one_in(12) ? draw(256) : draw(2));
}

/* The destinations that are served, seldom another, and identifiers that are past the end by their high bytes alone. */
static inline void set_locate_16(void)
{
    static const uint8_t served[] = {TO_OBJECT, TO_OBJECT, TO_FILE, TO_FILE, TO_END};
    uint8_t *block = latest.block.at;
    uint64_t number = one_in(4) ? near(seen.objects) : draw(seen.objects + 1);
    block[1] = (uint8_t)(draw(2) | (one_in(3) ? CP : 0));
    block[1] |= one_in(20) ? (uint8_t)DESTINED(draw(DESTINATIONS)) : served[draw(COUNT(served))];
    block[AT_PARTITION_16] = (uint8_t)(one_in(12) ? draw(256) : draw(2));
    put64(block + AT_IDENTIFIER, one_in(12) ? draw_64() : one_in(16) ? BEYOND_32_BITS + number : number);
}

/* A mostly lawful block of a served code; all else of it is 0. FIXED is rare where it is a field error, and where there
 * is no room for a block of the length that is set, as on most cartridges there is none for that of a mount. */
static inline void set_block(uint8_t code)
{
    uint8_t *block = latest.block.at;
    int fits = seen.block_length <= seen.room || seen.is_long;
    int fixed = seen.block_length == 0 ? one_in(30) : one_in(fits ? 2 : 10);
    memset(block, 0, sizeof latest.block.at);
    block[0] = code;
    switch (code) {
    case REWIND: block[1] = (uint8_t)draw(2); break;
    case REQUEST_SENSE:
        block[1] = one_in(2) ? DESC : 0;
        block[AT_ALLOCATION] = (uint8_t)draw(40);
        break;
    case READ:
        block[1] = (uint8_t)(fixed ? FIXED : one_in(3) ? SILI : 0);
        set_count(read_length(fixed));
        break;
    case WRITE:
        block[1] = (uint8_t)(fixed ? FIXED : 0);
        set_count(fixed ? object_count(seen.block_length + ENTRY) : write_length());
        break;
    case WRITE_FILEMARKS: set_count(object_count(ENTRY)); break;
    case SPACE:
        block[1] = (uint8_t)(one_in(20) ? draw(16) : one_in(8) ? TO_END_OF_DATA : draw(2));
        set_count(one_in(12) ? draw_64() : draw(15) - UINT64_C(7));
        break;
    case MODE_SELECT: set_mode_select(); break;
    case ERASE: block[1] = (uint8_t)draw(4); break;
    case MODE_SENSE: block[AT_ALLOCATION] = (uint8_t)draw(16); break;
    case LOAD_UNLOAD: block[AT_LOAD] = one_in(2) ? 0 : LOAD; break;
    case LOCATE: set_locate(); break;
    case READ_POSITION: block[1] = draw(2) == 0 ? FORM_SHORT : FORM_LONG; break;
    case SPACE_16:
        block[1] = (uint8_t)(one_in(20) ? draw(16) : one_in(8) ? TO_END_OF_DATA : draw(2));
        put64(block + AT_COUNT_16, one_in(12) ? draw_64() : draw(15) - UINT64_C(7));
        break;
    case LOCATE_16: set_locate_16(); break;
    default: break;
    }
}

/* A place that is full is mostly left. */
static inline uint8_t likely_code(void)
{
    static const uint8_t codes[] = {
        WRITE, WRITE, WRITE, WRITE, WRITE, WRITE, WRITE, WRITE, WRITE, WRITE, WRITE, WRITE, WRITE_FILEMARKS,
        WRITE_FILEMARKS, WRITE_FILEMARKS, WRITE_FILEMARKS, ERASE, ERASE, SPACE, SPACE, SPACE, SPACE, LOCATE,
        LOCATE, LOCATE, LOCATE, LOCATE, REWIND, READ, READ, READ, READ, READ, MODE_SELECT, MODE_SELECT, MODE_SENSE,
        REQUEST_SENSE, TEST_UNIT_READY, READ_POSITION, READ_BLOCK_LIMITS, LOAD_UNLOAD, SPACE_16, SPACE_16, SPACE_16,
        LOCATE_16, LOCATE_16, LOCATE_16,
    };
    uint8_t code = codes[draw(COUNT(codes))];
    if (seen.room < 12 && (code == WRITE || code == WRITE_FILEMARKS) && !one_in(4))
        code = one_in(3) ? LOCATE_16 : LOCATE;
    return code;
}

/* On a long partition few objects at once. */
static inline void keep_few(void)
{
    uint8_t *block = latest.block.at;
    if (!seen.is_long || (block[0] != WRITE_FILEMARKS && (block[0] != WRITE || !(block[1] & FIXED))))
        return;
    set_count(block[AT_COUNT + 2] & 7);
}

/* Mostly as it should be; at times a bit is turned, bytes are random, a code is not served, or the block is short. */
static inline void set_any_block(void)
{
    struct bytes *block = &latest.block;
    set_block(likely_code());
    if (one_in(40))
        block->at[draw(block->at[0] < CODES_OF_16 ? BYTES_10 : BYTES_16)] ^= (uint8_t)(1 << draw(8));
    if (one_in(60))
        memcpy(block->at + one_in(2), some_noise(20), 20);
    if (one_in(80))
        block->at[0] = (uint8_t)draw(256);
    block->length = block->at[0] < CODES_OF_10 ? BYTES_6 : block->at[0] < CODES_OF_NONE ? BYTES_10 : BYTES_16;
    if (one_in(50))
        block->length = draw(block->length);
    else if (one_in(10))
        block->length += draw(sizeof block->at - block->length + 1);
    keep_few();
}

/* ---- what is sent and received */

enum { RECEIVE_ROOM = LARGEST_BLOCK + (1 << 17) };
static uint8_t *receive_room; /* between canaries, for every life; what is lent of it is its end */

static inline uint64_t bytes_asked(void)
{
    const uint8_t *block = latest.block.at;
    uint64_t count = get32(block + AT_COUNT - 1) & COUNT_MOST;
    return block[1] & FIXED ? count * seen.block_length : count;
}

/* Mostly just so many bytes, or a few more; at times too few, and never more than there are. */
static inline size_t likely_length(uint64_t asked, size_t most)
{
    uint64_t length = one_in(4) ? asked + draw(40) : asked;
    if (asked > 0 && one_in(16))
        length = one_in(2) ? asked - 1 : draw(asked);
    return (size_t)(length < most ? length : most);
}

static inline void set_data(void)
{
    uint8_t code = latest.block.at[0];
    size_t room = likely_length(code == READ ? bytes_asked() : 40, RECEIVE_ROOM);
    uint64_t listed = code == MODE_SELECT ? latest.block.at[AT_ALLOCATION] : 0;
    size_t length = likely_length(code == WRITE ? bytes_asked() : listed, NOISE);
    latest.sent = (struct slice){some_noise(length), length};
    if (code == MODE_SELECT)
        latest.sent = (struct slice){mode_list, length < sizeof mode_list ? length : sizeof mode_list};
    latest.received = receive_room + RECEIVE_ROOM - room;
    latest.received_length = room;
}

static inline void likely_command(struct holder *by)
{
    struct loan loan = one_in(30) ? partial_loan() : one_in(60) ? whole_cartridge() : by->usual;
    look(by, loan);
    set_any_block();
    set_data();
    call_command(by, loan);
}

/* Just so, on the whole cartridge, and with just the bytes that it sends. */
static inline void plain_command(struct holder *by, struct bytes block, struct slice sent)
{
    latest.block = block;
    latest.sent = sent;
    latest.received = receive_room;
    latest.received_length = 0;
    call_command(by, whole_cartridge());
}

/* ---- the house services between */

/* Of the whole cartridge, seldom of less; at times with slices that are cut, so that it is refused. */
static inline void likely_mount(struct holder *by)
{
    size_t most = one_in(12) ? draw(SHORTEST) : one_in(20) ? SHORTEST + draw(200) : SIZE_MAX;
    call_mount(by, one_in(5) ? partial_loan() : whole_cartridge(), most);
}

/* A protection that is set mostly goes soon. */
static inline void likely_protect(void)
{
    static const uint64_t numbers[] = {1, 1, 2, 256, BEYOND_32_BITS, UINT64_MAX};
    struct tape *tape = one_in(10) ? &foreign[draw(2)] : &ours[draw(partitions)];
    size_t length = one_in(8) ? draw(SHORTEST) : one_in(12) ? tape->length - 1 : tape->length;
    call_protect(tape, length, one_in(2) ? 0 : numbers[draw(COUNT(numbers))]);
}

/* Blank, or rubbish; until then it stays as it was used, also from one life to the next. */
static inline void renew_foreign(struct tape *tape)
{
    lend_tape(tape, SHORTEST + draw(200));
    if (!one_in(4))
        call_blank_foreign(tape);
}

/* One record for a while, then another one. */
static inline struct holder *whose_turn(void)
{
    static unsigned turn;
    if (one_in(14))
        turn = draw(drives);
    if (one_in(25)) {
        if (one_in(3))
            make_odd();
        return &holders[ODD];
    }
    return &holders[turn % drives];
}

static inline void likely_call(void)
{
    struct holder *by = whose_turn();
    int is_loaded = by->record[STORMTOGGLE_RECORD_LOADED] != 0;
    struct tape *guarded = &ours[draw(partitions)];
    if (one_in(250))
        renew_foreign(&foreign[draw(2)]);
    else if (one_in(200) || (by->was_refused && one_in(6)))
        call_fresh(by);
    else if (one_in(is_loaded ? 80 : 3))
        likely_mount(by);
    else if (one_in(50))
        likely_protect();
    else if (is_protected(guarded) && one_in(8))
        call_protect(guarded, guarded->length, 0);
    else
        likely_command(by);
}

#endif
