/* vast.h: work on cartridges, buffers and command blocks that are large enough for a number to be cut on its way: by a
 * compiler, by a linker, or where C calls. Their rooms are sparse, so that only what is stored to takes memory. */
#ifndef VAST_H
#define VAST_H

#include "work.h"

static const size_t beyond_32_bits = (size_t)BEYOND_32_BITS + 4 * LARGEST_BLOCK;

/* How many largest blocks the longest cartridge holds. */
static const size_t full_count = (LONGEST - TRAILER) / (LARGEST_BLOCK + ENTRY);

/* ---- rooms, and what lies in them */

static enum slice vast; /* the partition that the work is on */
static struct twin ordinary[SLICES];

static inline void take_room(enum slice slice, size_t length)
{
    ordinary[slice] = twins[slice];
    twins[slice] = sparse_twin(length);
}

static inline void give_rooms_back(void)
{
    for (int slice = 0; slice < SLICES; slice++)
        if (is_sparse(&twins[slice])) {
            unmap_twin(&twins[slice]);
            twins[slice] = ordinary[slice];
        }
}

static inline void lay_word(enum slice slice, size_t offset, uint64_t number)
{
    uint8_t word[4];
    put32(word, (uint32_t)number);
    lay(slice, offset, word, sizeof word);
}

/* Some byte in each stretch of the room, none of them 0, so that a block left out shows, or a part of a large one, and
 * a run not zeroed. */
static inline void lay_marks(enum slice slice)
{
    enum { STRETCH = 16 * PAGE_BYTES };
    const struct twin *twin = &twins[slice];
    for (size_t at = 0; at < twin->room_length; at += STRETCH) {
        size_t offset = at + draw(STRETCH);
        twin->room[MODEL][offset] = twin->room[LIBRARY][offset] = (uint8_t)(1 + draw(255));
    }
}

/* Noise in a room that is not much larger than others; no two pieces of it are alike, nor those of two slices. */
static inline void fill_room(enum slice slice)
{
    const struct twin *twin = &twins[slice];
    for (size_t at = 0; at < twin->room_length; at += PIECE)
        for (int side = MODEL; side <= LIBRARY; side++)
            memcpy(twin->room[side] + at, noise + at / PIECE * 37 + (size_t)slice * 5000, PIECE);
}

/* ---- commands */

/* The number is LOCATE's object, or the eight bytes of a block of sixteen, or else bytes 2 to 4. Lent is just what the
 * command needs, and so much more. */
static inline void make_ready(uint8_t code, uint8_t byte_1, uint64_t number, size_t more)
{
    struct session asked = session_with(block);
    memset(block, 0, 20);
    block[0] = code;
    block[1] = byte_1;
    if (code == LOCATE) {
        put32(block + AT_OBJECT, (uint32_t)number);
        block[AT_PARTITION] = vast == P1;
    } else if (is_long_move(code)) {
        put64(block + AT_IDENTIFIER, number);
        block[AT_PARTITION_16] = code == LOCATE_16 && vast == P1;
    } else {
        set_count(number);
    }
    lend_block(block_bytes(code));
    place(SENT, bytes_to_take(&asked) + more);
    place(RECEIVED, bytes_to_hand_over(&asked) + more);
}

static inline uint64_t send(uint8_t code, uint8_t byte_1, uint64_t number)
{
    make_ready(code, byte_1, number, draw(3));
    return call_command();
}

static inline uint64_t send_one_byte_short(uint8_t code, uint8_t byte_1, uint64_t number)
{
    make_ready(code, byte_1, number, 0);
    twins[SENT].length -= twins[SENT].length > 0;
    twins[RECEIVED].length -= twins[RECEIVED].length > 0;
    return call_command();
}

static inline uint64_t send_back(uint8_t code, uint64_t count)
{
    return send(SPACE, code, (COUNT_MOST + 1 - count) & COUNT_MOST);
}

static inline void set_length_of_blocks(uint32_t length)
{
    memset(list, 0, sizeof list);
    list[AT_DESCRIPTOR] = MODE_DESCRIPTOR;
    put32(list + AT_BLOCK_LENGTH - 1, length);
    make_ready(MODE_SELECT, PF, MODE_BYTES, 0);
    lay(SENT, 0, list, sizeof list);
    call_command();
}

static inline void view_of(uint64_t object)
{
    make_call((struct call){.service = VIEW, .number_1 = vast == P1, .number_2 = object});
}

static inline void protect_vast(uint64_t on)
{
    make_call((struct call){.service = PROTECT, .image = vast, .number_1 = on});
}

/* A fresh drive loads the cartridge that lies there, and is brought to its vast partition. */
static inline void load(uint32_t block_length)
{
    place(RECORD, RECORD_BYTES);
    call_fresh();
    call_mount();
    send(TEST_UNIT_READY, 0, 0);
    set_length_of_blocks(block_length);
    send(LOCATE, CP, 0);
}

/* Blank partitions, one of them vast, the other of the length that lies beside it or not there. */
static inline void load_blank(enum slice partition, size_t length, size_t beside, uint32_t block_length)
{
    vast = partition;
    place(vast, length);
    place((enum slice)(P0 + P1 - vast), beside);
    call_blank(P0);
    call_blank(P1);
    load(block_length);
}

/* ---- the work */

/* Counts, positions and N above 2^16 and 2^17, on the second partition. */
static inline void run_counts(void)
{
    uint32_t most = (1 << 17) + 1, blocks = most + draw(3000), filemarks = most + draw(3000);
    take_room(P1, 3 << 20);
    take_room(SENT, 1 << 19);
    take_room(RECEIVED, 1 << 19);
    fill_room(P1);
    fill_room(SENT);
    lay_marks(RECEIVED);
    load_blank(P1, (3 << 20) - draw(1000), SHORTEST + draw(100), 1);
    send_one_byte_short(WRITE, FIXED, blocks);
    send(WRITE, FIXED, blocks);
    send(WRITE_FILEMARKS, 0, filemarks);
    send(READ_POSITION, FORM_LONG, 0);
    send(READ_POSITION, FORM_SHORT, 0);
    send_back(FILEMARKS, most);
    send(READ_POSITION, FORM_LONG, 0);
    send(SPACE, FILEMARKS, most + draw(9000));
    send(LOCATE, CP, most - draw(2));
    send(READ, FIXED, filemarks);
    send(REWIND, 0, 0);
    send_one_byte_short(READ, FIXED, most);
    send(READ, FIXED, most);
    send(LOCATE, CP, draw(1000));
    send(READ, FIXED, (1 << 16) + 1 + draw(1000));
    send(SPACE, BLOCKS, 1 << 17);
    send_back(BLOCKS, most + draw(9000));
    send(LOCATE_16, CP | TO_FILE, most);
    send(SPACE_16, FILEMARKS, -(uint64_t)most);
    send(LOCATE_16, CP | TO_FILE, filemarks + draw(2));
    send(LOCATE_16, CP | TO_OBJECT, most - draw(2));
    send(SPACE_16, BLOCKS, -(uint64_t)most + draw(3));
    send(SPACE_16, BLOCKS, (UINT64_C(1) << 31) + blocks - draw(3));
    view_of(blocks - 1);
    run_calls(12);
    give_rooms_back();
}

/* N, the position and the filemarks before it above 2^20 and above 2^24, as a count has 24 bits. Each call passes over
 * all of them: of the larger number a few calls are enough. */
static inline void run_filemarks(enum slice partition, uint64_t count, int thorough)
{
    size_t length = TRAILER + ENTRY * (count + 2000);
    take_room(partition, length);
    load_blank(partition, length, SHORTEST + draw(100), 0);
    for (uint64_t rest = count; rest > 0; rest -= smaller(rest, COUNT_MOST))
        send(WRITE_FILEMARKS, 0, smaller(rest, COUNT_MOST));
    send(READ_POSITION, FORM_LONG, 0);
    send(LOCATE, CP, count - draw(9));
    send(LOCATE_16, CP | TO_FILE, count);
    send(SPACE_16, FILEMARKS, -count);
    send(LOCATE_16, CP | TO_OBJECT, count);
    send(SPACE_16, FILEMARKS, -count - (UINT64_C(1) << 31) - draw(2));
    send(SPACE, TO_END_OF_DATA, 0);
    if (thorough) {
        send(LOCATE_16, CP | TO_FILE, count + 1);
        send(LOCATE_16, CP | TO_END, 0);
        send(LOCATE, CP, count - draw(9));
        send_back(FILEMARKS, 3 + draw(9));
        send(READ_POSITION, FORM_LONG, 0);
        send(READ, 0, 9);
        send(WRITE, 0, 9);
        view_of(count);
        view_of(get32(bytes_of(RECORD, MODEL) + STORMTOGGLE_RECORD_POSITION) - 1);
        protect_vast(1);
        send(WRITE_FILEMARKS, 0, 1);
        send(MODE_SENSE, 0, 255);
        protect_vast(0);
        send(LOCATE, CP, 0xffffffff);
        send(WRITE, 0, 0);
        send(WRITE_FILEMARKS, 0, 0);
        send(WRITE_FILEMARKS, 0, COUNT_MOST);
        send_back(BLOCKS, 1 << 19);
        send_back(FILEMARKS, 1 << 19);
        send(ERASE, 0, 0);
        send(SPACE, TO_END_OF_DATA, 0);
    }
    give_rooms_back();
}

/* End of data, met by each command that can. */
static inline void send_past_end(uint64_t objects, uint64_t blocks_left)
{
    send(LOCATE, CP, objects + 1);
    send(READ, 0, 9);
    send(READ, FIXED, 1);
    send(SPACE, FILEMARKS, 1);
    send(SPACE_16, BLOCKS, 1);
    send(LOCATE_16, CP | TO_OBJECT, BEYOND_32_BITS);
    send(LOCATE, CP, objects - blocks_left);
    send(SPACE, BLOCKS, blocks_left + 1);
    send(LOCATE, CP, objects - blocks_left);
    send(SPACE_16, FILEMARKS, 1);
    send(LOCATE_16, CP | TO_FILE, 1);
}

/* Bytes carried and zeroed, by the number of largest blocks that fit; one more is asked for if the cartridge is the
 * longest. At its beginning room x 16 is 2^32 and more, so that a product cut to 32 bits puts it in the zone; its end
 * is there. The last blocks alone are more than 2^24 bytes. */
static inline void run_bytes(enum slice partition, uint64_t blocks)
{
    enum { LAST = (1 << 24) / LARGEST_BLOCK + 4 };
    uint64_t full = blocks * (LARGEST_BLOCK + ENTRY) + TRAILER;
    uint64_t length = full + draw(smaller(LARGEST_BLOCK - 8, LONGEST - full + 1));
    take_room(partition, length);
    take_room(SENT, (blocks + 1) * LARGEST_BLOCK);
    take_room(RECEIVED, (blocks + 1) * LARGEST_BLOCK);
    lay_marks(partition);
    lay_marks(SENT);
    lay_marks(RECEIVED);
    load_blank(partition, length, partition == P1 ? SHORTEST : 0, LARGEST_BLOCK);
    send(READ_POSITION, FORM_SHORT, 0);
    send(WRITE, FIXED, blocks + one_in(2));
    send(REWIND, 0, 0);
    send_one_byte_short(READ, FIXED, blocks);
    send(READ, FIXED, blocks);
    send_past_end(blocks, LAST);
    send(LOCATE, CP, blocks - LAST);
    send(READ, FIXED, LAST - draw(3));
    send(LOCATE, CP, blocks - LAST);
    send(ERASE, LONG, 0);
    send(READ_POSITION, FORM_LONG, 0);
    send(WRITE, FIXED, LAST - draw(3));
    send(LOCATE, CP, 0);
    send(ERASE, LONG, 0);
    send_past_end(0, 0);
    give_rooms_back();
}

/* The longest cartridge, full of largest blocks. */
static inline void lay_full(enum slice slice)
{
    size_t length = twins[slice].length, count = full_count;
    for (size_t i = 0; i < count; i++)
        lay_word(slice, entry_at(length, i), (i + 1) * LARGEST_BLOCK);
    for (size_t i = 1; i < 40; i++)
        lay_word(slice, (count - i) * LARGEST_BLOCK + draw(LARGEST_BLOCK - 4), draw_64() | 1);
    lay_word(slice, length - TRAILER_N, count);
    lay_word(slice, length - TRAILER_FLAGS, 0);
    lay_word(slice, length - TRAILER_D, length - TRAILER - ENTRY * count);
    lay_word(slice, length - TRAILER_L, length);
}

/* Blocks that end far behind 2^28, and rooms of every size up to 2^30. */
static inline void run_longest(enum slice partition)
{
    size_t count = full_count;
    vast = partition;
    take_room(vast, LONGEST);
    take_room(SENT, 2 * LARGEST_BLOCK);
    take_room(RECEIVED, COUNT_MOST + LARGEST_BLOCK);
    lay_marks(SENT);
    place(vast, LONGEST);
    place((enum slice)(P0 + P1 - vast), SHORTEST);
    call_blank((enum slice)(P0 + P1 - vast));
    lay_full(vast);
    load(0);
    for (int i = 0; i < 16; i++) {
        send(LOCATE, CP, draw(count + 1));
        send(READ_POSITION, one_in(2) ? FORM_LONG : FORM_SHORT, 0);
        view_of(draw(count));
    }
    send(LOCATE, CP, count - 3);
    send(READ, 0, LARGEST_BLOCK);
    send(READ, SILI, COUNT_MOST);
    send(READ, 0, COUNT_MOST);
    send_back(BLOCKS, 1);
    send(WRITE, 0, LARGEST_BLOCK - draw(9));
    send(WRITE_FILEMARKS, 0, 3);
    send_back(FILEMARKS, 2);
    send(ERASE, LONG, 0);
    send(WRITE, 0, LARGEST_BLOCK);
    give_rooms_back();
}

/* ---- lengths that are right, or short, by their low bits alone */

static const uint64_t low_bits_hide[] = {1 << 8, 1 << 16, 1 << 17, 1 << 24, BEYOND_32_BITS};

/* A command block is long enough, however long. */
static inline void run_long_blocks(void)
{
    static const uint8_t codes[] = {
        TEST_UNIT_READY, READ_POSITION, SPACE, CODES_OF_16, CODES_OF_12, CODES_OF_NONE, SPACE_16, LOCATE_16};
    take_room(COMMAND, beyond_32_bits);
    for (size_t i = 0; i < COUNT(low_bits_hide); i++)
        for (size_t over = 0; over < COUNT(codes); over++) {
            make_ready(codes[over], 0, 0, 0);
            lend_block(low_bits_hide[i] + over);
            call_command();
        }
    give_rooms_back();
}

/* A record is thirty bytes, and no more. */
static inline void run_long_records(void)
{
    uint8_t record[RECORD_BYTES];
    memcpy(record, bytes_of(RECORD, MODEL), RECORD_BYTES);
    take_room(RECORD, beyond_32_bits);
    for (size_t i = 0; i < COUNT(low_bits_hide); i++) {
        place(RECORD, low_bits_hide[i] + RECORD_BYTES);
        lay(RECORD, 0, record, RECORD_BYTES);
        send(TEST_UNIT_READY, 0, 0);
        call_fresh();
        call_mount();
    }
    give_rooms_back();
    place(RECORD, RECORD_BYTES);
    lay(RECORD, 0, record, RECORD_BYTES);
}

/* An image that is sound by the low 32 bits of its length: at its front, and at its end. */
static inline void run_long_partitions(void)
{
    for (int slice = P0; slice <= P1; slice++) {
        vast = (enum slice)slice;
        take_room(vast, beyond_32_bits);
        place(vast, (size_t)BEYOND_32_BITS + SHORTEST);
        lay_word(vast, SHORTEST - TRAILER_D, SHORTEST - TRAILER);
        lay_word(vast, SHORTEST - TRAILER_L, SHORTEST);
        lay_word(vast, twins[vast].length - TRAILER_D, SHORTEST - TRAILER);
        lay_word(vast, twins[vast].length - TRAILER_L, SHORTEST);
        send(TEST_UNIT_READY, 0, 0);
        protect_vast(1);
        call_blank(vast);
        view_of(0);
        call_fresh();
        call_mount();
        give_rooms_back();
    }
}

/* Buffers are long enough, however long. */
static inline void run_long_buffers(void)
{
    take_room(SENT, beyond_32_bits);
    take_room(RECEIVED, beyond_32_bits);
    for (size_t i = 0; i < COUNT(low_bits_hide); i++) {
        make_ready(WRITE, 0, 9, 0);
        place(SENT, low_bits_hide[i] + 3);
        lay(SENT, 0, noise + i, 9);
        call_command();
        send(REWIND, 0, 0);
        make_ready(READ, 0, 9, 0);
        place(RECEIVED, low_bits_hide[i] + 3);
        call_command();
    }
    give_rooms_back();
}

static inline void run_long_lengths(void)
{
    load_blank(P0, 300, 0, 0);
    run_long_blocks();
    run_long_records();
    run_long_buffers();
    load_blank(P1, 300, 300, 0);
    run_long_partitions();
}

/* Some seconds, and about 1 GiB of memory; with the largest work half a minute more, and 3 GiB. */
static inline void run_vast(int with_largest)
{
    run_long_lengths();
    run_counts();
    run_longest(P1);
    run_bytes(P0, (1 << 28) / LARGEST_BLOCK + 1 + draw(2));
    if (with_largest) {
        run_longest(P0);
        run_bytes(P1, full_count);
    }
    /* Last, as the model keeps the memory for so many objects. */
    run_filemarks(P0, (1 << 20) + 1 + draw(100000), 1);
    run_filemarks(P1, (1 << 24) + 1 + draw(1000), with_largest);
}

#endif
