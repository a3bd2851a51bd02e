/* large.h: work on the bounds of the largest block, of the largest that there was before 02, and between them: blocks
 * put and read, variable and FIXED, on cartridges that just hold them or do not by a byte; block lengths selected and
 * lent in a record; products of 2^32 bytes and more; directories that promise such blocks. */
#ifndef LARGE_H
#define LARGE_H

#include "mounted.h"

/* ---- the rooms */

/* For four of the largest blocks and more. They are sparse, as most calls store to little of them, or to nothing. */
enum { LARGE_BYTES = 20 * PIECE };
static struct twin large_rooms[SLICES];

static inline void exchange_rooms(void)
{
    for (int slice = P0; slice < SLICES; slice++) {
        struct twin other = twins[slice];
        twins[slice] = large_rooms[slice];
        large_rooms[slice] = other;
    }
}

static inline void take_large_rooms(void)
{
    int is_first = large_rooms[P0].room_length == 0;
    for (int slice = P0; slice < SLICES && is_first; slice++)
        large_rooms[slice] = sparse_twin(LARGE_BYTES);
    exchange_rooms();
    for (int slice = P0; slice < SLICES && is_first; slice++)
        fill_room((enum slice)slice);
}

/* ---- lengths */

/* How a cartridge lies to what is to be put on it. */
enum fit { JUST_FITS, LACKS_A_BYTE, HAS_MORE, FIT_KINDS };

/* With more, so much is left that the end of what is put is not in the zone. */
static inline size_t length_that_fits(uint64_t bytes, enum fit fit)
{
    switch (fit) {
    case JUST_FITS: return (size_t)(TRAILER + bytes);
    case LACKS_A_BYTE: return (size_t)(TRAILER + bytes - 1);
    default: return (size_t)(TRAILER + bytes + bytes / 8 + draw(LARGEST_BEFORE));
    }
}

static inline size_t length_beside(enum slice partition)
{
    return partition == P1 || one_in(2) ? SHORTEST + draw(100) : 0;
}

/* ---- transfers */

/* What is received shows against some bytes of its own. */
static inline void read_large(uint8_t byte_1, uint64_t count)
{
    make_ready(READ, byte_1, count, draw(3));
    for (int i = 0; i < 4 && twins[RECEIVED].length > ENTRY; i++)
        lay_word(RECEIVED, draw(twins[RECEIVED].length - ENTRY), draw_64());
    call_command();
}

/* Every request over an object, each with a byte too few first. */
static inline void read_each(uint64_t object, uint8_t byte_1)
{
    for (int size = 0; size < SIZES; size++) {
        send(LOCATE, CP, object);
        send_one_byte_short(READ, byte_1, size_bytes[size]);
        read_large(byte_1, size_bytes[size]);
    }
}

/* Every request where there is no block: at the filemark, and at end of data behind it. */
static inline void read_none(void)
{
    for (int size = 0; size < SIZES; size++) {
        send(LOCATE, CP, 1);
        send(READ, 0, size_bytes[size]);
        send(READ, one_in(2) ? SILI : 0, size_bytes[size]);
    }
}

/* A byte alone, of which more than the largest block is asked for. */
static inline void read_one_byte(void)
{
    send(LOCATE, CP, 2);
    send(WRITE, 0, 1);
    send(LOCATE, CP, 2);
    read_large(0, LARGEST_BLOCK + 1);
}

/* A block of this size, then a filemark if one fits; before them one that is too large, be there room for it or not.
 * With more room than they take a block length is set, under which SILI tells a longer block. */
static inline void run_variable(enum size size, enum fit fit)
{
    enum slice partition = either_partition();
    uint64_t bytes = size_bytes[size];
    uint32_t block_length = fit == HAS_MORE ? size_bytes[draw(ABOVE_LARGEST)] : 0;
    load_blank(partition, length_that_fits(ENTRY + bytes, fit), length_beside(partition), block_length);
    send(WRITE, 0, LARGEST_BLOCK + 1);
    send_one_byte_short(WRITE, 0, bytes);
    send(WRITE, 0, bytes);
    send(WRITE_FILEMARKS, 0, 1);
    view_of(0);
    read_each(0, fit == HAS_MORE ? SILI : 0);
    if (fit == HAS_MORE) {
        read_none();
        read_one_byte();
    }
    send(LOCATE, CP, 0);
    read_large(fit == HAS_MORE ? 0 : SILI, 1 + draw(bytes));
}

/* ---- FIXED */

/* Beside the length that is set, or the same by its low 16 bits; a block has at least one byte, and no more than it
 * may. */
static inline uint64_t odd_beside(uint32_t bytes)
{
    const uint64_t lengths[] = {1, bytes - 1, bytes + 1, bytes + (uint64_t)LARGEST_BEFORE, bytes - LARGEST_BEFORE};
    uint64_t length = lengths[draw(COUNT(lengths))];
    return length == 0 || length > LARGEST_BLOCK ? 2 : length;
}

/* Another object in the second's place, and one block in the first's. */
static inline void change_objects(uint32_t bytes)
{
    send(LOCATE, CP, 1);
    send(WRITE, 0, odd_beside(bytes));
    send(LOCATE, CP, 0);
    read_large(FIXED, 2);
    send(LOCATE, CP, 1);
    read_large(FIXED, 1);
    send(LOCATE, CP, 1);
    send(WRITE_FILEMARKS, 0, 1);
    send(LOCATE, CP, 0);
    read_large(FIXED, 2);
    send(LOCATE, CP, 0);
    send(WRITE, FIXED, 1);
    send(LOCATE, CP, 0);
    read_large(FIXED, 1);
}

/* As many blocks as fit, or one more, and then two at the end, where none fits. */
static inline void run_fixed(enum size size, enum fit fit)
{
    enum slice partition = either_partition();
    uint32_t bytes = size_bytes[size];
    unsigned blocks = 2 + one_in(4);
    load_blank(partition, length_that_fits(blocks * ((uint64_t)ENTRY + bytes), fit), length_beside(partition), bytes);
    send_fixed(WRITE, blocks + (fit == JUST_FITS));
    send(WRITE, FIXED, 2);
    send(LOCATE, CP, 0);
    send_one_byte_short(READ, FIXED, blocks);
    read_large(FIXED, blocks);
    send(LOCATE, CP, fit == LACKS_A_BYTE ? 0 : blocks - 1);
    read_large(FIXED, 2);
    change_objects(bytes);
}

/* Counts whose product is 2^32 bytes and more, with no more lent than the low 32 bits of it say. */
static inline void run_products(unsigned turn)
{
    load_blank(P0, length_that_fits(ENTRY + LARGEST_BLOCK, HAS_MORE), 0, LARGEST_BLOCK);
    for (unsigned i = 0; i < PRODUCTS; i++) {
        uint8_t code = (turn + i) % 2 == 0 ? WRITE : READ;
        uint32_t low_bits = (uint32_t)((uint64_t)product_counts[i] * LARGEST_BLOCK);
        make_ready(code, FIXED, product_counts[i], 0);
        place(SENT, low_bits > LARGE_BYTES ? draw(60) : low_bits);
        place(RECEIVED, twins[SENT].length);
        call_command();
        send(REWIND, 0, 0);
    }
}

/* ---- the block length */

/* Selected, and told; before it one that is none of the sizes, and mostly too large. */
static inline void select_size(enum size size)
{
    static const uint32_t others[] = {
        LARGEST_BEFORE - 1, LARGEST_BLOCK + LARGEST_BEFORE, 2 * LARGEST_BLOCK, COUNT_MOST};
    set_length_of_blocks(others[draw(COUNT(others))]);
    set_length_of_blocks(size_bytes[size]);
    send(MODE_SENSE, 0, MODE_BYTES);
    send(READ_BLOCK_LIMITS, 0, 0);
}

static inline void lay_length(enum size size)
{
    uint8_t length[4];
    put32(length, size_bytes[size]);
    lay(RECORD, STORMTOGGLE_RECORD_BLOCK_LENGTH, length, sizeof length);
}

static inline void lay_unloaded(void)
{
    static const uint8_t unloaded[STORMTOGGLE_RECORD_BLOCK_LENGTH];
    lay(RECORD, 0, unloaded, sizeof unloaded);
}

/* A WRITE that asks for so much, and one that asks for more than there may be, with all its bytes or too few. */
static inline void write_size(enum size size)
{
    send(WRITE, 0, size_bytes[size]);
    send(WRITE, 0, LARGEST_BLOCK + 1);
    send_one_byte_short(WRITE, 0, LARGEST_BLOCK + 1 + draw(2));
}

/* With a cartridge, protected and not, and without one. */
static inline void run_lengths(enum size size)
{
    load_blank(either_partition(), SHORTEST + draw(100), SHORTEST, 0);
    select_size(size);
    lay_length(size);
    send(MODE_SENSE, 0, MODE_BYTES);
    call_mount();
    lay_length(AT_LARGEST);
    write_size(size);
    protect_vast(1);
    write_size(size);
    lay_unloaded();
    select_size(size);
    write_size(size);
    lay_length(size);
    send(READ, FIXED, draw(3));
    send(MODE_SENSE, 0, MODE_BYTES);
    call_mount();
}

/* ---- directories */

/* Lays a directory in which one block alone decides: what lies around it is lawful, and was so before. Returns which
 * object it is. */
static inline size_t lay_promise(enum slice slice, uint32_t bytes, size_t spare)
{
    size_t count = 1 + draw(4), decides = draw(count), length, end = 0;
    uint32_t entries[4];
    for (size_t i = 0; i < count; i++) {
        uint32_t other = one_in(3) ? 0 : one_in(2) ? 1 + draw(9) : LARGEST_BEFORE - draw(2);
        uint32_t size = i == decides ? bytes : other;
        end += size;
        entries[i] = (uint32_t)end | (size == 0 ? ENTRY_FILEMARK : 0);
    }
    length = TRAILER + ENTRY * count + end + spare;
    place(slice, length);
    for (size_t i = 0; i < count; i++)
        lay_word(slice, entry_at(length, i), entries[i]);
    lay_word(slice, length - TRAILER_N, count);
    lay_word(slice, length - TRAILER_FLAGS, 0);
    lay_word(slice, length - TRAILER_D, length - TRAILER - ENTRY * count);
    lay_word(slice, length - TRAILER_L, length);
    return decides;
}

static inline void note_verdict(enum size size, enum size_kind sound, enum size_kind unsound, int is_sound)
{
    note_size(is_sound ? sound : unsound, size, !is_over());
}

/* By the house services that read a directory. */
static inline void judge_by_house(enum size size, uint64_t decides)
{
    uint64_t answer;
    place(RECORD, RECORD_BYTES);
    call_fresh();
    answer = call_mount();
    note_verdict(size, SOUND_BY_MOUNT, UNSOUND_BY_MOUNT, STORMTOGGLE_REFUSAL(answer) == 0);
    answer = make_call((struct call){.service = PROTECT, .image = vast, .number_1 = one_in(2)});
    note_verdict(size, SOUND_BY_PROTECTION, UNSOUND_BY_PROTECTION, STORMTOGGLE_REFUSAL(answer) == 0);
    answer = make_call((struct call){.service = VIEW, .number_1 = vast == P1, .number_2 = decides});
    note_verdict(size, SOUND_BY_VIEW, UNSOUND_BY_VIEW, answer != 0);
}

/* By a command on that partition, and on the one beside it. */
static inline void judge_by_command(enum size size)
{
    const uint8_t beside = vast == P0, places[] = {1, 2, !beside, ATTENTION_NONE, 0, 0, 0, 0};
    uint64_t answer;
    lay_record(0);
    lay(RECORD, STORMTOGGLE_RECORD_LOADED, places, sizeof places);
    answer = send(TEST_UNIT_READY, 0, 0);
    note_verdict(size, SOUND_BY_COMMAND, UNSOUND_BY_COMMAND, STORMTOGGLE_REFUSAL(answer) == 0);
    lay(RECORD, STORMTOGGLE_RECORD_CURRENT, &beside, 1);
    answer = send(TEST_UNIT_READY, 0, 0);
    note_verdict(size, SOUND_BESIDE, UNSOUND_BESIDE, STORMTOGGLE_REFUSAL(answer) == 0);
}

/* To an image as there were before 02 a block is added that none of them has. */
static inline void add_larger(void)
{
    uint64_t answer;
    protect_vast(0);
    send(LOCATE_16, CP | TO_END, 0);
    answer = send(WRITE, 0, LARGEST_BEFORE + 1);
    sized.added += STORMTOGGLE_CARRIED(answer) == LARGEST_BEFORE + 1;
    view_of(objects_in(vast) - 1);
}

static inline void run_promise(enum size size, enum slice partition)
{
    enum slice other = (enum slice)(P0 + P1 - partition);
    size_t spare = size == AT_BEFORE ? 2 * LARGEST_BEFORE : one_in(2) ? 0 : draw(LARGEST_BLOCK), decides;
    vast = partition;
    place(other, SHORTEST);
    call_blank(other);
    decides = lay_promise(partition, size_bytes[size], spare);
    judge_by_house(size, decides);
    judge_by_command(size);
    if (size == AT_BEFORE)
        add_larger();
}

/* ---- the work */

/* Commands as they come, on a cartridge for a block or two. */
static inline void run_large_calls(enum size size, enum fit fit)
{
    enum slice partition = either_partition();
    uint64_t bytes = ((uint64_t)ENTRY + size_bytes[size]) * (1 + draw(2));
    uint32_t block_length = one_in(2) ? 0 : size_bytes[draw(ABOVE_LARGEST)];
    load_blank(partition, length_that_fits(bytes, fit), length_beside(partition), block_length);
    run_calls(20);
}

/* By turns, so that every size meets every fit. Its draws are its own, so that the other work of a seed is what it is
 * without it. */
static inline void run_large(void)
{
    static uint64_t draws;
    static unsigned turns;
    uint64_t others = random_state;
    unsigned turn = turns++;
    enum size size = (enum size)(turn % ABOVE_LARGEST);
    enum fit fit = (enum fit)(turn / ABOVE_LARGEST % FIT_KINDS);
    random_state = draws == 0 ? seed ^ UINT64_C(0x3333333333333333) : draws;
    take_large_rooms();
    run_variable(size, fit);
    run_fixed((enum size)((turn + 2) % ABOVE_LARGEST), fit);
    run_products(turn);
    run_lengths((enum size)(turn % SIZES));
    run_promise((enum size)(turn % SIZES), either_partition());
    run_promise(one_in(2) ? ABOVE_LARGEST : AT_LARGEST, either_partition());
    run_large_calls(size, fit);
    exchange_rooms();
    draws = random_state;
    random_state = others;
}

#endif
