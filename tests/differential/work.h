/* work.h: one random call after another: sensible commands, their buffers, house services between. */
#ifndef WORK_H
#define WORK_H

#include "seen.h"

/* ---- command blocks */

static uint8_t block[PAGE_BYTES];

static inline void set_count(uint64_t count)
{
    block[AT_COUNT] = (uint8_t)(count >> 16);
    block[AT_COUNT + 1] = (uint8_t)(count >> 8);
    block[AT_COUNT + 2] = (uint8_t)count;
}

static inline void set_locate(void)
{
    uint64_t object = one_in(12) ? draw_64() : draw(seen.tape.count + 1);
    if (one_in(5))
        object = near(seen.tape.count);
    block[1] = (uint8_t)(one_in(8) * IMMED | one_in(3) * CP);
    put32(block + AT_OBJECT, (uint32_t)object);
    block[AT_PARTITION] = (uint8_t)(one_in(8) ? draw(256) : draw(2));
}

/* Of a partition as it lies there; one that is unsound has no objects. */
static inline const struct tape *tape_in(enum slice slice)
{
    static struct tape tape;
    decode(&tape, bytes_of(slice, MODEL), twins[slice].length);
    return &tape;
}

static inline void set_locate_16(void)
{
    static const uint8_t partitions[] = {0, 0, 0, 0, 1, 1, 1, 1, 2, 255};
    static const uint8_t served[] = {TO_OBJECT, TO_OBJECT, TO_FILE, TO_FILE, TO_END};
    uint8_t partition = partitions[draw(COUNT(partitions))];
    uint8_t destination = one_in(10) ? (uint8_t)DESTINED(draw(DESTINATIONS)) : served[draw(COUNT(served))];
    int named = one_in(3);
    const struct tape *target = named && partition < 2 ? tape_in(partition == 0 ? P0 : P1) : &seen.tape;
    uint64_t most = destination == TO_FILE ? filemarks_before(target, target->count) : target->count;
    block[1] = (uint8_t)(destination | one_in(8) * IMMED | named * CP);
    block[AT_PARTITION_16] = partition;
    put64(block + AT_IDENTIFIER, likely_identifier(most));
}

/* The list is laid when it is lent. */
static uint8_t list[MODE_BYTES];

static inline void set_mode_select(void)
{
    static const uint32_t lengths[] = {
        0, 0, 0, 1, 2, 3, 3, 4, 5, 8, 16, 100, 512, MOUNTED_LENGTH, LARGEST_BEFORE, LARGEST_BEFORE + 1,
        LARGEST_BLOCK - 1, LARGEST_BLOCK, LARGEST_BLOCK + 1, 0xffffff};
    uint32_t any = draw(one_in(8) ? LARGEST_BLOCK + LARGEST_BEFORE : LARGEST_BEFORE + 5000);
    uint32_t block_length = one_in(10) ? any : lengths[draw(COUNT(lengths))];
    block[1] = one_in(20) ? 0x00 : PF;
    block[AT_ALLOCATION] = (uint8_t)(one_in(6) ? draw(14) : one_in(10) ? 0 : one_in(4) ? MODE_HEADER : MODE_BYTES);
    memset(list, 0, sizeof list);
    list[0] = (uint8_t)draw(256);
    list[AT_DESCRIPTOR] = block[AT_ALLOCATION] == MODE_BYTES ? MODE_DESCRIPTOR : 0;
    put32(list + AT_BLOCK_LENGTH - 1, draw(256) << 24 | block_length);
    if (one_in(8))
        list[draw(sizeof list)] ^= (uint8_t)(1 << draw(8));
}

/* A mostly lawful block of a served code; all else of it stays 0. FIXED is rare where it is a field error, and where a
 * cartridge has no room for a block of the length that is set, as few have for that of a mount. */
static inline void set_block(uint8_t code)
{
    int fixed = seen.block_length == 0 ? one_in(30) : one_in(seen.block_length < seen.tape.length ? 2 : 8);
    memset(block, 0, 20);
    block[0] = code;
    switch (code) {
    case REWIND: block[1] = (uint8_t)draw(2); break;
    case REQUEST_SENSE:
        block[1] = (uint8_t)(one_in(2) * DESC);
        block[AT_ALLOCATION] = (uint8_t)(one_in(3) ? SENSE_BYTES : one_in(2) ? ALLOCATION_MOST : draw(31));
        break;
    case READ:
        block[1] = (uint8_t)(fixed ? FIXED | one_in(40) * SILI : one_in(3) * SILI);
        set_count(read_length(fixed));
        break;
    case WRITE:
        block[1] = (uint8_t)(fixed * FIXED);
        set_count(write_length(fixed));
        break;
    case WRITE_FILEMARKS: set_count(filemark_count()); break;
    case SPACE:
        block[1] = (uint8_t)(one_in(20) ? draw(16) : one_in(10) ? TO_END_OF_DATA : draw(2));
        set_count(space_count());
        break;
    case MODE_SELECT: set_mode_select(); break;
    case ERASE: block[1] = (uint8_t)draw(4); break;
    case MODE_SENSE:
        block[1] = (uint8_t)(one_in(3) * DBD);
        block[AT_PAGE] = (uint8_t)(one_in(12) ? draw(64) : one_in(2) ? PAGE_ALL : PAGE_NONE);
        block[AT_ALLOCATION] = (uint8_t)(one_in(2) ? 255 : draw(16));
        break;
    case LOAD_UNLOAD:
        block[1] = (uint8_t)draw(2);
        block[AT_LOAD] = !one_in(3) * LOAD;
        break;
    case LOCATE: set_locate(); break;
    case READ_POSITION:
        block[1] = (uint8_t)(one_in(20) ? draw(32) : draw(2) == 0 ? FORM_SHORT : FORM_LONG);
        break;
    case SPACE_16:
        block[1] = (uint8_t)(one_in(20) ? draw(16) : one_in(10) ? TO_END_OF_DATA : draw(2));
        put64(block + AT_COUNT_16, space_16_count(block[1]));
        break;
    case LOCATE_16: set_locate_16(); break;
    default: break;
    }
}

/* Writing and reading come in turns, so that objects gather before they are moved over. */
static inline uint8_t likely_code(void)
{
    static const uint8_t codes[] = {
        READ, READ, READ, READ, READ, WRITE, WRITE, WRITE, WRITE, WRITE, WRITE, WRITE_FILEMARKS, WRITE_FILEMARKS,
        SPACE, SPACE, SPACE, SPACE, SPACE, LOCATE, LOCATE, LOCATE, READ_POSITION, READ_POSITION, REQUEST_SENSE,
        REQUEST_SENSE, MODE_SELECT, MODE_SELECT, MODE_SENSE, MODE_SENSE, ERASE, REWIND, REWIND, TEST_UNIT_READY,
        READ_BLOCK_LIMITS, LOAD_UNLOAD, SPACE_16, SPACE_16, SPACE_16, SPACE_16, LOCATE_16, LOCATE_16, LOCATE_16,
    };
    static int is_reading;
    uint8_t code = one_in(60) ? (uint8_t)draw(256) : codes[draw(COUNT(codes))];
    int moves = code == READ || code == SPACE || code == LOCATE || code == REWIND || is_long_move(code);
    if (one_in(15))
        is_reading = !is_reading;
    if (is_reading && changes_cartridge(code) && !one_in(8))
        code = READ;
    if (!is_reading && moves && !one_in(4))
        code = one_in(4) ? WRITE_FILEMARKS : WRITE;
    /* Where there is nothing to read, another place is mostly sought first. */
    if (code == READ && seen.position == seen.tape.count && !one_in(4))
        code = one_in(3) ? LOCATE_16 : LOCATE;
    return code;
}

/* Mostly just as long as the code says. Longer by far at times, as only the first bytes count, and a byte short. */
static inline size_t likely_block_length(void)
{
    size_t least = block_bytes(block[0]) == 0 ? 1 : block_bytes(block[0]);
    if (one_in(60))
        return one_in(2) ? least - 1 : draw(least);
    if (one_in(60))
        return 257 + draw(500);
    return one_in(8) ? least + draw(12) : least;
}

/* ---- lending and calling */

static inline void lend_block(size_t length)
{
    place(COMMAND, length);
    for (size_t i = 20; i < length && i < sizeof block; i++)
        block[i] = noise[i];
    lay(COMMAND, 0, block, smaller(length, sizeof block));
}

/* Mostly what is needed, more at times, and less. What is more than there is room for is short whatever is lent. */
static inline size_t likely_room(uint64_t need, enum slice slice)
{
    uint64_t length = need;
    if (need == 0 || need > twins[slice].room_length)
        length = one_in(6) ? draw(60) : 0;
    else if (one_in(16))
        length = one_in(2) ? need - 1 : draw(need);
    else if (one_in(4))
        length = need + draw(40);
    return (size_t)length;
}

/* What is received shows against bytes that change from call to call. */
static inline void lend_received(size_t length)
{
    uint8_t fill[64];
    memset(fill, (int)draw(256), sizeof fill);
    place(RECEIVED, length);
    lay(RECEIVED, 0, fill, smaller(twins[RECEIVED].length, sizeof fill));
}

static inline void lend_buffers(void)
{
    struct session asked = session_with(block);
    uint64_t take = bytes_to_take(&asked), hand_over = bytes_to_hand_over(&asked);
    place(SENT, likely_room(take, SENT));
    if (block[0] == MODE_SELECT)
        lay(SENT, 0, list, smaller(twins[SENT].length, sizeof list));
    lend_received(likely_room(hand_over, RECEIVED));
    reached.wide_products += take >= BEYOND_32_BITS || hand_over >= BEYOND_32_BITS;
}

static inline uint64_t call_command(void)
{
    uint64_t answer = make_call((struct call){.service = A_COMMAND});
    reached.largest_blocks += block[0] == WRITE && STORMTOGGLE_CARRIED(answer) == LARGEST_BLOCK;
    return answer;
}

static inline uint64_t likely_command_of(uint8_t code)
{
    set_block(code);
    if (one_in(40))
        block[draw(is_long_move(block[0]) ? BYTES_16 : BYTES_10)] ^= (uint8_t)(1 << draw(8));
    lend_block(likely_block_length());
    lend_buffers();
    return call_command();
}

static inline uint64_t likely_command(void)
{
    return likely_command_of(likely_code());
}

static inline enum slice either_partition(void)
{
    return one_in(2) ? P1 : P0;
}

static inline uint64_t call_mount(void)
{
    return make_call((struct call){.service = MOUNT});
}

static inline uint64_t call_fresh(void)
{
    return make_call((struct call){.service = FRESH});
}

static inline uint64_t call_blank(enum slice image)
{
    return make_call((struct call){.service = BLANK, .image = image});
}

static inline uint64_t call_protect(void)
{
    static const uint64_t numbers[] = {0, 0, 0, 0, 0, 1, 1, 2, 256, BEYOND_32_BITS, UINT64_MAX};
    enum slice image = either_partition();
    return make_call((struct call){.service = PROTECT, .image = image, .number_1 = numbers[draw(COUNT(numbers))]});
}

static inline uint64_t call_view(void)
{
    static const uint64_t odd[] = {2, 255, 256, BEYOND_32_BITS, BEYOND_32_BITS + 1, UINT64_MAX};
    uint64_t partition = one_in(10) ? odd[draw(COUNT(odd))] : draw(2);
    uint64_t object = one_in(20) ? odd[draw(COUNT(odd))] + draw(2) : draw(seen.tape.count + 2);
    return make_call((struct call){.service = VIEW, .number_1 = partition, .number_2 = object});
}

/* One call as a daemon makes them, seldom one that it should not. Returns the answer. */
static inline uint64_t likely_call(uint64_t answer_before)
{
    look();
    if (answer_before == refused(BY_DRIVE) && one_in(3))
        return call_fresh();
    if (STORMTOGGLE_STATUS(answer_before) != STORMTOGGLE_GOOD && one_in(8))
        return likely_command_of(REQUEST_SENSE);
    if (!seen.loaded && one_in(3))
        return call_mount();
    switch (draw(240)) {
    case 0: return call_blank(either_partition());
    case 1: return call_fresh();
    case 2: case 3: return call_mount();
    case 4: case 5: case 6: return call_protect();
    case 7: case 8: case 9: case 10: return call_view();
    default: return likely_command();
    }
}

static inline void run_calls(unsigned calls)
{
    uint64_t answer = 0;
    while (calls-- > 0)
        answer = likely_call(answer);
}

#endif
