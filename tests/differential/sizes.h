/* sizes.h: what calls have come to with blocks and block lengths on the bounds of the largest block, of the largest
 * that there was before 02, and between them, kind by kind, counted by the model's answers, the records and the
 * partitions' own bytes. */
#ifndef SIZES_H
#define SIZES_H

#include "senses.h"

/* Between the bounds lie the tiles of 02's camera. */
enum size { AT_BEFORE, ABOVE_BEFORE, OF_A_TILE, BELOW_LARGEST, AT_LARGEST, ABOVE_LARGEST, SIZES };
static const uint32_t size_bytes[SIZES] = {
    LARGEST_BEFORE, LARGEST_BEFORE + 1, 800000, LARGEST_BLOCK - 1, LARGEST_BLOCK, LARGEST_BLOCK + 1};
static const char *const size_names[SIZES] = {"65,536", "65,537", "800,000", "1,048,575", "1,048,576", "1,048,577"};

/* By the length that a variable WRITE and READ ask for, or the block has; by the block length under which FIXED goes, a
 * record is lent, or MODE SELECT and MODE SENSE name; by the block that decides whether an image is sound. */
enum size_kind {
    SIZE_PUT, SIZE_PUT_INTO_ZONE, SIZE_FILLS, SIZE_LACKS_A_BYTE, SIZE_SENT_SHORT, SIZE_PROTECTED, SIZE_NOT_READY,
    WRONG_LOADED, WRONG_WITH_ROOM, WRONG_PROTECTED, WRONG_UNLOADED, WRONG_AND_SHORT,
    SIZE_GOT, SIZE_OF_LONGER, SIZE_OF_SHORTER, SIZE_SILI_TELLS, SIZE_SILI_HIDES, SIZE_RECEIVED_SHORT, SIZE_AT_MARK,
    SIZE_AT_END, SIZE_OF_A_BYTE, BLOCK_CUT, BLOCK_VIEWED,
    FIXED_PUT_1, FIXED_PUT_SEVERAL, FIXED_PUT_SOME, FIXED_PUT_NONE, FIXED_SENT_SHORT, FIXED_GOT_1, FIXED_GOT_SEVERAL,
    FIXED_GOT_ODD, FIXED_THEN_ODD, FIXED_THEN_MARK, FIXED_THEN_END, FIXED_RECEIVED_SHORT,
    SELECTED_LOADED, SELECTED_UNLOADED, NOT_SELECTED_LOADED, NOT_SELECTED_UNLOADED, LENGTH_SENSED,
    SERVES_LOADED, SERVES_UNLOADED, MOUNTS_OVER, MOUNTS_NOT_LOADED, ILL_FORMED_LOADED, ILL_FORMED_UNLOADED,
    ILL_FORMED_MOUNT, ILL_FORMED_MOUNT_LOADED,
    SOUND_BY_MOUNT, SOUND_BY_PROTECTION, SOUND_BY_VIEW, SOUND_BY_COMMAND, SOUND_BESIDE, UNSOUND_BY_MOUNT,
    UNSOUND_BY_PROTECTION, UNSOUND_BY_VIEW, UNSOUND_BY_COMMAND, UNSOUND_BESIDE, SIZE_KINDS
};

/* Each must be reached with every size from the first to the last. */
static const struct {
    const char *name;
    uint8_t first, last;
} size_kinds[SIZE_KINDS] = {
    [SIZE_PUT] = {"variable WRITE, put, GOOD", AT_BEFORE, AT_LARGEST},
    [SIZE_PUT_INTO_ZONE] = {"variable WRITE, put, into the zone", AT_BEFORE, AT_LARGEST},
    [SIZE_FILLS] = {"variable WRITE, put, no room left", AT_BEFORE, AT_LARGEST},
    [SIZE_LACKS_A_BYTE] = {"variable WRITE, a byte of room too few", AT_BEFORE, AT_LARGEST},
    [SIZE_SENT_SHORT] = {"variable WRITE, a byte short, refused by 2", AT_BEFORE, AT_LARGEST},
    [SIZE_PROTECTED] = {"variable WRITE, 7/27/00", AT_BEFORE, AT_LARGEST},
    [SIZE_NOT_READY] = {"variable WRITE, 2/3A/00", AT_BEFORE, AT_LARGEST},
    [WRONG_LOADED] = {"variable WRITE, 5/24/00", ABOVE_LARGEST, ABOVE_LARGEST},
    [WRONG_WITH_ROOM] = {"variable WRITE, 5/24/00, room for it", ABOVE_LARGEST, ABOVE_LARGEST},
    [WRONG_PROTECTED] = {"variable WRITE, 5/24/00, protected", ABOVE_LARGEST, ABOVE_LARGEST},
    [WRONG_UNLOADED] = {"variable WRITE, 5/24/00, nothing loaded", ABOVE_LARGEST, ABOVE_LARGEST},
    [WRONG_AND_SHORT] = {"variable WRITE, 5/24/00, too few bytes sent", ABOVE_LARGEST, ABOVE_LARGEST},
    [SIZE_GOT] = {"variable READ of the whole block", AT_BEFORE, AT_LARGEST},
    [SIZE_OF_LONGER] = {"variable READ, a longer block", AT_BEFORE, BELOW_LARGEST},
    [SIZE_OF_SHORTER] = {"variable READ, a shorter block", AT_BEFORE, ABOVE_LARGEST},
    [SIZE_SILI_TELLS] = {"variable READ, a longer block, SILI and ILI", AT_BEFORE, BELOW_LARGEST},
    [SIZE_SILI_HIDES] = {"variable READ, a shorter block, SILI, GOOD", AT_BEFORE, ABOVE_LARGEST},
    [SIZE_RECEIVED_SHORT] = {"variable READ, a byte short, refused by 3", AT_BEFORE, ABOVE_LARGEST},
    [SIZE_AT_MARK] = {"variable READ, a filemark", AT_BEFORE, ABOVE_LARGEST},
    [SIZE_AT_END] = {"variable READ, end of data", AT_BEFORE, ABOVE_LARGEST},
    [SIZE_OF_A_BYTE] = {"variable READ, a block of 1, ILI", ABOVE_LARGEST, ABOVE_LARGEST},
    [BLOCK_CUT] = {"a block of which READ asks for less", AT_BEFORE, AT_LARGEST},
    [BLOCK_VIEWED] = {"a block viewed", AT_BEFORE, AT_LARGEST},
    [FIXED_PUT_1] = {"FIXED WRITE of 1, put", AT_BEFORE, AT_LARGEST},
    [FIXED_PUT_SEVERAL] = {"FIXED WRITE of more, all put", AT_BEFORE, AT_LARGEST},
    [FIXED_PUT_SOME] = {"FIXED WRITE, some put and not all", AT_BEFORE, AT_LARGEST},
    [FIXED_PUT_NONE] = {"FIXED WRITE, none put", AT_BEFORE, AT_LARGEST},
    [FIXED_SENT_SHORT] = {"FIXED WRITE, a byte short, refused by 2", AT_BEFORE, AT_LARGEST},
    [FIXED_GOT_1] = {"FIXED READ of 1", AT_BEFORE, AT_LARGEST},
    [FIXED_GOT_SEVERAL] = {"FIXED READ of more", AT_BEFORE, AT_LARGEST},
    [FIXED_GOT_ODD] = {"FIXED READ of a block of another length", AT_BEFORE, AT_LARGEST},
    [FIXED_THEN_ODD] = {"FIXED READ of some, then of such a block", AT_BEFORE, AT_LARGEST},
    [FIXED_THEN_MARK] = {"FIXED READ of some, then a filemark", AT_BEFORE, AT_LARGEST},
    [FIXED_THEN_END] = {"FIXED READ of some, then end of data", AT_BEFORE, AT_LARGEST},
    [FIXED_RECEIVED_SHORT] = {"FIXED READ, a byte short, refused by 3", AT_BEFORE, AT_LARGEST},
    [SELECTED_LOADED] = {"MODE SELECT of it", AT_BEFORE, AT_LARGEST},
    [SELECTED_UNLOADED] = {"MODE SELECT of it, nothing loaded", AT_BEFORE, AT_LARGEST},
    [NOT_SELECTED_LOADED] = {"MODE SELECT of it, 5/26/00", ABOVE_LARGEST, ABOVE_LARGEST},
    [NOT_SELECTED_UNLOADED] = {"MODE SELECT of it, 5/26/00, nothing loaded", ABOVE_LARGEST, ABOVE_LARGEST},
    [LENGTH_SENSED] = {"MODE SENSE of it", AT_BEFORE, AT_LARGEST},
    [SERVES_LOADED] = {"a record with it, loaded, a command", AT_BEFORE, AT_LARGEST},
    [SERVES_UNLOADED] = {"a record with it, unloaded, a command", AT_BEFORE, AT_LARGEST},
    [MOUNTS_OVER] = {"a record with it, a mount", AT_BEFORE, AT_LARGEST},
    [MOUNTS_NOT_LOADED] = {"a record with it, a mount refused by 5", AT_BEFORE, AT_LARGEST},
    [ILL_FORMED_LOADED] = {"a record with it, loaded, refused by 4", ABOVE_LARGEST, ABOVE_LARGEST},
    [ILL_FORMED_UNLOADED] = {"a record with it, unloaded, refused by 4", ABOVE_LARGEST, ABOVE_LARGEST},
    [ILL_FORMED_MOUNT] = {"a mount over it refused by 4, unloaded", ABOVE_LARGEST, ABOVE_LARGEST},
    [ILL_FORMED_MOUNT_LOADED] = {"a mount over it refused by 4, loaded", ABOVE_LARGEST, ABOVE_LARGEST},
    [SOUND_BY_MOUNT] = {"a block in an image that a mount takes", AT_BEFORE, AT_LARGEST},
    [SOUND_BY_PROTECTION] = {"a block in an image that is protected", AT_BEFORE, AT_LARGEST},
    [SOUND_BY_VIEW] = {"a block in an image that is viewed", AT_BEFORE, AT_LARGEST},
    [SOUND_BY_COMMAND] = {"a block in an image that a command takes", AT_BEFORE, AT_LARGEST},
    [SOUND_BESIDE] = {"a block in the image beside, a command", AT_BEFORE, AT_LARGEST},
    [UNSOUND_BY_MOUNT] = {"an image unsound by it, a mount", ABOVE_LARGEST, ABOVE_LARGEST},
    [UNSOUND_BY_PROTECTION] = {"an image unsound by it, protection", ABOVE_LARGEST, ABOVE_LARGEST},
    [UNSOUND_BY_VIEW] = {"an image unsound by it, a view", ABOVE_LARGEST, ABOVE_LARGEST},
    [UNSOUND_BY_COMMAND] = {"an image unsound by it, a command", ABOVE_LARGEST, ABOVE_LARGEST},
    [UNSOUND_BESIDE] = {"the image beside unsound by it, a command", ABOVE_LARGEST, ABOVE_LARGEST},
};

/* FIXED under the largest block length, by counts whose product has 2^32 or 2^40 in it: what is lent is as much as the
 * product's low 32 bits say, which for the last is more than there is, so that nothing is. */
enum { PRODUCTS = 5 };
static const uint32_t product_counts[PRODUCTS] = {0x001000, 0x001001, 0x100000, 0x100001, COUNT_MOST};
static const char *const product_names[PRODUCTS] = {"4,096", "4,097", "1,048,576", "1,048,577", "16,777,215"};

static struct {
    unsigned long kinds[SIZE_KINDS][SIZES];
    unsigned long products[PRODUCTS][2]; /* refused by 2, and by 3 */
    unsigned long added;                 /* blocks of 65,537 to an image that has none above 65,536 */
    unsigned long limits[2];             /* READ BLOCK LIMITS with nothing loaded, and with something */
    unsigned long lent_in_full[2];       /* 2^32 bytes and more in the largest blocks, some of them put, and got */
} sized;

/* SIZES if it is none of them. */
static inline enum size size_of(uint64_t number)
{
    int size = 0;
    if (number < LARGEST_BEFORE)
        return SIZES;
    while (size < SIZES && size_bytes[size] != number)
        size++;
    return (enum size)size;
}

static inline void note_size(enum size_kind kind, enum size size, int holds)
{
    sized.kinds[kind][size] += holds != 0;
}

/* ---- variable */

static inline int is_protected_in(enum slice slice)
{
    return get32(bytes_of(slice, MODEL) + twins[slice].length - TRAILER_FLAGS) == FLAG_PROTECTED;
}

static inline void count_sized_write(enum size size, uint32_t told, const uint8_t *before, const uint8_t *after)
{
    int loaded = before[STORMTOGGLE_RECORD_LOADED] == 1, is_wrong = told == TOLD_FIELD;
    enum slice slice = slice_of(before);
    note_size(SIZE_PUT, size, told == TOLD_GOOD);
    note_size(SIZE_PUT_INTO_ZONE, size, told == TOLD_ZONE);
    note_size(SIZE_FILLS, size, told == TOLD_ZONE && room_in(slice, position_in(after)) == 0);
    note_size(SIZE_LACKS_A_BYTE, size,
              told == TOLD_OVERFLOW && room_in(slice, position_in(before)) + 1 == (uint64_t)ENTRY + size_bytes[size]);
    note_size(SIZE_PROTECTED, size, told == TOLD_PROTECTED);
    note_size(SIZE_NOT_READY, size, told == TOLD_NOT_LOADED);
    note_size(WRONG_LOADED, size, is_wrong && loaded && !is_protected_in(slice));
    note_size(WRONG_WITH_ROOM, size,
              is_wrong && loaded && room_in(slice, position_in(before)) >= (uint64_t)ENTRY + size_bytes[size]);
    note_size(WRONG_PROTECTED, size, is_wrong && loaded && is_protected_in(slice));
    note_size(WRONG_UNLOADED, size, is_wrong && !loaded);
    note_size(WRONG_AND_SHORT, size, is_wrong && twins[SENT].length < size_bytes[size]);
}

/* The length of the block that a READ has just passed tells what it met. */
static inline void count_sized_read(const uint8_t *block, uint32_t told, uint64_t carried, const uint8_t *after)
{
    uint64_t asked = count_of(block), position = position_in(after), bytes;
    enum size size = size_of(asked), met;
    int is_good = told == TOLD_GOOD, hides = block[1] & SILI;
    if (size < SIZES) {
        note_size(SIZE_AT_MARK, size, told == TOLD_FILEMARK);
        note_size(SIZE_AT_END, size, is_end_of_data(told));
    }
    if (asked == 0 || (!is_good && told != TOLD_LENGTH))
        return;
    bytes = end_in(slice_of(after), position) - end_in(slice_of(after), position - 1);
    met = size_of(bytes);
    if (met < SIZES)
        note_size(BLOCK_CUT, met, told == TOLD_LENGTH && carried < bytes);
    if (size == SIZES)
        return;
    note_size(SIZE_GOT, size, is_good && bytes == asked);
    note_size(SIZE_OF_LONGER, size, told == TOLD_LENGTH && bytes > asked && !hides);
    note_size(SIZE_OF_SHORTER, size, told == TOLD_LENGTH && bytes < asked);
    note_size(SIZE_OF_A_BYTE, size, told == TOLD_LENGTH && bytes == 1);
    note_size(SIZE_SILI_TELLS, size, told == TOLD_LENGTH && bytes > asked && hides);
    note_size(SIZE_SILI_HIDES, size, is_good && bytes < asked);
}

/* ---- FIXED */

static inline void count_sized_fixed(enum size size, const uint8_t *block, uint32_t told, uint64_t carried)
{
    uint64_t asked = count_of(block), blocks = carried / size_bytes[size];
    int all = blocks == asked, is_good = told == TOLD_GOOD;
    if (block[0] == WRITE) {
        note_size(FIXED_PUT_1, size, all && blocks == 1);
        note_size(FIXED_PUT_SEVERAL, size, all && blocks > 1);
        note_size(FIXED_PUT_SOME, size, told == TOLD_OVERFLOW && blocks > 0);
        note_size(FIXED_PUT_NONE, size, told == TOLD_OVERFLOW && blocks == 0);
        return;
    }
    note_size(FIXED_GOT_1, size, is_good && blocks == 1);
    note_size(FIXED_GOT_SEVERAL, size, is_good && blocks > 1);
    note_size(FIXED_GOT_ODD, size, told == TOLD_LENGTH && blocks == 0);
    note_size(FIXED_THEN_ODD, size, told == TOLD_LENGTH && blocks > 0);
    note_size(FIXED_THEN_MARK, size, told == TOLD_FILEMARK && blocks > 0);
    note_size(FIXED_THEN_END, size, is_end_of_data(told) && blocks > 0);
}

/* Of one that 2 or 3 refuses. */
static inline void count_product(const uint8_t *block, uint64_t product)
{
    uint64_t lent = twins[block[0] == WRITE ? SENT : RECEIVED].length;
    for (int i = 0; i < PRODUCTS; i++)
        sized.products[i][block[0] == READ] +=
            count_of(block) == product_counts[i] && (lent == (uint32_t)product || product_counts[i] == COUNT_MOST);
}

/* The same, and variable ones. */
static inline void count_sized_short(const uint8_t *block, const uint8_t *before)
{
    enum size size = size_of(is_fixed(block) ? length_in(before) : count_of(block));
    uint64_t need = is_fixed(block) ? (uint64_t)count_of(block) * length_in(before) : count_of(block);
    int sends = block[0] == WRITE, by_a_byte = twins[sends ? SENT : RECEIVED].length + 1 == need;
    if (size == SIZES || (block[0] != READ && !sends))
        return;
    if (is_fixed(block))
        note_size(sends ? FIXED_SENT_SHORT : FIXED_RECEIVED_SHORT, size, by_a_byte);
    else
        note_size(sends ? SIZE_SENT_SHORT : SIZE_RECEIVED_SHORT, size, by_a_byte);
    if (is_fixed(block) && size == AT_LARGEST)
        count_product(block, need);
}

/* ---- the block length */

static inline void count_sized_record(enum size size, unsigned refusal, const uint8_t *before)
{
    int loaded = before[STORMTOGGLE_RECORD_LOADED] == 1;
    note_size(SERVES_LOADED, size, refusal == 0 && loaded);
    note_size(SERVES_UNLOADED, size, refusal == 0 && !loaded);
    note_size(ILL_FORMED_LOADED, size, refusal == BY_DRIVE && loaded);
    note_size(ILL_FORMED_UNLOADED, size, refusal == BY_DRIVE && !loaded);
}

static inline void count_sized_mount(unsigned refusal, const uint8_t *before)
{
    enum size size = size_of(length_in(before));
    int loaded = before[STORMTOGGLE_RECORD_LOADED] == 1;
    if (size == SIZES)
        return;
    note_size(MOUNTS_OVER, size, refusal == 0);
    note_size(MOUNTS_NOT_LOADED, size, refusal == BY_LOADED);
    note_size(ILL_FORMED_MOUNT, size, refusal == BY_DRIVE && !loaded);
    note_size(ILL_FORMED_MOUNT_LOADED, size, refusal == BY_DRIVE && loaded);
}

/* By the list that was lent, whole, with no other byte of it wrong. */
static inline void count_selected(uint32_t told, const uint8_t *before)
{
    const uint8_t *list = bytes_of(SENT, MODEL);
    int loaded = before[STORMTOGGLE_RECORD_LOADED] == 1;
    enum size size;
    if (twins[SENT].length < MODE_BYTES || get32(list + MODE_HEADER) != 0)
        return;
    size = size_of(get32(list + AT_BLOCK_LENGTH - 1) & COUNT_MOST);
    if (size == SIZES)
        return;
    note_size(SELECTED_LOADED, size, told == TOLD_GOOD && loaded);
    note_size(SELECTED_UNLOADED, size, told == TOLD_GOOD && !loaded);
    note_size(NOT_SELECTED_LOADED, size, told == TOLD_LIST && loaded);
    note_size(NOT_SELECTED_UNLOADED, size, told == TOLD_LIST && !loaded);
}

/* ---- the calls */

/* Of a READ or WRITE that was not refused. */
static inline void count_transfer(const uint8_t *block, uint32_t told, uint64_t carried, const uint8_t *before,
                                  const uint8_t *after)
{
    enum size size = size_of(is_fixed(block) ? length_in(before) : count_of(block));
    if (!is_fixed(block) && block[0] == READ)
        count_sized_read(block, told, carried, after);
    else if (size < SIZES && is_fixed(block))
        count_sized_fixed(size, block, told, carried);
    else if (size < SIZES)
        count_sized_write(size, told, before, after);
    if (is_fixed(block) && size == AT_LARGEST && (uint64_t)count_of(block) * LARGEST_BLOCK >= BEYOND_32_BITS)
        sized.lent_in_full[block[0] == READ] += carried > 0;
}

/* Of any command: by what it was refused, or what it told; carried is what the answer says. */
static inline void count_size(const uint8_t *block, unsigned refusal, uint32_t told, uint64_t carried,
                              const uint8_t *before, const uint8_t *after)
{
    enum size size = twins[RECORD].length == RECORD_BYTES ? size_of(length_in(before)) : SIZES;
    if (size < SIZES)
        count_sized_record(size, refusal, before);
    if (refusal == BY_SENT || refusal == BY_RECEIVED)
        count_sized_short(block, before);
    if (refusal != 0)
        return;
    switch (block[0]) {
    case READ: case WRITE: count_transfer(block, told, carried, before, after); break;
    case READ_BLOCK_LIMITS: sized.limits[before[STORMTOGGLE_RECORD_LOADED]] += carried == LIMITS_BYTES; break;
    case MODE_SELECT:
        if (block[AT_ALLOCATION] == MODE_BYTES)
            count_selected(told, before);
        break;
    case MODE_SENSE:
        if (size < SIZES)
            note_size(LENGTH_SENSED, size, carried == MODE_BYTES && (block[1] & DBD) == 0);
        break;
    default: break;
    }
}

#endif
