/* model.h: document 01 with what 02 adds, in plain C, written from them alone: images as objects, the record, the house
 * services. Its numbers are those of numbers.h, as a number of 01 is one for all; its rules are its own, and no other
 * test's. */
#ifndef MODEL_H
#define MODEL_H

#include "../../check.h"

/* One seeded slip of the model, so that faults.sh can show that the comparison finds it; 0 is none. */
#ifndef FAULT
#define FAULT 0
#endif

/* The slips that cut a number: to the low bits of it, or to 2 to this power at most. */
static inline uint64_t cut(uint64_t number, int fault, unsigned bits)
{
    return FAULT == fault ? number & ((UINT64_C(1) << bits) - 1) : number;
}

static inline uint64_t capped(uint64_t number, int fault, unsigned bits)
{
    return FAULT == fault && number > UINT64_C(1) << bits ? UINT64_C(1) << bits : number;
}

/* The largest block that there was before 02: "Raise the largest block from 65,536 to 1,048,576 bytes". Its slips leave
 * it somewhere, and what is lawful since then lies right behind it. */
enum { LARGEST_BEFORE = 65536 };

/* ---- bytes */

/* Lays bytes, and stores only where some differ, so that what is sparse stays so. */
static inline void lay_over(uint8_t *to, const uint8_t *from, uint64_t bytes)
{
    enum { STEP = 4096 };
    for (uint64_t done = 0; done < bytes; done += STEP) {
        size_t some = (size_t)(bytes - done < STEP ? bytes - done : STEP);
        if (memcmp(to + done, from + done, some) != 0)
            memcpy(to + done, from + done, some);
    }
}

static inline void lay_zeros(uint8_t *to, uint64_t bytes)
{
    static const uint8_t zeros[65536];
    for (uint64_t done = 0; done < bytes; done += sizeof zeros)
        lay_over(to + done, zeros, bytes - done < sizeof zeros ? bytes - done : sizeof zeros);
}

/* ---- an image, decoded */

struct object {
    uint32_t start, end; /* of its data; equal for a filemark */
    int is_filemark;
};

struct tape {
    uint64_t length; /* L */
    uint64_t count;  /* N */
    int is_protected;
    struct object *objects;
    size_t capacity;
};

static inline void make_room_for(struct tape *tape, uint64_t objects)
{
    if (objects <= tape->capacity)
        return;
    tape->capacity = (size_t)(objects + objects / 2 + 1024);
    tape->objects = realloc(tape->objects, tape->capacity * sizeof *tape->objects);
    if (tape->objects == NULL)
        abort();
}

static inline int length_is_lawful(uint64_t length)
{
    return length >= SHORTEST && length <= LONGEST;
}

/* How far from the front the entry of an object lies. */
static inline uint64_t entry_at(uint64_t length, uint64_t object)
{
    return length - TRAILER - ENTRY * (object + 1);
}

static inline uint32_t end_in_entry(const uint8_t *image, uint64_t length, uint64_t object)
{
    return get32(image + entry_at(length, object)) & ENTRY_END;
}

/* The end that an entry is judged by, which is the one before it. The slips of a wrong carry have another. */
static inline uint32_t carried_to(uint64_t object, uint32_t end, const struct tape *tape, const uint8_t *image,
                                  uint64_t count)
{
    if (FAULT == 33 && object > 0 && tape->objects[object - 1].is_filemark)
        return 0;
    if (FAULT == 34 && object + 1 < count)
        return end_in_entry(image, tape->length, object + 1);
    if (FAULT == 35 && object == 0)
        return end_in_entry(image, tape->length, 0);
    return end;
}

/* The slips of a loop that takes so many entries at a time: whether one is not judged. */
static inline int is_passed_by(uint64_t object, uint64_t count)
{
    enum { AT_A_TIME = 32 };
    if (FAULT == 36)
        return object > 0 && object % AT_A_TIME == 0;
    return FAULT == 37 && object >= AT_A_TIME && object >= count - count % AT_A_TIME;
}

/* "What an entry promises about its block changes for everyone who reads one": who reads, for the slips that leave it
 * as it was for one of them. */
enum reader { MOUNT_READS = 190, VIEW_READS = 191, COMMAND_READS = 192, SECOND_IS_READ = 193, PROTECTION_READS = 194 };
static enum reader reader;

/* Whether a block may have so many bytes. */
static inline int is_block(int64_t size)
{
    int is_left = FAULT == 187 || (FAULT != 0 && FAULT == (int)reader);
    int64_t largest = is_left ? LARGEST_BEFORE : LARGEST_BLOCK + (FAULT == 188);
    if (FAULT == 189 && size > 0)
        size = (int64_t)cut((uint64_t)size, 189, 20);
    return size >= 1 && size <= largest;
}

/* Whether the image is sound; its objects are known only then. */
static inline int decode(struct tape *tape, const uint8_t *image, uint64_t length)
{
    uint64_t count, flags, directory, own_length;
    uint32_t end = 0;
    tape->length = length;
    tape->count = 0;
    tape->is_protected = 0;
    if (!length_is_lawful(length))
        return 0;
    count = get32(image + length - TRAILER_N);
    flags = get32(image + length - TRAILER_FLAGS);
    directory = get32(image + length - TRAILER_D);
    own_length = get32(image + length - TRAILER_L);
    /* In 64 bits, so that 4N cannot wrap. */
    if (own_length != length || flags > FLAG_PROTECTED || directory + ENTRY * count + TRAILER != length)
        return 0;
    make_room_for(tape, count);
    for (uint64_t i = 0; i < count; i++) {
        uint32_t entry = get32(image + entry_at(length, i));
        struct object object = {end, entry & ENTRY_END, (entry & ENTRY_FILEMARK) != 0};
        int64_t size = (int64_t)object.end - (int64_t)carried_to(i, end, tape, image, count);
        int follows = object.is_filemark ? size == 0 : is_block(size);
        if (!follows && !is_passed_by(i, count))
            return 0;
        tape->objects[i] = object;
        end = object.end;
    }
    if (end > directory)
        return 0;
    tape->count = cut(cut(count, 11, 20), 12, 24);
    tape->is_protected = flags == FLAG_PROTECTED;
    return 1;
}

static inline int decode_second(struct tape *tape, const uint8_t *image, uint64_t length)
{
    reader = FAULT == SECOND_IS_READ ? SECOND_IS_READ : reader;
    return decode(tape, image, length);
}

/* end(n): where the data of the objects before n ends. */
static inline uint64_t end_before(const struct tape *tape, uint64_t n)
{
    return n == 0 ? 0 : tape->objects[n - 1].end;
}

static inline uint64_t room_at(const struct tape *tape, uint64_t n)
{
    return tape->length - TRAILER - (ENTRY * n + end_before(tape, n));
}

static inline int in_zone(const struct tape *tape, uint64_t n)
{
    uint64_t share = cut(room_at(tape, n) * ZONE_SHARE, 24, 32);
    if (FAULT == 4)
        return share <= tape->length - TRAILER;
    return share < tape->length - TRAILER;
}

static inline uint64_t filemarks_before(const struct tape *tape, uint64_t n)
{
    uint64_t filemarks = 0;
    for (uint64_t i = 0; i < n; i++)
        filemarks += (uint64_t)tape->objects[i].is_filemark;
    return filemarks;
}

/* Lays N, and D, which follows from it. */
static inline void lay_count(uint8_t *image, uint64_t length, uint64_t count)
{
    put32(image + length - TRAILER_N, (uint32_t)count);
    put32(image + length - TRAILER_D, (uint32_t)(length - TRAILER - ENTRY * count));
}

/* ---- answers */

static inline uint64_t refused(unsigned number)
{
    return (uint64_t)number << ANSWER_REFUSAL;
}

/* 02 adds the fourth number, "how many objects it crossed", which is for SPACE alone. */
static inline uint64_t answered(int check_condition, uint64_t carried, uint64_t crossed)
{
    unsigned at = FAULT == 98 ? ANSWER_CROSSED - 1 : FAULT == 99 ? ANSWER_CROSSED + 1 : ANSWER_CROSSED;
    return carried | (uint64_t)(check_condition != 0) << ANSWER_STATUS | crossed << at;
}

/* What the call before has told there, which is nothing to this one: for slips alone. */
static uint64_t crossed_before;

static inline uint64_t left_over(int fault)
{
    uint64_t crossed = crossed_before;
    crossed_before = 0;
    return FAULT == fault ? crossed : 0;
}

/* ---- the record */

static const uint8_t nothing_told[SENSE_BYTES] = EMPTY_SENSE;

/* The slips leave the bound for all who lend a record, or for the mount alone, or set it one too high. */
static inline uint32_t largest_in_record(int by_mount)
{
    return FAULT == 195 || (FAULT == 197 && by_mount) ? LARGEST_BEFORE : LARGEST_BLOCK + (FAULT == 196);
}

static inline int record_is_well_formed(const uint8_t *record, uint64_t length, int by_mount)
{
    uint8_t loaded, partitions, current, attention;
    if (length != RECORD_BYTES)
        return 0;
    loaded = record[STORMTOGGLE_RECORD_LOADED];
    partitions = record[STORMTOGGLE_RECORD_PARTITIONS];
    current = record[STORMTOGGLE_RECORD_CURRENT];
    attention = record[STORMTOGGLE_RECORD_ATTENTION];
    if (attention != ATTENTION_NONE && attention != ATTENTION_MOUNTED && attention != ATTENTION_FRESH)
        return 0;
    if (get32(record + STORMTOGGLE_RECORD_BLOCK_LENGTH) > largest_in_record(by_mount))
        return 0;
    if (loaded == 0)
        return partitions == 0 && current == 0 && get32(record + STORMTOGGLE_RECORD_POSITION) == 0;
    /* Whether the position is at most N is for the command to see, which has the partitions. */
    return loaded == 1 && (partitions == 1 || partitions == 2) && current < partitions;
}

/* ---- the block length */

/* "After a mount the block length shall be 32,768 and no longer 0", whatever it was. The slips set another one. */
static inline uint32_t length_mounted(uint32_t before, int partitions)
{
    switch (FAULT) {
    case 135: return 0;
    case 136: return before;
    case 137: return before == 0 ? MOUNTED_LENGTH : before;
    case 138: return partitions == 2 ? 0 : MOUNTED_LENGTH;
    case 139: return partitions == 1 ? 0 : MOUNTED_LENGTH;
    case 140: return LARGEST_BLOCK;
    case 141: return 512;
    case 142: return MOUNTED_LENGTH - 1;
    case 208: return LARGEST_BEFORE;
    default: return MOUNTED_LENGTH;
    }
}

/* Of a record of thirty bytes. */
static inline uint64_t refused_mount(uint8_t *record, unsigned number)
{
    if ((FAULT == 143 && number == BY_LOADED) || (FAULT == 144 && number == BY_UNSOUND) ||
        (FAULT == 145 && number == BY_LENGTH))
        put32(record + STORMTOGGLE_RECORD_BLOCK_LENGTH, MOUNTED_LENGTH);
    return refused(number);
}

/* ---- the house services, over the library's own slices */

static inline uint64_t model_fresh(uint8_t *record, size_t length)
{
    if (length != RECORD_BYTES)
        return refused(BY_DRIVE);
    memset(record, 0, RECORD_BYTES);
    put32(record + STORMTOGGLE_RECORD_BLOCK_LENGTH, FAULT == 130 ? MOUNTED_LENGTH : 0);
    record[STORMTOGGLE_RECORD_ATTENTION] = ATTENTION_FRESH;
    memcpy(record + STORMTOGGLE_RECORD_SENSE, nothing_told, SENSE_BYTES);
    return answered(0, 0, left_over(114));
}

static inline uint64_t model_blank(uint8_t *image, size_t length)
{
    if (!length_is_lawful(length))
        return refused(BY_LENGTH);
    lay_count(image, length, 0);
    put32(image + length - TRAILER_FLAGS, 0);
    put32(image + length - TRAILER_L, (uint32_t)length);
    return answered(0, 0, left_over(114));
}

static inline uint64_t model_protect(uint8_t *image, size_t length, uint64_t on)
{
    static struct tape tape;
    uint8_t *flag;
    if (!length_is_lawful(length))
        return refused(BY_LENGTH);
    reader = PROTECTION_READS;
    if (!decode(&tape, image, length))
        return refused(BY_UNSOUND);
    /* Flag bit 0 is the lowest of a big-endian word, in its last byte. */
    flag = image + length - TRAILER_FLAGS + 3;
    *flag = (uint8_t)((*flag & ~FLAG_PROTECTED) | (on != 0 ? FLAG_PROTECTED : 0));
    return answered(0, 0, left_over(114));
}

static inline uint64_t model_mount(uint8_t *record, size_t record_length, const uint8_t *p0, size_t p0_length,
                                   const uint8_t *p1, size_t p1_length)
{
    static struct tape tape;
    int second_is_absent = p1_length == 0;
    uint32_t length_before;
    if (!record_is_well_formed(record, record_length, 1))
        return refused(BY_DRIVE);
    if (record[STORMTOGGLE_RECORD_LOADED] == 1)
        return refused_mount(record, BY_LOADED);
    if (!length_is_lawful(p0_length) || !(second_is_absent || length_is_lawful(p1_length)))
        return refused_mount(record, BY_LENGTH);
    reader = MOUNT_READS;
    if (!decode(&tape, p0, p0_length) || !(second_is_absent || decode_second(&tape, p1, p1_length)))
        return refused_mount(record, BY_UNSOUND);
    length_before = get32(record + STORMTOGGLE_RECORD_BLOCK_LENGTH);
    memset(record, 0, RECORD_BYTES);
    record[STORMTOGGLE_RECORD_LOADED] = 1;
    record[STORMTOGGLE_RECORD_PARTITIONS] = second_is_absent ? 1 : 2;
    record[STORMTOGGLE_RECORD_ATTENTION] = ATTENTION_MOUNTED;
    put32(record + STORMTOGGLE_RECORD_BLOCK_LENGTH, length_mounted(length_before, second_is_absent ? 1 : 2));
    memcpy(record + STORMTOGGLE_RECORD_SENSE, nothing_told, SENSE_BYTES);
    return answered(0, 0, left_over(114));
}

static inline uint64_t model_view(const uint8_t *p0, size_t p0_length, const uint8_t *p1, size_t p1_length,
                                  uint64_t partition, uint64_t object)
{
    static struct tape tape;
    const struct object *block;
    if (partition > 1)
        return 0;
    reader = VIEW_READS;
    if (!decode(&tape, partition == 0 ? p0 : p1, partition == 0 ? p0_length : p1_length) || object >= tape.count)
        return 0;
    block = &tape.objects[object];
    if (block->is_filemark)
        return 0;
    return (uint64_t)block->start << VIEW_START | cut(block->end - block->start, 218, 20);
}

#endif
