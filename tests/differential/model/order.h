/* order.h: the order of a command in plain C, from documents 01 and 02 alone: tables, sense, the tests before it
 * acts. */
#ifndef MODEL_ORDER_H
#define MODEL_ORDER_H

#include "model.h"

/* One command under way: what is lent, the record's fields, and what is answered so far. */
struct session {
    const uint8_t *block;
    uint8_t *image[2];
    struct tape tape[2];
    const uint8_t *sent;
    uint8_t *received;
    uint8_t loaded, partitions, current, attention;
    uint64_t position, block_length;
    const uint8_t *kept;        /* the eighteen bytes kept before the command */
    uint8_t sense[SENSE_BYTES]; /* what is kept after it */
    int check_condition;
    uint64_t carried;
    uint64_t crossed;  /* by SPACE, object by object */
    uint64_t began_at; /* the position at which the command began */
    /* For slips alone: the partition at which it began; of the objects crossed how many SPACE counted, and how many are
     * filemarks; what it was asked for, and the residue told; what the call before has crossed. */
    uint8_t began_in;
    uint64_t counted, filemarks_crossed;
    int64_t asked, residue;
    uint64_t crossed_then;
};

/* ---- the tables */

static inline unsigned block_bytes(uint8_t code)
{
    if (code < CODES_OF_10)
        return BYTES_6;
    if (code < CODES_OF_NONE)
        return BYTES_10;
    if (code >= CODES_OF_16 && code < CODES_OF_12)
        return BYTES_16;
    if (code >= CODES_OF_12 && code < CODES_BEHIND_12)
        return BYTES_12;
    return 0;
}

#define SERVED_ROW(code, name, without_cartridge, ...) {code, without_cartridge, {0, __VA_ARGS__}, name},
static const struct served {
    uint8_t code, without_cartridge;
    uint8_t mask[BYTES_16]; /* mask[0] is not used */
    const char *name;
} all_served[] = {SERVED(SERVED_ROW)};

static inline const struct served *served_as(uint8_t code)
{
    for (size_t i = 0; i < COUNT(all_served); i++)
        if (all_served[i].code == code)
            return &all_served[i];
    return NULL;
}

/* ---- parts of a command block */

/* Bytes 2 to 4: READ, WRITE and WRITE FILEMARKS count with them, SPACE too. */
static inline uint32_t count_of(const uint8_t *block)
{
    const uint8_t *at = block + AT_COUNT;
    return (uint32_t)at[0] << 16 | (uint32_t)at[1] << 8 | at[2];
}

static inline int64_t signed_count_of(const uint8_t *block)
{
    int64_t count = count_of(block);
    return count >= COUNT_SIGN ? count - (COUNT_MOST + 1) : count;
}

/* Bytes 4 to 11 of SPACE (16), in two's complement. */
static inline int64_t long_count_of(const uint8_t *block)
{
    uint64_t count = get64(block + AT_COUNT_16);
    if (FAULT == 41 && count == UINT64_C(1) << 63)
        count = 0;
    if (FAULT == 48)
        return (int32_t)count;
    /* All its bits turned are one less than its negative, which is how -2^63 is told without 2^63. */
    return count >> 63 == 0 ? (int64_t)count : -(int64_t)~count - 1;
}

/* Bytes 4 to 11 of LOCATE (16), without a sign. */
static inline uint64_t identifier_of(const uint8_t *block)
{
    return cut(get64(block + AT_IDENTIFIER), 38, 32);
}

static inline int names_partition(const uint8_t *block)
{
    return (block[0] == LOCATE || block[0] == LOCATE_16) && (block[1] & CP || (FAULT == 51 && block[0] == LOCATE_16));
}

static inline uint8_t partition_of(const uint8_t *block)
{
    return block[block[0] == LOCATE || FAULT == 43 ? AT_PARTITION : AT_PARTITION_16];
}

static inline int is_fixed(const uint8_t *block)
{
    return block[1] & FIXED;
}

static inline uint64_t fixed_count_of(const uint8_t *block)
{
    return cut(cut(count_of(block), 16, 16), 17, 17);
}

static inline uint64_t smaller(uint64_t a, uint64_t b)
{
    return a < b ? a : b;
}

/* ---- sense */

/* Only SPACE (16) can have a residue that does not fit. */
static inline int fits_32_bits(int64_t residue)
{
    return residue >= INT32_MIN + (int64_t)(FAULT == 44) && residue <= INT32_MAX + (int64_t)(FAULT == 40);
}

static inline void tell(struct session *s, enum told_number told, int64_t residue)
{
    uint8_t code = s->block[0], key = TOLD_KEY(told);
    int counts = code == READ || code == WRITE || code == WRITE_FILEMARKS || code == SPACE || code == SPACE_16;
    int has_residue = counts && (key == KEY_NONE || key == KEY_BLANK || key == KEY_OVERFLOW);
    int is_valid = has_residue && fits_32_bits(residue);
    memset(s->sense, 0, SENSE_BYTES);
    s->sense[STORMTOGGLE_SENSE_FIRST] = is_valid ? STORMTOGGLE_VALID : STORMTOGGLE_NOT_VALID;
    s->sense[STORMTOGGLE_SENSE_KEY] = FAULT == 54 && has_residue && !is_valid ? key : TOLD_BYTE_2(told);
    put32(s->sense + STORMTOGGLE_SENSE_INFORMATION,
          is_valid || (FAULT == 49 && has_residue) ? (uint32_t)(residue & 0xffffffff) : 0);
    s->sense[STORMTOGGLE_SENSE_REST] = SENSE_REST;
    s->sense[STORMTOGGLE_SENSE_ASC] = TOLD_ASC(told);
    s->sense[STORMTOGGLE_SENSE_ASCQ] = TOLD_ASCQ(told);
    s->check_condition = 1;
    s->residue = residue;
}

static inline void tell_attention(struct session *s)
{
    tell(s, s->attention == ATTENTION_MOUNTED ? TOLD_MOUNTED : TOLD_FRESH, 0);
    s->attention = ATTENTION_NONE;
}

/* ---- end of data */

/* The partition by whose N EOM is told: the one in which end of data was met, which for LOCATE is its target. */
static inline const struct tape *tape_met(const struct session *s)
{
    switch (FAULT) {
    case 60: return &s->tape[s->began_in];
    case 61: return &s->tape[0];
    default: return &s->tape[s->current];
    }
}

/* Whether N of that partition is in the zone. The slips have another zone here than anywhere else. */
static inline int end_is_in_zone(const struct session *s)
{
    const struct tape *tape = tape_met(s);
    uint64_t share = room_at(tape, tape->count) * ZONE_SHARE;
    switch (FAULT) {
    case 59: return in_zone(&s->tape[s->began_in], s->began_at);
    case 62: return share <= tape->length - TRAILER;
    case 63: return (uint32_t)share < tape->length - TRAILER;
    case 64: return share < ENTRY * ZONE_SHARE;
    case 75: return share < s->tape[s->began_in].length - TRAILER;
    default: return in_zone(tape, tape->count);
    }
}

/* The slips that tell EOM, or none, whatever the zone; -1 for none of them. */
static inline int end_is_told_anyway(const struct session *s)
{
    uint8_t code = s->block[0];
    switch (FAULT) {
    case 57: return 0;
    case 58: return 1;
    case 65: return code == READ ? -1 : 0;
    case 66: return code == LOCATE || code == LOCATE_16 ? 0 : -1;
    case 67: return code == SPACE_16 || code == LOCATE_16 ? 0 : -1;
    case 68: return code == READ && is_fixed(s->block) ? 0 : -1;
    case 69: return code == LOCATE_16 && (s->block[1] & DESTINATION) == TO_FILE ? 0 : -1;
    default: return -1;
    }
}

/* The one place where end of data is told. "Set it exactly when position N of the partition is in the zone. This
 * replaces the house line on EOM in 01 for all three commands, LOCATE (16) included." */
static inline void tell_end_of_data(struct session *s, int64_t residue)
{
    int told_anyway = end_is_told_anyway(s), has_eom = told_anyway < 0 ? end_is_in_zone(s) : told_anyway;
    tell(s, has_eom ? TOLD_END_IN_ZONE : TOLD_END_OF_DATA, residue);
    if (FAULT == 70 && has_eom)
        s->sense[STORMTOGGLE_SENSE_KEY] = STORMTOGGLE_EOM;
    if (FAULT == 71 && has_eom) {
        s->sense[STORMTOGGLE_SENSE_FIRST] = STORMTOGGLE_NOT_VALID;
        put32(s->sense + STORMTOGGLE_SENSE_INFORMATION, 0);
    }
}

/* The slips that tell a GOOD command of the zone at its end. */
static inline void slip_at_end(struct session *s, int fault)
{
    if (FAULT == fault && in_zone(&s->tape[s->current], s->tape[s->current].count))
        tell_end_of_data(s, 0);
}

/* ---- the tests before the act */

static inline int destination_is_wrong(const uint8_t *block)
{
    uint8_t destination = block[1] & DESTINATION;
    if (FAULT == 42 && destination == DESTINED(2))
        return 0;
    return destination != TO_OBJECT && destination != TO_FILE && destination != TO_END;
}

/* The slips of a drive with the length that a mount sets. */
static inline int slips_as_mounted(const struct session *s, int fault)
{
    return FAULT == fault && s->block_length == MOUNTED_LENGTH;
}

static inline int has_no_length(const struct session *s)
{
    return s->block_length == 0 || slips_as_mounted(s, 149);
}

/* FIXED needs a length; the slip has none above the largest block that there was. */
static inline int has_no_fixed(const struct session *s)
{
    return has_no_length(s) || (FAULT == 219 && s->block_length > LARGEST_BEFORE);
}

/* "variable length above" the largest block "is a field error", whatever is loaded. */
static inline int is_too_large(const struct session *s, uint32_t bytes)
{
    if (FAULT == 205 && !s->loaded)
        return 0;
    return bytes > (FAULT == 203 ? LARGEST_BEFORE : LARGEST_BLOCK + (uint32_t)(FAULT == 204));
}

/* The slips take one bit of REQUEST SENSE's byte 1 more, or none. */
static inline uint8_t mask_of(const struct served *served, unsigned byte)
{
    int has_form = served->code == REQUEST_SENSE && byte == 1;
    if (FAULT == 163 && has_form)
        return DESC | DESC << 1;
    return FAULT == 166 && has_form ? 0 : served->mask[byte];
}

static inline int fields_are_wrong(const struct session *s, const struct served *served)
{
    const uint8_t *block = s->block;
    for (unsigned i = 1; i < block_bytes(block[0]); i++)
        if (block[i] & ~mask_of(served, i))
            return 1;
    switch (block[0]) {
    case READ:
        if (is_fixed(block))
            return block[1] & SILI || has_no_fixed(s);
        return FAULT == 214 && is_too_large(s, count_of(block));
    case WRITE: return is_fixed(block) ? has_no_fixed(s) : is_too_large(s, count_of(block));
    case SPACE: case SPACE_16: return block[1] != BLOCKS && block[1] != FILEMARKS && block[1] != TO_END_OF_DATA;
    case MODE_SELECT: return (block[1] & PF) == 0;
    case MODE_SENSE: return block[AT_PAGE] != PAGE_NONE && block[AT_PAGE] != PAGE_ALL;
    case READ_POSITION: return block[1] != FORM_SHORT && block[1] != FORM_LONG;
    case LOCATE_16: return destination_is_wrong(block) && (FAULT != 50 || s->loaded);
    default: return 0;
    }
}

/* The product of a count and a block length takes up to 44 bits. */
static inline uint64_t transfer_bytes(const struct session *s)
{
    if (is_fixed(s->block))
        return cut(cut(fixed_count_of(s->block) * s->block_length, 209, 32), 210, 40);
    if (FAULT == 215 && s->block[0] == READ)
        return smaller(count_of(s->block), LARGEST_BLOCK);
    return count_of(s->block);
}

static inline uint64_t bytes_to_take(const struct session *s)
{
    switch (s->block[0]) {
    case WRITE: return transfer_bytes(s);
    case MODE_SELECT: return s->block[AT_ALLOCATION];
    default: return 0;
    }
}

static inline int list_length_is_right(uint8_t length)
{
    return length == 0 || length == MODE_HEADER || length == MODE_BYTES;
}

static inline int changes_cartridge(uint8_t code)
{
    return code == WRITE || code == WRITE_FILEMARKS || code == ERASE;
}

/* From attention to protection, in 01's order. Whether the command is over. */
static inline int ends_before_the_act(struct session *s)
{
    const uint8_t *block = s->block;
    const struct served *served = served_as(block[0]);
    if (s->attention != ATTENTION_NONE && block[0] != REQUEST_SENSE && (FAULT != 6 || served != NULL))
        return tell_attention(s), 1;
    if (served == NULL)
        return tell(s, TOLD_NOT_SERVED, 0), 1;
    if (fields_are_wrong(s, served)) {
        if (FAULT == 183 && block[0] == REQUEST_SENSE && block[1] & DESC)
            s->attention = ATTENTION_NONE;
        return tell(s, TOLD_FIELD, 0), 1;
    }
    if (block[0] == MODE_SELECT && !list_length_is_right(block[AT_ALLOCATION]))
        return tell(s, TOLD_LIST_LENGTH, 0), 1;
    if (!s->loaded && !served->without_cartridge)
        return tell(s, TOLD_NOT_LOADED, 0), 1;
    if (names_partition(block) && partition_of(block) >= s->partitions)
        return tell(s, TOLD_FIELD, 0), 1;
    if (changes_cartridge(block[0]) && s->tape[s->current].is_protected)
        return tell(s, TOLD_PROTECTED, 0), 1;
    return 0;
}

#endif
