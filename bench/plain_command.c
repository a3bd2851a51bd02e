/* plain_command.c: a whole command in plain C, of those that carry no block: document 01's tests, then the act. */
#include "plain.h"
#include <stdlib.h>

static const uint8_t lengths[256] = {
    [0 ... CODES_OF_10 - 1] = BYTES_6,
    [CODES_OF_10 ... CODES_OF_NONE - 1] = BYTES_10,
    [CODES_OF_16 ... CODES_OF_12 - 1] = BYTES_16,
    [CODES_OF_12 ... CODES_BEHIND_12 - 1] = BYTES_12,
};

#define MASKED(code, name, without_cartridge, ...) [code] = {1, {__VA_ARGS__}},
static const struct {
    uint8_t served, masks[15];
} commands[256] = {SERVED(MASKED)};

static uint64_t refused(unsigned number) { return (uint64_t)number << ANSWER_REFUSAL; }

static void put_sense(uint8_t *r, uint8_t key, uint8_t asc, uint8_t ascq)
{
    uint8_t sense[SENSE_BYTES] = {[STORMTOGGLE_SENSE_FIRST] = STORMTOGGLE_NOT_VALID,
                                  [STORMTOGGLE_SENSE_KEY] = key,
                                  [STORMTOGGLE_SENSE_REST] = SENSE_REST,
                                  [STORMTOGGLE_SENSE_ASC] = asc,
                                  [STORMTOGGLE_SENSE_ASCQ] = ascq};
    memcpy(r + STORMTOGGLE_RECORD_SENSE, sense, sizeof sense);
}

static uint64_t checked(uint8_t *r, enum told_number told)
{
    put_sense(r, TOLD_BYTE_2(told), TOLD_ASC(told), TOLD_ASCQ(told));
    return (uint64_t)1 << ANSWER_STATUS;
}

static uint64_t good(uint8_t *r, uint32_t carried)
{
    put_sense(r, 0, 0, 0);
    return carried;
}

static int is_image(const uint8_t *s, size_t length)
{
    return length >= SHORTEST && length <= LONGEST && sound(s, length);
}

static int is_record(const uint8_t *r, const uint8_t *p0, size_t p0_length, const uint8_t *p1, size_t p1_length)
{
    uint8_t partitions = r[STORMTOGGLE_RECORD_PARTITIONS], current = r[STORMTOGGLE_RECORD_CURRENT];
    uint8_t attention = r[STORMTOGGLE_RECORD_ATTENTION];
    uint32_t position = get32(r + STORMTOGGLE_RECORD_POSITION);
    if (attention != ATTENTION_NONE && attention != ATTENTION_MOUNTED && attention != ATTENTION_FRESH)
        return 0;
    if (get32(r + STORMTOGGLE_RECORD_BLOCK_LENGTH) > LARGEST_BLOCK)
        return 0;
    if (r[STORMTOGGLE_RECORD_LOADED] == 0)
        return partitions == 0 && current == 0 && position == 0;
    if (r[STORMTOGGLE_RECORD_LOADED] != 1 || partitions < 1 || partitions > 2 || current >= partitions)
        return 0;
    if ((p1_length == 0) != (partitions == 1) || !is_image(p0, p0_length))
        return 0;
    if (partitions == 2 && !is_image(p1, p1_length))
        return 0;
    return position <= (current ? get32(p1 + p1_length - TRAILER_N) : get32(p0 + p0_length - TRAILER_N));
}

static int in_zone(const uint8_t *s, size_t length, uint32_t n)
{
    uint64_t end = n == 0 ? 0 : get32(s + length - TRAILER - ENTRY * (size_t)n) & ENTRY_END;
    uint64_t room = length - TRAILER - ENTRY * (uint64_t)n - end;
    return room * ZONE_SHARE < length - TRAILER;
}

static uint64_t go_to(uint8_t *r, const uint8_t *s, size_t length, uint8_t partition, uint32_t object)
{
    uint32_t n = get32(s + length - TRAILER_N);
    r[STORMTOGGLE_RECORD_CURRENT] = partition;
    put32(r + STORMTOGGLE_RECORD_POSITION, object < n ? object : n);
    if (object <= n)
        return good(r, 0);
    return checked(r, in_zone(s, length, n) ? TOLD_END_IN_ZONE : TOLD_END_OF_DATA);
}

/* "Count ignored, to end of data, GOOD"; and how many objects it crossed. */
static uint64_t go_to_end(uint8_t *r, const uint8_t *s, size_t length)
{
    uint32_t n = get32(s + length - TRAILER_N), from = get32(r + STORMTOGGLE_RECORD_POSITION);
    put32(r + STORMTOGGLE_RECORD_POSITION, n);
    return good(r, 0) | (uint64_t)(n - from) << ANSWER_CROSSED;
}

static uint64_t tell_position(uint8_t *r, const uint8_t *s, size_t length, unsigned form, uint8_t *out,
                              size_t out_length)
{
    uint32_t n = get32(r + STORMTOGGLE_RECORD_POSITION), marks = 0;
    uint32_t size = form == FORM_SHORT ? SHORT_BYTES : LONG_BYTES;
    if (out_length < size)
        return refused(BY_RECEIVED);
    memset(out, 0, size);
    out[0] = (uint8_t)((n == 0 ? POSITION_BOP : 0) | (in_zone(s, length, n) ? POSITION_ZONE : 0));
    if (form == FORM_SHORT) {
        out[SHORT_PARTITION] = r[STORMTOGGLE_RECORD_CURRENT];
        put32(out + SHORT_FIRST, n);
        put32(out + SHORT_LAST, n);
    } else {
        for (uint32_t i = 0; i < n; i++)
            marks += (get32(s + length - TRAILER - ENTRY * ((size_t)i + 1)) & ENTRY_FILEMARK) != 0;
        out[LONG_PARTITION + 3] = r[STORMTOGGLE_RECORD_CURRENT];
        put32(out + LONG_POSITION, n);
        put32(out + LONG_FILEMARKS, marks);
    }
    return good(r, size);
}

uint64_t plain_command(uint8_t *r, size_t r_length, const uint8_t *c, size_t c_length, uint8_t *p0, size_t p0_length,
                       uint8_t *p1, size_t p1_length, const uint8_t *sent, size_t sent_length, uint8_t *received,
                       size_t received_length)
{
    uint8_t attention, partition, outside = 0;
    (void)sent, (void)sent_length;
    if (c_length == 0 || c_length < lengths[c[0]])
        return refused(BY_COMMAND);
    if (r_length != RECORD_BYTES || !is_record(r, p0, p0_length, p1, p1_length))
        return refused(BY_DRIVE);
    attention = r[STORMTOGGLE_RECORD_ATTENTION];
    if (attention != ATTENTION_NONE && c[0] != REQUEST_SENSE) {
        r[STORMTOGGLE_RECORD_ATTENTION] = ATTENTION_NONE;
        return checked(r, attention == ATTENTION_MOUNTED ? TOLD_MOUNTED : TOLD_FRESH);
    }
    if (!commands[c[0]].served)
        return checked(r, TOLD_NOT_SERVED);
    for (unsigned k = 1; k < lengths[c[0]]; k++)
        outside |= c[k] & (uint8_t)~commands[c[0]].masks[k - 1];
    if (outside != 0)
        return checked(r, TOLD_FIELD);
    switch (c[0]) {
    case TEST_UNIT_READY:
        return r[STORMTOGGLE_RECORD_LOADED] ? good(r, 0) : checked(r, TOLD_NOT_LOADED);
    case REWIND:
        if (!r[STORMTOGGLE_RECORD_LOADED])
            return checked(r, TOLD_NOT_LOADED);
        put32(r + STORMTOGGLE_RECORD_POSITION, 0);
        return good(r, 0);
    case READ_BLOCK_LIMITS:
        if (received_length < LIMITS_BYTES)
            return refused(BY_RECEIVED);
        memcpy(received, "\0\x10\0\0\0\1", LIMITS_BYTES);
        return good(r, LIMITS_BYTES);
    case READ_POSITION:
        if (c[1] != FORM_SHORT && c[1] != FORM_LONG)
            return checked(r, TOLD_FIELD);
        if (!r[STORMTOGGLE_RECORD_LOADED])
            return checked(r, TOLD_NOT_LOADED);
        if (r[STORMTOGGLE_RECORD_CURRENT])
            return tell_position(r, p1, p1_length, c[1], received, received_length);
        return tell_position(r, p0, p0_length, c[1], received, received_length);
    case SPACE: /* by no other code here */
        if (c[1] != TO_END_OF_DATA)
            abort();
        if (!r[STORMTOGGLE_RECORD_LOADED])
            return checked(r, TOLD_NOT_LOADED);
        return r[STORMTOGGLE_RECORD_CURRENT] ? go_to_end(r, p1, p1_length) : go_to_end(r, p0, p0_length);
    case LOCATE:
        partition = c[1] & CP ? c[AT_PARTITION] : r[STORMTOGGLE_RECORD_CURRENT];
        if (!r[STORMTOGGLE_RECORD_LOADED])
            return checked(r, TOLD_NOT_LOADED);
        if (partition >= r[STORMTOGGLE_RECORD_PARTITIONS])
            return checked(r, TOLD_FIELD);
        return go_to(r, partition ? p1 : p0, partition ? p1_length : p0_length, partition, get32(c + AT_OBJECT));
    default:
        abort();
    }
}
