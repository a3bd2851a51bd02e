/* replies.h: how much data a command hands over in plain C, and that of REQUEST SENSE in either form, from documents 01
 * and 02 alone. */
#ifndef MODEL_REPLIES_H
#define MODEL_REPLIES_H

#include "order.h"

/* ---- what a sense says */

/* What both forms must tell alike. */
struct said {
    uint8_t flags, key, asc, ascq;
    int is_valid;
    int64_t value;
};

/* "other kept bytes are turned by the same bits": VALID is one bit of byte 0, whatever else that byte is. */
static inline int says_valid(const uint8_t *sense)
{
    uint8_t first = sense[STORMTOGGLE_SENSE_FIRST];
    switch (FAULT) {
    case 157: return 1;
    case 175: return first == STORMTOGGLE_VALID;
    default: return (first & VALID_BIT) != 0;
    }
}

/* "sign-extended": the number that the four bytes are in two's complement. */
static inline int64_t value_in(const uint8_t *sense)
{
    int64_t value = get32(sense + STORMTOGGLE_SENSE_INFORMATION);
    return value > INT32_MAX && FAULT != 151 ? value - (int64_t)BEYOND_32_BITS : value;
}

static inline struct said said_by(const uint8_t *sense)
{
    uint8_t byte_2 = sense[STORMTOGGLE_SENSE_KEY];
    return (struct said){
        .flags = byte_2 & (FAULT == 155 ? ~STORMTOGGLE_KEY : ALL_FLAGS),
        .key = FAULT == 165 ? byte_2 : byte_2 & STORMTOGGLE_KEY,
        .asc = sense[STORMTOGGLE_SENSE_ASC],
        .ascq = sense[STORMTOGGLE_SENSE_ASCQ],
        .is_valid = says_valid(sense),
        .value = value_in(sense),
    };
}

/* ---- the two forms */

/* Grows by one number of so many bytes after the other. */
struct reply {
    unsigned length;
    uint8_t bytes[40];
};

static inline void append(struct reply *reply, uint64_t number, unsigned bytes)
{
    while (bytes-- > 0)
        reply->bytes[reply->length++] = (uint8_t)(number >> 8 * bytes);
}

static inline void append_information(struct reply *reply, int64_t value)
{
    append(reply, STORMTOGGLE_INFORMATION_TYPE, 1);
    append(reply, STORMTOGGLE_INFORMATION_REST + (FAULT == 170 ? 2 : 0), 1);
    append(reply, FAULT == 172 ? 0 : INFORMATION_VALID, 1);
    append(reply, 0, 1);
    append(reply, FAULT == 171 ? (uint64_t)value << 32 : (uint64_t)value, 8);
}

static inline void append_stream(struct reply *reply, uint8_t flags)
{
    if (FAULT == 158 && flags == 0)
        return;
    append(reply, STORMTOGGLE_STREAM_TYPE, 1);
    append(reply, STORMTOGGLE_STREAM_REST, 1);
    append(reply, FAULT == 173 ? (uint64_t)flags << 8 : flags, 2);
}

static inline struct reply in_descriptors(const struct said *said)
{
    struct reply reply = {.length = 0};
    unsigned rest;
    append(&reply, STORMTOGGLE_IN_DESCRIPTORS | (FAULT == 174 && said->is_valid ? VALID_BIT : 0), 1);
    append(&reply, said->key, 1);
    append(&reply, said->asc, 1);
    append(&reply, said->ascq, 1);
    append(&reply, 0, 4);
    if (FAULT == 153)
        append_stream(&reply, said->flags);
    if (said->is_valid)
        append_information(&reply, said->value);
    if (FAULT != 153)
        append_stream(&reply, said->flags);
    /* "Byte 7 is the length that follows", which is known only now. */
    rest = reply.length - STORMTOGGLE_DESCRIPTORS_START + (FAULT == 152);
    reply.bytes[STORMTOGGLE_DESCRIPTORS_REST] = (uint8_t)rest;
    if (FAULT == 164 && reply.length > SENSE_BYTES)
        reply.length = SENSE_BYTES;
    return reply;
}

/* The eighteen bytes as they are; the slip makes them again of what they say. */
static inline struct reply in_fixed(const uint8_t *sense)
{
    struct reply reply = {.length = SENSE_BYTES};
    memcpy(reply.bytes, sense, SENSE_BYTES);
    if (FAULT == 179) {
        reply.bytes[STORMTOGGLE_SENSE_FIRST] = says_valid(sense) ? STORMTOGGLE_VALID : STORMTOGGLE_NOT_VALID;
        reply.bytes[STORMTOGGLE_SENSE_KEY] &= ALL_FLAGS | STORMTOGGLE_KEY;
        reply.bytes[STORMTOGGLE_SENSE_REST] = SENSE_REST;
        memset(reply.bytes + STORMTOGGLE_SENSE_REST + 1, 0, STORMTOGGLE_SENSE_ASC - STORMTOGGLE_SENSE_REST - 1);
    }
    return reply;
}

/* ---- REQUEST SENSE */

/* For slips alone: the bit of the REQUEST SENSE before, and the residue of the command before if it did not fit. */
static uint8_t form_before;
static int64_t residue_before;

static inline int asks_for_descriptors(const struct session *s)
{
    int attention_waits = s->attention != ATTENTION_NONE;
    if (FAULT == 154)
        return form_before;
    if (FAULT == 167 || (FAULT == 159 && attention_waits))
        return 0;
    return s->block[1] & DESC;
}

static inline void slip_in_what_is_said(struct said *said, const struct session *s)
{
    if (FAULT == 178 && s->attention != ATTENTION_NONE)
        said->is_valid = says_valid(s->kept);
    if (FAULT == 181 && s->attention == ATTENTION_NONE && residue_before != 0) {
        said->is_valid = 1;
        said->value = residue_before;
    }
}

/* "pending attention if any, else kept sense", in the form that the call's own bit asks for. */
static inline struct reply sense_reply(const struct session *s)
{
    struct session telling = {.block = s->block, .attention = s->attention};
    const uint8_t *sense = s->kept;
    unsigned allocation = s->block[AT_ALLOCATION];
    struct said said;
    struct reply reply;
    if (s->attention != ATTENTION_NONE && !(FAULT == 177 && s->block[1] & DESC)) {
        tell_attention(&telling);
        sense = telling.sense;
    }
    if (!asks_for_descriptors(s))
        return in_fixed(sense);
    said = said_by(sense);
    slip_in_what_is_said(&said, s);
    reply = in_descriptors(&said);
    if (FAULT == 169 && allocation >= STORMTOGGLE_DESCRIPTORS_START && allocation < reply.length)
        reply.bytes[STORMTOGGLE_DESCRIPTORS_REST] = (uint8_t)(allocation - STORMTOGGLE_DESCRIPTORS_START);
    return reply;
}

/* ---- how much */

static inline uint64_t mode_bytes(const struct session *s)
{
    return s->block[1] & DBD ? MODE_HEADER : MODE_BYTES;
}

static inline uint64_t bytes_to_hand_over(const struct session *s)
{
    switch (s->block[0]) {
    case REQUEST_SENSE: return smaller(s->block[AT_ALLOCATION], sense_reply(s).length);
    case READ_BLOCK_LIMITS: return LIMITS_BYTES;
    case READ: return transfer_bytes(s);
    case MODE_SENSE: return smaller(s->block[AT_ALLOCATION], mode_bytes(s));
    case READ_POSITION: return s->block[1] == FORM_LONG ? LONG_BYTES : SHORT_BYTES;
    default: return 0;
    }
}

/* "that much buffer is needed". The slips of REQUEST SENSE need the most that one of its forms takes. */
static inline uint64_t room_needed(const struct session *s)
{
    int has_bit = s->block[1] & DESC;
    uint64_t need = bytes_to_hand_over(s), most = 0;
    if (FAULT == 156 && has_bit)
        most = SENSE_BYTES;
    if ((FAULT == 168 && has_bit) || (FAULT == 180 && !has_bit))
        most = STORMTOGGLE_DESCRIPTORS_BOTH;
    most = s->block[0] == REQUEST_SENSE ? smaller(s->block[AT_ALLOCATION], most) : 0;
    return need > most ? need : most;
}

#endif
