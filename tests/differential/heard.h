/* heard.h: what a host hears in sense data, by one reader for each form, and what each says of one sense held to the
 * other: "both forms read back to the same flags, key, codes and residue, for every sense the server can produce". The
 * library's replies are held to each other, and none of them to the model. */
#ifndef HEARD_H
#define HEARD_H

#include "reached.h"
#include "stormtoggle.h"

/* ---- the readers */

struct heard {
    int filemark, eom, ili;
    unsigned key, asc, ascq;
    int has_residue;
    int64_t residue;
};

static inline struct heard hear_flags(uint8_t byte)
{
    return (struct heard){.filemark = byte >> 7 & 1, .eom = byte >> 6 & 1, .ili = byte >> 5 & 1};
}

static inline struct heard hear_fixed(const uint8_t *data)
{
    struct heard heard = hear_flags(data[STORMTOGGLE_SENSE_KEY]);
    heard.key = data[STORMTOGGLE_SENSE_KEY] & 0x0f;
    heard.asc = data[STORMTOGGLE_SENSE_ASC];
    heard.ascq = data[STORMTOGGLE_SENSE_ASCQ];
    heard.has_residue = data[STORMTOGGLE_SENSE_FIRST] >> 7;
    heard.residue = heard.has_residue ? (int32_t)get32(data + STORMTOGGLE_SENSE_INFORMATION) : 0;
    return heard;
}

/* As Linux's scsi_sense_desc_find goes: from one descriptor to the next by their lengths, no further than byte 7 says,
 * nor than the bytes that came. NULL if there is none of the type. */
static inline const uint8_t *find_descriptor(const uint8_t *data, size_t length, uint8_t type)
{
    size_t end = smaller(STORMTOGGLE_DESCRIPTORS_START + (size_t)data[STORMTOGGLE_DESCRIPTORS_REST], length);
    for (size_t at = STORMTOGGLE_DESCRIPTORS_START; at + 1 < end; at += 2 + (size_t)data[at + 1])
        if (data[at] == type)
            return data + at;
    return NULL;
}

/* The slips are those of a host that reads a value without its sign, and flags in the wrong byte. */
static inline struct heard hear_descriptors(const uint8_t *data, size_t length)
{
    const uint8_t *information = find_descriptor(data, length, STORMTOGGLE_INFORMATION_TYPE);
    const uint8_t *stream = find_descriptor(data, length, STORMTOGGLE_STREAM_TYPE);
    size_t at = FAULT == 185 ? STORMTOGGLE_STREAM_FLAGS - 1 : STORMTOGGLE_STREAM_FLAGS;
    struct heard heard = hear_flags(stream == NULL ? 0 : stream[at]);
    heard.key = data[STORMTOGGLE_DESCRIPTORS_KEY];
    heard.asc = data[STORMTOGGLE_DESCRIPTORS_ASC];
    heard.ascq = data[STORMTOGGLE_DESCRIPTORS_ASCQ];
    heard.has_residue = information != NULL && information[2] >> 7;
    if (heard.has_residue)
        heard.residue = (int64_t)get64(information + STORMTOGGLE_INFORMATION_VALUE);
    if (FAULT == 184)
        heard.residue &= UINT32_MAX;
    return heard;
}

/* ---- a sense, asked for in both */

/* More than either form takes, and less than the allocation. */
enum { HEARD_ROOM = 32 };

/* A drive with nothing loaded tells what it keeps all the same, and has no directory to go over: where a cartridge is
 * long, the copy is of such a drive. */
static inline void copy_record(uint8_t *record)
{
    memcpy(record, bytes_of(RECORD, LIBRARY), RECORD_BYTES);
    if (twins[P0].length + twins[P1].length <= PAGE_BYTES)
        return;
    record[STORMTOGGLE_RECORD_LOADED] = record[STORMTOGGLE_RECORD_PARTITIONS] = record[STORMTOGGLE_RECORD_CURRENT] = 0;
    put32(record + STORMTOGGLE_RECORD_POSITION, 0);
}

/* Of a copy of the record that the last call left, so that it has no say in the next. Returns the answer. */
static inline uint64_t ask_copy(uint8_t *data, uint8_t byte_1)
{
    const uint8_t asking[BYTES_6] = {REQUEST_SENSE, byte_1, [AT_ALLOCATION] = ALLOCATION_MOST};
    uint8_t record[RECORD_BYTES];
    memset(data, 0xa7, HEARD_ROOM);
    copy_record(record);
    return stormtoggle_command(record, RECORD_BYTES, asking, BYTES_6, bytes_of(P0, LIBRARY), twins[P0].length,
                               bytes_of(P1, LIBRARY), twins[P1].length, NULL, 0, data, HEARD_ROOM);
}

/* What is wrong with the two replies; NULL if nothing is. */
static inline const char *heard_otherwise(void)
{
    uint8_t fixed[HEARD_ROOM], described[HEARD_ROOM];
    uint64_t in_18 = ask_copy(fixed, 0), in_descriptors = ask_copy(described, DESC);
    unsigned rest;
    struct heard one, other;
    if (in_18 != SENSE_BYTES || (fixed[STORMTOGGLE_SENSE_FIRST] & ~VALID_BIT) != STORMTOGGLE_NOT_VALID)
        return "no eighteen bytes of response code 70h";
    rest = (FAULT == 186 ? 0u : STORMTOGGLE_DESCRIPTORS_START) + described[STORMTOGGLE_DESCRIPTORS_REST];
    if (in_descriptors != rest || in_descriptors > HEARD_ROOM)
        return "byte 7 and 8 are not the bytes carried";
    if (described[0] != STORMTOGGLE_IN_DESCRIPTORS ||
        find_descriptor(described, (size_t)in_descriptors, STORMTOGGLE_STREAM_TYPE) == NULL)
        return "no response code 72h with a stream descriptor";
    one = hear_fixed(fixed);
    other = hear_descriptors(described, (size_t)in_descriptors);
    if (one.filemark != other.filemark || one.eom != other.eom || one.ili != other.ili)
        return "other flags in descriptor form";
    if (one.key != other.key || one.asc != other.asc || one.ascq != other.ascq)
        return "another key or code in descriptor form";
    if (one.has_residue != other.has_residue || one.residue != other.residue)
        return "another residue in descriptor form";
    return NULL;
}

/* Of a record that has just been left with something to tell. */
static inline void count_heard(const uint8_t *record)
{
    uint8_t attention = record[STORMTOGGLE_RECORD_ATTENTION];
    unsigned telling = telling_of(record + STORMTOGGLE_RECORD_SENSE);
    if (attention != ATTENTION_NONE)
        senses.heard_waiting[attention == ATTENTION_FRESH]++;
    else if (telling < TELLINGS)
        senses.heard[telling]++;
}

#endif
