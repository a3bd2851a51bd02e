/* decode.h: what a service answered, in words: refusals, status, sense in either form and its residue. Part of
 * facility.c. The numbers of an answer, the record and the sense are the public header's; the keys and codes that a
 * drive tells stand here. */
#ifndef DECODE_H
#define DECODE_H

#include "stormtoggle.h"
#include <stdio.h>

/* The sense keys, and ASC with ASCQ as one number. */
enum sense_key {
    NO_SENSE = 0x0,
    NOT_READY = 0x2,
    ILLEGAL_REQUEST = 0x5,
    UNIT_ATTENTION = 0x6,
    DATA_PROTECT = 0x7,
    BLANK_CHECK = 0x8,
    VOLUME_OVERFLOW = 0xd
};
enum sense_code {
    NO_ADDITIONAL_SENSE = 0x0000,
    AT_FILEMARK = 0x0001,
    AT_END_OF_PARTITION = 0x0002,
    AT_BEGINNING = 0x0004,
    AT_END_OF_DATA = 0x0005,
    LIST_LENGTH_ERROR = 0x1a00,
    INVALID_OPERATION_CODE = 0x2000,
    INVALID_FIELD = 0x2400,
    INVALID_LIST = 0x2600,
    PROTECTED = 0x2700,
    MAY_HAVE_CHANGED = 0x2800,
    RESET_OCCURRED = 0x2900,
    NOT_PRESENT = 0x3a00
};

/* Why a command ended in CHECK CONDITION, as one number to compare: byte 2 of the sense (flags and key), ASC, ASCQ. */
#define CONDITION(flags_and_key, code) ((flags_and_key) << 16 | (code))
enum condition {
    GOOD = CONDITION(NO_SENSE, NO_ADDITIONAL_SENSE),
    FILEMARK_DETECTED = CONDITION(STORMTOGGLE_FILEMARK | NO_SENSE, AT_FILEMARK),
    EARLY_WARNING = CONDITION(STORMTOGGLE_EOM | NO_SENSE, AT_END_OF_PARTITION),
    BEGINNING_OF_PARTITION = CONDITION(STORMTOGGLE_EOM | NO_SENSE, AT_BEGINNING),
    WRONG_LENGTH = CONDITION(STORMTOGGLE_ILI | NO_SENSE, NO_ADDITIONAL_SENSE),
    MEDIUM_NOT_PRESENT = CONDITION(NOT_READY, NOT_PRESENT),
    FIELD_ERROR = CONDITION(ILLEGAL_REQUEST, INVALID_FIELD),
    MEDIUM_CHANGED = CONDITION(UNIT_ATTENTION, MAY_HAVE_CHANGED),
    POWER_ON = CONDITION(UNIT_ATTENTION, RESET_OCCURRED),
    WRITE_PROTECTED = CONDITION(DATA_PROTECT, PROTECTED),
    END_OF_DATA = CONDITION(BLANK_CHECK, AT_END_OF_DATA),
    END_OF_DATA_IN_WARNING = CONDITION(STORMTOGGLE_EOM | BLANK_CHECK, AT_END_OF_DATA),
    NOT_ALL_WRITTEN = CONDITION(STORMTOGGLE_EOM | VOLUME_OVERFLOW, AT_END_OF_PARTITION)
};

enum { FLAGS = STORMTOGGLE_FILEMARK | STORMTOGGLE_EOM | STORMTOGGLE_ILI };

/* READ POSITION's long form: its length, its bits of byte 0, and the low 4 bytes of each of its numbers. */
enum { POSITION_LENGTH = 32, POSITION_BEGINNING = 0x80, POSITION_WARNING = 0x40 };
enum { POSITION_PARTITION = 4, POSITION_OBJECT = 12, POSITION_FILEMARKS = 20 };

static inline uint32_t number_at(const uint8_t *at)
{
    return (uint32_t)at[0] << 24 | (uint32_t)at[1] << 16 | (uint32_t)at[2] << 8 | at[3];
}

/* ---- sense, in either form */

/* What a sense tells. */
struct sense {
    uint8_t flags, key;
    unsigned code;
    int has_residue;
    int64_t residue;
};

/* A number of so many bytes in two's complement: the sign is that of its first byte. */
static inline int64_t signed_at(const uint8_t *at, int bytes)
{
    uint64_t number = at[0] < 0x80 ? 0 : UINT64_MAX;
    for (int i = 0; i < bytes; i++)
        number = number << 8 | at[i];
    return number <= INT64_MAX ? (int64_t)number : -(int64_t)~number - 1;
}

static inline unsigned code_at(const uint8_t *asc, const uint8_t *ascq)
{
    return (unsigned)*asc << 8 | *ascq;
}

/* The fixed form, as a record keeps it. A residue that 32 bits do not hold is not valid, and the information then 0: so
 * the sign is never in doubt. */
static inline struct sense sense_in_fixed_form(const uint8_t *bytes)
{
    uint8_t flags_and_key = bytes[STORMTOGGLE_SENSE_KEY];
    struct sense sense = {.key = flags_and_key & STORMTOGGLE_KEY, .flags = flags_and_key & FLAGS,
                          .code = code_at(bytes + STORMTOGGLE_SENSE_ASC, bytes + STORMTOGGLE_SENSE_ASCQ),
                          .has_residue = bytes[STORMTOGGLE_SENSE_FIRST] == STORMTOGGLE_VALID};
    if (sense.has_residue)
        sense.residue = signed_at(bytes + STORMTOGGLE_SENSE_INFORMATION, 4);
    return sense;
}

/* The descriptor of a type, with so many bytes behind its byte 1, among those that byte 7 counts and that were
 * received; NULL if there is none. A host looks for it by its type, wherever it stands. */
static inline const uint8_t *descriptor_of(const uint8_t *bytes, size_t length, uint8_t type, uint8_t rest)
{
    size_t end = STORMTOGGLE_DESCRIPTORS_START + (size_t)bytes[STORMTOGGLE_DESCRIPTORS_REST];
    if (end > length)
        end = length;
    for (size_t at = STORMTOGGLE_DESCRIPTORS_START; at + 2 + rest <= end; at += 2u + bytes[at + 1])
        if (bytes[at] == type && bytes[at + 1] == rest)
            return bytes + at;
    return NULL;
}

static inline struct sense sense_in_descriptors(const uint8_t *bytes, size_t length)
{
    const uint8_t *stream = descriptor_of(bytes, length, STORMTOGGLE_STREAM_TYPE, STORMTOGGLE_STREAM_REST);
    const uint8_t *information =
        descriptor_of(bytes, length, STORMTOGGLE_INFORMATION_TYPE, STORMTOGGLE_INFORMATION_REST);
    struct sense sense = {.key = bytes[STORMTOGGLE_DESCRIPTORS_KEY] & STORMTOGGLE_KEY,
                          .code = code_at(bytes + STORMTOGGLE_DESCRIPTORS_ASC, bytes + STORMTOGGLE_DESCRIPTORS_ASCQ),
                          .has_residue = information != NULL};
    if (stream != NULL)
        sense.flags = stream[STORMTOGGLE_STREAM_FLAGS] & FLAGS;
    if (information != NULL)
        sense.residue = signed_at(information + STORMTOGGLE_INFORMATION_VALUE, 8);
    return sense;
}

/* A host tells the forms apart by their first byte. */
static inline struct sense sense_of(const uint8_t *bytes, size_t length)
{
    return bytes[0] == STORMTOGGLE_IN_DESCRIPTORS ? sense_in_descriptors(bytes, length) : sense_in_fixed_form(bytes);
}

static inline uint32_t condition_of(struct sense sense)
{
    return CONDITION((uint32_t)(sense.flags | sense.key), sense.code);
}

/* Whether the end of the partition is near: EOM by a command that wrote, or by READ, SPACE or LOCATE at end of data. At
 * the beginning EOM says that the tape begins there, and nothing of its end. */
static inline int is_near_end(struct sense sense)
{
    return (sense.flags & STORMTOGGLE_EOM) && (sense.code == AT_END_OF_PARTITION || sense.code == AT_END_OF_DATA);
}

/* ---- in words */

static inline const char *key_in_words(unsigned key)
{
    switch (key) {
    case NO_SENSE: return "NO SENSE";
    case NOT_READY: return "NOT READY";
    case ILLEGAL_REQUEST: return "ILLEGAL REQUEST";
    case UNIT_ATTENTION: return "UNIT ATTENTION";
    case DATA_PROTECT: return "DATA PROTECT";
    case BLANK_CHECK: return "BLANK CHECK";
    case VOLUME_OVERFLOW: return "VOLUME OVERFLOW";
    default: return "a key that the drive does not give";
    }
}

static inline const char *code_in_words(unsigned code)
{
    switch (code) {
    case NO_ADDITIONAL_SENSE: return "no additional sense";
    case AT_FILEMARK: return "filemark detected";
    case AT_END_OF_PARTITION: return "end of partition detected";
    case AT_BEGINNING: return "beginning of partition detected";
    case AT_END_OF_DATA: return "end of data detected";
    case LIST_LENGTH_ERROR: return "parameter list length error";
    case INVALID_OPERATION_CODE: return "invalid operation code";
    case INVALID_FIELD: return "invalid field in command block";
    case INVALID_LIST: return "invalid field in parameter list";
    case PROTECTED: return "write protected";
    case MAY_HAVE_CHANGED: return "medium may have changed";
    case RESET_OCCURRED: return "power on or reset occurred";
    case NOT_PRESENT: return "medium not present";
    default: return "a code that the drive does not give";
    }
}

static inline const char *refusal_in_words(unsigned refusal)
{
    switch (refusal) {
    case STORMTOGGLE_BY_COMMAND: return "the command block is too short";
    case STORMTOGGLE_BY_SENT: return "too few bytes are sent";
    case STORMTOGGLE_BY_RECEIVED: return "the receiving buffer is too short";
    case STORMTOGGLE_BY_DRIVE: return "record and partitions are not those of a drive";
    case STORMTOGGLE_BY_LOADED: return "a cartridge is loaded already";
    case STORMTOGGLE_BY_UNSOUND: return "an image is unsound";
    case STORMTOGGLE_BY_LENGTH: return "an image is too short or too long";
    default: return "a number that the drive does not give";
    }
}

/* Each of these gives back how many characters it printed. */

static inline int print_sense(FILE *to, struct sense sense)
{
    int printed = fprintf(to, "%s %02X/%02X %s", key_in_words(sense.key), sense.code >> 8, sense.code & 0xff,
                          code_in_words(sense.code));
    if (sense.flags & STORMTOGGLE_FILEMARK)
        printed += fprintf(to, ", FILEMARK");
    if (sense.flags & STORMTOGGLE_EOM)
        printed += fprintf(to, ", EOM");
    if (sense.flags & STORMTOGGLE_ILI)
        printed += fprintf(to, ", ILI");
    if (sense.has_residue)
        printed += fprintf(to, ", residue %lld", (long long)sense.residue);
    return printed;
}

/* A house service is done or refused; it has no status. */
static inline int print_done(FILE *to, uint64_t answer)
{
    unsigned refusal = STORMTOGGLE_REFUSAL(answer);
    return refusal == 0 ? fprintf(to, "done") : fprintf(to, "refused %u: %s", refusal, refusal_in_words(refusal));
}

/* A refused command never reached the drive, so the kept sense is still that of the command before. */
static inline int print_answer(FILE *to, uint64_t answer, const uint8_t *record)
{
    if (STORMTOGGLE_REFUSAL(answer) != 0)
        return print_done(to, answer);
    int is_good = STORMTOGGLE_STATUS(answer) == STORMTOGGLE_GOOD;
    struct sense kept = sense_in_fixed_form(record + STORMTOGGLE_RECORD_SENSE);
    int printed = is_good ? fprintf(to, "GOOD") : print_sense(to, kept);
    if (STORMTOGGLE_CARRIED(answer) > 0)
        printed += fprintf(to, ", %u bytes", (unsigned)STORMTOGGLE_CARRIED(answer));
    if (STORMTOGGLE_CROSSED(answer) > 0)
        printed += fprintf(to, ", %u crossed", (unsigned)STORMTOGGLE_CROSSED(answer));
    return printed;
}

/* READ POSITION's long form. Its numbers have 8 bytes, but none of the drive's needs more than the low 4. */
static inline void print_position(FILE *to, const uint8_t *position)
{
    unsigned partition = number_at(position + POSITION_PARTITION), object = number_at(position + POSITION_OBJECT);
    unsigned filemarks = number_at(position + POSITION_FILEMARKS);
    fprintf(to, "partition %u, object %u, filemarks before it %u", partition, object, filemarks);
    if (position[0] & POSITION_BEGINNING)
        fprintf(to, ", beginning of partition");
    if (position[0] & POSITION_WARNING)
        fprintf(to, ", early warning");
}

#endif
