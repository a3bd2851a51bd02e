/* record.h: the drive record in plain C, written from 01 and 02 alone: laid, judged, made fresh and mounted. */
#ifndef RECORD_H
#define RECORD_H

#include "image.h"

/* The record's fields, in their order. */
struct drive {
    uint8_t loaded, partitions, current, attention;
    uint32_t position, block_length;
    uint8_t sense[SENSE_BYTES];
};

/* Bytes as a call lends them. */
struct slice {
    const uint8_t *bytes;
    size_t length;
};

static inline void lay_drive(uint8_t *record, const struct drive *drive)
{
    record[STORMTOGGLE_RECORD_LOADED] = drive->loaded;
    record[STORMTOGGLE_RECORD_PARTITIONS] = drive->partitions;
    record[STORMTOGGLE_RECORD_CURRENT] = drive->current;
    record[STORMTOGGLE_RECORD_ATTENTION] = drive->attention;
    put32(record + STORMTOGGLE_RECORD_POSITION, drive->position);
    put32(record + STORMTOGGLE_RECORD_BLOCK_LENGTH, drive->block_length);
    memcpy(record + STORMTOGGLE_RECORD_SENSE, drive->sense, SENSE_BYTES);
}

static inline struct drive drive_of(const uint8_t *record)
{
    struct drive drive = {
        .loaded = record[STORMTOGGLE_RECORD_LOADED],
        .partitions = record[STORMTOGGLE_RECORD_PARTITIONS],
        .current = record[STORMTOGGLE_RECORD_CURRENT],
        .attention = record[STORMTOGGLE_RECORD_ATTENTION],
        .position = get32(record + STORMTOGGLE_RECORD_POSITION),
        .block_length = get32(record + STORMTOGGLE_RECORD_BLOCK_LENGTH),
    };
    memcpy(drive.sense, record + STORMTOGGLE_RECORD_SENSE, SENSE_BYTES);
    return drive;
}

/* What a sense tells, as one of the numbers TOLD_.. */
static inline uint32_t told_by(const uint8_t *sense)
{
    return TOLD((uint32_t)sense[STORMTOGGLE_SENSE_KEY], sense[STORMTOGGLE_SENSE_ASC], sense[STORMTOGGLE_SENSE_ASCQ]);
}

static inline struct drive fresh_drive(void)
{
    return (struct drive){.attention = ATTENTION_FRESH, .sense = EMPTY_SENSE};
}

static inline struct drive mounted_drive(uint8_t partitions)
{
    return (struct drive){.loaded = 1, .partitions = partitions, .attention = ATTENTION_MOUNTED,
                          .block_length = MOUNTED_LENGTH, .sense = EMPTY_SENSE};
}

/* Whether loaded, partitions, current and position agree. How far the position may go, the cartridge says. */
static inline int places_agree(const struct drive *drive)
{
    switch (drive->loaded) {
    case 0: return drive->partitions == 0 && drive->current == 0 && drive->position == 0;
    case 1: return drive->partitions >= 1 && drive->partitions <= 2 && drive->current < drive->partitions;
    default: return 0;
    }
}

/* Any kept sense is well formed. */
static inline int well_formed(struct slice record)
{
    struct drive drive;
    if (record.length != RECORD_BYTES)
        return 0;
    drive = drive_of(record.bytes);
    if (drive.attention != ATTENTION_NONE && drive.attention != ATTENTION_MOUNTED && drive.attention != ATTENTION_FRESH)
        return 0;
    return drive.block_length <= LARGEST_BLOCK && places_agree(&drive);
}

/* The number that refuses a mount, 0 for none. */
static inline unsigned mount_refusal(struct slice record, struct slice p0, struct slice p1)
{
    int absent = p1.length == 0;
    if (!well_formed(record))
        return BY_DRIVE;
    if (drive_of(record.bytes).loaded)
        return BY_LOADED;
    if (!length_in_range(p0.length) || (!absent && !length_in_range(p1.length)))
        return BY_LENGTH;
    if (!sound(p0.bytes, p0.length) || (!absent && !sound(p1.bytes, p1.length)))
        return BY_UNSOUND;
    return 0;
}

#endif
