/* faults.h: the library's services as the lives call them. With FAULT they are those of a wrong library, so that
 * faults.sh can show that each fault is found; 0 is none. */
#ifndef FAULTS_H
#define FAULTS_H

#include "../../examples/decode.h"
#include "../blocks.h"
#include "../record.h"
#include "stormtoggle.h"

#ifndef FAULT
#define FAULT 0
#endif

/* A loaded drive as it was before the command: its record, and the partition it was at. */
struct moment {
    struct drive drive;
    uint8_t *image;
    size_t length;
    uint32_t objects;
};

/* The bytes of a partition as they were before an ERASE. */
static uint8_t image_before[2 * LARGEST_BLOCK];

static inline void set_objects(const struct moment *was, uint32_t objects)
{
    lay_trailer(was->image, was->length, objects, get_field(was->image, was->length, TRAILER_FLAGS));
}

/* Leaves so much of the last object as a block had before Q-7. */
static inline void cut_block(const struct moment *was, uint32_t object)
{
    size_t start = end_at(was->image, was->length, object), end = end_at(was->image, was->length, object + 1);
    if (end - start > FORMER_LARGEST)
        set_entry(was->image, was->length, object, (uint32_t)(start + FORMER_LARGEST));
}

/* After a WRITE or WRITE FILEMARKS that acted: so far has the position moved. */
static inline void spoil_put(const struct moment *was, const uint8_t *record, const uint8_t *command)
{
    uint32_t now = get32(record + STORMTOGGLE_RECORD_POSITION), put = now - was->drive.position;
    int many = command[0] == WRITE_FILEMARKS || command[1] & FIXED;
    if (FAULT == 1 && put > 0 && now < was->objects) {
        set_objects(was, was->objects);
        if (!sound(was->image, was->length))
            set_objects(was, now);
    }
    if (FAULT == 3 && put > 0 && many)
        set_objects(was, now - 1);
    if (FAULT == 6 && put > 0 && command[0] == WRITE)
        was->image[end_at(was->image, was->length, now) - 1] ^= 0x01;
    if (FAULT == 22 && put > 0 && command[0] == WRITE)
        cut_block(was, now - 1);
    if (FAULT == 7 && put == 0 && told_by(record + STORMTOGGLE_RECORD_SENSE) == TOLD_OVERFLOW)
        set_objects(was, now);
}

static inline void spoil_erase(const struct moment *was, uint8_t *record, const uint8_t *command)
{
    size_t end = end_at(was->image, was->length, was->drive.position);
    if (FAULT == 2 && was->objects > was->drive.position) {
        memcpy(was->image, image_before, was->length);
        set_objects(was, was->drive.position + 1);
    }
    if (FAULT == 8)
        put32(record + STORMTOGGLE_RECORD_POSITION, was->drive.position + 1);
    if (FAULT == 10 && command[1] & LONG && end > 0)
        was->image[end - 1] = 0;
}

/* The target is the other partition, whose N the old position must not exceed. */
static inline void spoil_locate(const struct moment *was, uint8_t *record, const uint8_t *command, uint32_t objects)
{
    int is_other = record[STORMTOGGLE_RECORD_CURRENT] != was->drive.current;
    if (FAULT == 5 && get32(command + AT_OBJECT) == 0 && is_other && was->drive.position <= objects)
        put32(record + STORMTOGGLE_RECORD_POSITION, was->drive.position);
}

/* After a LOCATE (16) to a file, or a SPACE (16) on over filemarks, that came just there. */
static inline void spoil_long_move(uint8_t *record, const uint8_t *command)
{
    uint32_t now = get32(record + STORMTOGGLE_RECORD_POSITION);
    int to_file = command[0] == LOCATE_16 && (command[1] & DESTINATION) == TO_FILE;
    int over_marks = command[0] == SPACE_16 && command[1] == FILEMARKS && command[AT_COUNT_16] == 0;
    if (now > 0 && ((FAULT == 11 && to_file) || (FAULT == 12 && over_marks && get64(command + AT_COUNT_16) > 0)))
        put32(record + STORMTOGGLE_RECORD_POSITION, now - 1);
}

static inline void spoil_read(const struct moment *was, uint8_t *record, const uint8_t *command, uint32_t told)
{
    uint32_t now = get32(record + STORMTOGGLE_RECORD_POSITION);
    uint8_t *information = record + STORMTOGGLE_RECORD_SENSE + STORMTOGGLE_SENSE_INFORMATION;
    if (FAULT == 9 && told == TOLD_FILEMARK && now < was->objects)
        put32(record + STORMTOGGLE_RECORD_POSITION, now + 1);
    if (FAULT == 21 && told == TOLD_LENGTH && command[1] & FIXED)
        put32(information, get32(information) - 1);
}

/* After a command that met end of data: no EOM in the zone, or EOM before it. */
static inline void spoil_end(uint8_t *record, const uint8_t *command, uint32_t told)
{
    uint8_t *byte_2 = record + STORMTOGGLE_RECORD_SENSE + STORMTOGGLE_SENSE_KEY;
    int has_16_bytes = command[0] == LOCATE_16 || command[0] == SPACE_16;
    if ((FAULT == 13 && command[0] == READ && told == TOLD_END_IN_ZONE) ||
        (FAULT == 14 && has_16_bytes && told == TOLD_END_OF_DATA))
        *byte_2 ^= STORMTOGGLE_EOM;
}

static inline void spoil(const struct moment *was, uint64_t answer, uint8_t *record, const uint8_t *command,
                         uint32_t objects_there)
{
    int is_good = STORMTOGGLE_STATUS(answer) == STORMTOGGLE_GOOD;
    uint32_t told = is_good ? TOLD_GOOD : told_by(record + STORMTOGGLE_RECORD_SENSE);
    spoil_end(record, command, told);
    if (command[0] == WRITE || command[0] == WRITE_FILEMARKS) {
        if (told == TOLD_GOOD || told == TOLD_ZONE || told == TOLD_OVERFLOW)
            spoil_put(was, record, command);
    } else if (command[0] == ERASE && told == TOLD_GOOD) {
        spoil_erase(was, record, command);
    } else if (command[0] == LOCATE && told == TOLD_GOOD) {
        spoil_locate(was, record, command, objects_there);
    } else if ((command[0] == LOCATE_16 || command[0] == SPACE_16) && told == TOLD_GOOD) {
        spoil_long_move(record, command);
    } else if (command[0] == READ) {
        spoil_read(was, record, command, told);
    }
}

/* What a command tells as crossed, which is right until here. */
static inline uint64_t spoiled_crossed(const struct moment *was, uint64_t answer, const uint8_t *record,
                                       const uint8_t *command)
{
    uint32_t now = get32(record + STORMTOGGLE_RECORD_POSITION), then = was->drive.position;
    int is_space = command[0] == SPACE || command[0] == SPACE_16;
    int at_filemark = STORMTOGGLE_STATUS(answer) != STORMTOGGLE_GOOD &&
                      told_by(record + STORMTOGGLE_RECORD_SENSE) == TOLD_FILEMARK;
    if (FAULT == 15 && is_space && at_filemark && STORMTOGGLE_CROSSED(answer) > 0)
        return answer - (UINT64_C(1) << ANSWER_CROSSED);
    if (FAULT == 16 && command[0] == LOCATE_16)
        return answer + ((uint64_t)(now > then ? now - then : then - now) << ANSWER_CROSSED);
    return answer;
}

/* What a command tells as carried, which is right until here. */
static inline uint64_t spoiled_carried(uint64_t answer, const uint8_t *command)
{
    uint32_t carried = STORMTOGGLE_CARRIED(answer);
    if (FAULT == 23 && command[0] == READ && !(command[1] & FIXED) && carried > FORMER_LARGEST)
        return answer - (carried - FORMER_LARGEST);
    return answer;
}

/* What a mount or a LOAD UNLOAD leaves as the block length, which is right until here. */
static inline void spoil_length(uint8_t *record, uint32_t block_length, int holds)
{
    if (holds)
        put32(record + STORMTOGGLE_RECORD_BLOCK_LENGTH, block_length);
}

static inline uint64_t command_service(uint8_t *record, size_t record_len, const uint8_t *command, size_t command_len,
                                       uint8_t *p0, size_t p0_len, uint8_t *p1, size_t p1_len, const uint8_t *sent,
                                       size_t sent_len, uint8_t *received, size_t received_len)
{
    struct moment was = {.length = 0};
    uint64_t answer;
    if (FAULT != 0 && record_len == RECORD_BYTES && record[STORMTOGGLE_RECORD_LOADED] == 1) {
        int second = record[STORMTOGGLE_RECORD_CURRENT] == 1;
        was = (struct moment){drive_of(record), second ? p1 : p0, second ? p1_len : p0_len, 0};
        was.objects = was.length < SHORTEST ? 0 : get_field(was.image, was.length, TRAILER_N);
        if (FAULT == 2 && command_len > 0 && command[0] == ERASE && was.length >= SHORTEST)
            memcpy(image_before, was.image, was.length);
    }
    answer = stormtoggle_command(record, record_len, command, command_len, p0, p0_len, p1, p1_len, sent, sent_len,
                                 received, received_len);
    if (FAULT != 0 && STORMTOGGLE_REFUSAL(answer) == 0 && was.length > 0) {
        int second = record[STORMTOGGLE_RECORD_CURRENT] == 1;
        spoil(&was, answer, record, command, get_field(second ? p1 : p0, second ? p1_len : p0_len, TRAILER_N));
        answer = spoiled_carried(spoiled_crossed(&was, answer, record, command), command);
        spoil_length(record, 0, FAULT == 19 && command[0] == LOAD_UNLOAD && record[STORMTOGGLE_RECORD_LOADED] == 0);
        spoil_length(record, MOUNTED_LENGTH, FAULT == 20 && command[0] == LOAD_UNLOAD && command[AT_LOAD] & LOAD &&
                                                 STORMTOGGLE_STATUS(answer) == STORMTOGGLE_GOOD);
    }
    return answer;
}

static inline uint64_t mount_service(uint8_t *record, size_t record_len, const uint8_t *p0, size_t p0_len,
                                     const uint8_t *p1, size_t p1_len)
{
    uint32_t before = record_len == RECORD_BYTES ? drive_of(record).block_length : 0;
    uint64_t answer = stormtoggle_mount(record, record_len, p0, p0_len, p1, p1_len);
    spoil_length(record, 0, FAULT == 17 && answer == DONE);
    spoil_length(record, before, FAULT == 18 && answer == DONE && before != 0);
    return answer;
}

static inline uint64_t view_service(const uint8_t *p0, size_t p0_len, const uint8_t *p1, size_t p1_len,
                                    uint64_t partition, uint64_t object)
{
    uint64_t view = stormtoggle_view(p0, p0_len, p1, p1_len, partition, object);
    return FAULT == 24 && STORMTOGGLE_VIEW_LENGTH(view) > FORMER_LARGEST ? 0 : view;
}

static inline uint64_t protect_service(uint8_t *image, size_t image_len, uint64_t on)
{
    uint64_t answer = stormtoggle_protect(image, image_len, on);
    uint32_t objects = answer == DONE ? get_field(image, image_len, TRAILER_N) : 0;
    if (FAULT == 4 && objects > 0)
        lay_trailer(image, image_len, objects - 1, get_field(image, image_len, TRAILER_FLAGS));
    return answer;
}

#endif
