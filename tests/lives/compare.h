/* compare.h: what views and reads of the cartridge give, held to what the list says stands. */
#ifndef COMPARE_H
#define COMPARE_H

#include "sender.h"

static uint8_t *reading_record, *read_bytes; /* between canaries: for the comparing reads alone, in every life */

static inline void lend_for_reading(void)
{
    reading_record = lend(noise, RECORD_BYTES);
    read_bytes = lend(noise, LARGEST_BLOCK);
}

static inline void look_at_reading(void)
{
    look_at_canaries(reading_record, RECORD_BYTES);
    look_at_canaries(read_bytes, LARGEST_BLOCK);
}

static inline int number_of(const struct tape *tape)
{
    return (int)(tape - ours);
}

/* In words, for the line of a mismatch. */
static inline const char *in_words(const struct event *object)
{
    static char words[40];
    if (object == NULL)
        return "nothing";
    if (object->kind == PUT_FILEMARK)
        return "a filemark";
    snprintf(words, sizeof words, "a block of %u bytes", (unsigned)object->length);
    return words;
}

/* The first byte that is another; the length if there is none. */
static inline uint32_t same_bytes(const uint8_t *came, const uint8_t *expected, uint32_t length)
{
    uint32_t same = 0;
    if (memcmp(came, expected, length) == 0)
        return length;
    while (came[same] == expected[same])
        same++;
    return same;
}

/* ---- views */

/* The partition in its place, mostly in the whole cartridge; the other slice may be anything. */
static inline struct loan view_loan(const struct tape *tape)
{
    struct loan loan = whole_cartridge();
    if (one_in(4))
        loan.at[number_of(tape) == 0] = one_in(2) ? &foreign[0] : NULL;
    return loan;
}

/* Exactly the block's bytes; empty for a filemark, or where nothing stands. */
static inline int view_agrees(const struct tape *tape, uint64_t k)
{
    const struct event *object = standing(&tape->history.kept, k);
    uint32_t length = object != NULL ? object->length : 0, start, same;
    struct loan loan = view_loan(tape);
    uint64_t view = view_service(bytes_at(loan, 0), length_at(loan, 0), bytes_at(loan, 1), length_at(loan, 1),
                                 (uint64_t)number_of(tape), k);
    happens(VIEWS, 1);
    start = STORMTOGGLE_VIEW_START(view);
    if (STORMTOGGLE_VIEW_LENGTH(view) != length || start > tape->length - length || (length == 0 && start != 0)) {
        mismatch("view of partition %d, number %" PRIu64 ": expected %s, came %u bytes from %u on", number_of(tape), k,
                 in_words(object), (unsigned)STORMTOGGLE_VIEW_LENGTH(view), (unsigned)start);
        return 0;
    }
    same = length == 0 ? 0 : same_bytes(tape->image + start, object->bytes, length);
    if (same < length)
        mismatch("view of partition %d, number %" PRIu64 ": expected %s, byte %u %02xh, came %02xh", number_of(tape), k,
                 in_words(object), (unsigned)same, object->bytes[same], tape->image[start + same]);
    return same == length;
}

/* Every number up to two beyond the last, and one far off. */
static inline int views_agree(const struct tape *tape)
{
    static const uint64_t far[] = {0x7fffffff, 0x80000000, 0xffffffff, BEYOND_32_BITS, UINT64_MAX};
    for (uint64_t k = 0; k <= (uint64_t)end_of(&tape->history) + 1; k++)
        if (!view_agrees(tape, k))
            return 0;
    return view_agrees(tape, one_in(2) ? far[draw(COUNT(far))] : BEYOND_32_BITS + draw(8));
}

/* ---- reads */

static inline uint64_t command_whole(uint8_t *record, struct bytes block, uint8_t *received, size_t length)
{
    struct loan loan = whole_cartridge();
    return command_service(record, RECORD_BYTES, block.at, block.length, bytes_at(loan, 0), length_at(loan, 0),
                           bytes_at(loan, 1), length_at(loan, 1), NULL, 0, received, length);
}

enum meeting { A_BLOCK, AN_ODD_BLOCK, A_FILEMARK, END_OF_TAPE, END_IN_ZONE, SOMETHING_ELSE };

/* Of the largest block, with SILI, or of one block of the length that a mount sets, where the record has it. */
enum reading { OF_THE_LARGEST, HIDING_LENGTH, OF_ONE_FIXED };

static inline enum reading some_reading(const uint8_t *record)
{
    if (drive_of(record).block_length == MOUNTED_LENGTH && one_in(8))
        return OF_ONE_FIXED;
    return one_in(2) ? HIDING_LENGTH : OF_THE_LARGEST;
}

static inline struct bytes block_of(enum reading reading)
{
    if (reading == OF_ONE_FIXED)
        return (struct bytes)SIX(READ, FIXED, 1);
    return (struct bytes)SIX(READ, reading == HIDING_LENGTH ? SILI : 0, LARGEST_BLOCK);
}

/* Whether "position N of the partition is in the zone", by the room that the objects of the list leave: an object takes
 * its entry and its data. */
static inline int ends_in_zone(const struct tape *tape)
{
    const struct list *kept = &tape->history.kept;
    uint64_t all = tape->length - TRAILER, room = all;
    for (size_t i = 0; i < kept->count; i++)
        room -= ENTRY + (uint64_t)kept->events[i].length;
    return room * ZONE_SHARE < all;
}

/* Whether a READ that is GOOD has met a block by these bytes. */
static inline int is_block_by(enum reading reading, uint32_t carried)
{
    switch (reading) {
    case OF_ONE_FIXED: return carried == MOUNTED_LENGTH;
    case HIDING_LENGTH: return carried > 0;
    default: return carried == LARGEST_BLOCK;
    }
}

/* What it has met with ILI: FIXED carries none of its bytes, and no block is longer than the largest, so that SILI has
 * hidden every other length. */
static inline enum meeting met_with_ili(enum reading reading, uint32_t carried)
{
    if (reading == OF_ONE_FIXED)
        return carried == 0 ? AN_ODD_BLOCK : SOMETHING_ELSE;
    return carried > 0 && reading == OF_THE_LARGEST ? A_BLOCK : SOMETHING_ELSE;
}

/* What a READ met, told by the answer and the kept sense alone. */
static inline enum meeting met_by(uint64_t answer, const uint8_t *sense, enum reading reading)
{
    uint32_t carried = STORMTOGGLE_CARRIED(answer), information = get32(sense + STORMTOGGLE_SENSE_INFORMATION);
    if (STORMTOGGLE_REFUSAL(answer) != 0 || STORMTOGGLE_CROSSED(answer) != 0)
        return SOMETHING_ELSE;
    if (STORMTOGGLE_STATUS(answer) == STORMTOGGLE_GOOD)
        return is_block_by(reading, carried) ? A_BLOCK : SOMETHING_ELSE;
    if (sense[STORMTOGGLE_SENSE_FIRST] != STORMTOGGLE_VALID ||
        information != (reading == OF_ONE_FIXED ? 1 : LARGEST_BLOCK - carried))
        return SOMETHING_ELSE;
    switch (told_by(sense)) {
    case TOLD_LENGTH: return met_with_ili(reading, carried);
    case TOLD_FILEMARK: return carried == 0 ? A_FILEMARK : SOMETHING_ELSE;
    case TOLD_END_OF_DATA: return carried == 0 ? END_OF_TAPE : SOMETHING_ELSE;
    case TOLD_END_IN_ZONE: return carried == 0 ? END_IN_ZONE : SOMETHING_ELSE;
    default: return SOMETHING_ELSE;
    }
}

static inline void read_differs(const struct tape *tape, uint32_t k, const struct event *object, uint64_t answer,
                                const uint8_t *record)
{
    uint32_t length = object != NULL ? object->length : 0, same = 0;
    print_latest();
    printf("read of partition %d, number %u: expected %s, came ", number_of(tape), (unsigned)k,
           object != NULL ? in_words(object) : ends_in_zone(tape) ? "end of data in the zone" : "end of data");
    print_answer(stdout, answer, record);
    if (length > 0 && STORMTOGGLE_CARRIED(answer) == length)
        same = same_bytes(read_bytes, object->bytes, length);
    if (same < length && STORMTOGGLE_CARRIED(answer) == length)
        printf(", byte %u %02xh and not %02xh", (unsigned)same, read_bytes[same], object->bytes[same]);
    end_mismatch();
}

static inline enum meeting meeting_expected(const struct tape *tape, const struct event *object,
                                            enum reading reading)
{
    if (object == NULL)
        return ends_in_zone(tape) ? END_IN_ZONE : END_OF_TAPE;
    if (object->kind == PUT_FILEMARK)
        return A_FILEMARK;
    return reading == OF_ONE_FIXED && object->length != MOUNTED_LENGTH ? AN_ODD_BLOCK : A_BLOCK;
}

/* One READ meets this object, or the end of data if it is NULL. What the buffer held before is none of its bytes. */
static inline int read_meets(uint8_t *record, const struct tape *tape, uint32_t k, const struct event *object)
{
    static const enum happening happenings[] = {[A_BLOCK] = BLOCKS_MET, [AN_ODD_BLOCK] = ODD_MET,
                                                [A_FILEMARK] = FILEMARKS_MET, [END_OF_TAPE] = ENDS_MET,
                                                [END_IN_ZONE] = ENDS_MET_IN_ZONE};
    enum reading reading = some_reading(record);
    enum meeting expected = meeting_expected(tape, object, reading);
    uint32_t length = expected == A_BLOCK ? object->length : 0;
    uint64_t answer;
    int agrees;
    if (length > 0)
        memset(read_bytes, object->bytes[0] ^ 0xff, length);
    answer = command_whole(record, block_of(reading), read_bytes, LARGEST_BLOCK);
    happens(READS, 1);
    happens(happenings[expected], 1);
    happens(FIXED_MET, expected == A_BLOCK && reading == OF_ONE_FIXED);
    happens(LARGER_MET, length > FORMER_LARGEST);
    happens(LARGEST_MET, length == LARGEST_BLOCK);
    agrees = met_by(answer, record + STORMTOGGLE_RECORD_SENSE, reading) == expected &&
             STORMTOGGLE_CARRIED(answer) == length && (length == 0 || memcmp(read_bytes, object->bytes, length) == 0);
    if (!agrees)
        read_differs(tape, k, object, answer, record);
    return agrees;
}

/* Those that stand from this number on, in order, and no others: then end of data, again and again. */
static inline int reads_meet_from(uint8_t *record, const struct tape *tape, uint32_t number)
{
    uint32_t end = end_of(&tape->history);
    for (uint32_t k = number; k < end; k++) {
        const struct event *object = standing(&tape->history.kept, k);
        if (object != NULL && !read_meets(record, tape, k, object))
            return 0;
    }
    for (int more = 2 + one_in(4); more > 0; more--)
        if (!read_meets(record, tape, end, NULL))
            return 0;
    return 1;
}

/* To the beginning, by LOCATE of either length, or by REWIND if the record is at the partition already. */
static inline void go_to_beginning(uint8_t *record, const struct tape *tape)
{
    uint8_t immed = (uint8_t)draw(2), partition = (uint8_t)number_of(tape);
    if (record[STORMTOGGLE_RECORD_CURRENT] == partition && one_in(3))
        command_whole(record, (struct bytes)SIX(REWIND, immed, 0), NULL, 0);
    else if (one_in(3))
        command_whole(record, (struct bytes)LOCATE_16(CP | immed | TO_OBJECT, 0, partition), NULL, 0);
    else
        command_whole(record, (struct bytes)LOCATE(CP | immed, 0, partition), NULL, 0);
}

static inline int reads_meet_all(uint8_t *record, const struct tape *tape)
{
    go_to_beginning(record, tape);
    return reads_meet_from(record, tape, 0);
}

/* The number just after so many of the filemarks that stand; the end of data if fewer do. */
static inline uint32_t start_of_file(const struct tape *tape, uint32_t file)
{
    uint32_t number = 0, end = end_of(&tape->history);
    while (file > 0 && number < end) {
        const struct event *object = standing(&tape->history.kept, number++);
        file -= object != NULL && object->kind == PUT_FILEMARK;
    }
    return number;
}

/* What a command told that went past the last file: end of data, with EOM by the list. */
static inline int tells_end(const uint8_t *record, const struct tape *tape, uint64_t answer)
{
    uint32_t expected = ends_in_zone(tape) ? TOLD_END_IN_ZONE : TOLD_END_OF_DATA, told = TOLD_GOOD;
    happens(PAST_FILES_IN_ZONE, expected == TOLD_END_IN_ZONE);
    if (STORMTOGGLE_STATUS(answer) != STORMTOGGLE_GOOD)
        told = told_by(record + STORMTOGGLE_RECORD_SENSE);
    if (STORMTOGGLE_REFUSAL(answer) == 0 && told == expected)
        return 1;
    mismatch("past the last file of partition %d: bytes 2, 12 and 13 of the sense expected %06xh, came %06xh",
             number_of(tape), (unsigned)expected, (unsigned)told);
    return 0;
}

/* From a file, at times from one that is not there: reached by LOCATE (16), or over the filemarks by SPACE (16). */
static inline int reads_meet_file(uint8_t *record, const struct tape *tape)
{
    uint32_t end = end_of(&tape->history), filemarks = 0, file;
    int by_locate = one_in(2);
    uint64_t answer;
    for (uint32_t k = 0; k < end; k++) {
        const struct event *object = standing(&tape->history.kept, k);
        filemarks += object != NULL && object->kind == PUT_FILEMARK;
    }
    file = draw(filemarks + 2);
    happens(file > filemarks ? PAST_FILES_READ : by_locate ? FILES_LOCATED : FILES_SPACED, file > 0);
    if (by_locate) {
        answer = command_whole(record, (struct bytes)LOCATE_16(CP | TO_FILE, file, (uint8_t)number_of(tape)), NULL, 0);
    } else {
        go_to_beginning(record, tape);
        answer = command_whole(record, (struct bytes)SPACE_16(FILEMARKS, file), NULL, 0);
    }
    if (file > filemarks && !tells_end(record, tape, answer))
        return 0;
    return reads_meet_from(record, tape, start_of_file(tape, file));
}

/* ---- by what was crossed */

static inline struct bytes some_space(uint8_t code, int64_t count)
{
    if (one_in(2))
        return (struct bytes)SPACE_16(code, count);
    return (struct bytes)SIX(SPACE, code, count);
}

/* From the number to which the objects crossed add up, on and back from the beginning: a sender that sees the answers
 * alone knows by them where it is. */
static inline int reads_meet_by_crossing(uint8_t *record, const struct tape *tape)
{
    int64_t number = 0, end = end_of(&tape->history);
    go_to_beginning(record, tape);
    for (uint32_t spaces = 1 + draw(5); spaces > 0; spaces--) {
        uint8_t code = (uint8_t)(one_in(6) ? TO_END_OF_DATA : draw(2));
        int64_t count = (int64_t)draw(12) - 5;
        uint64_t answer = command_whole(record, some_space(code, count), NULL, 0);
        int back = code != TO_END_OF_DATA && count < 0;
        happens(back ? CROSSED_BACK : CROSSED_ON, STORMTOGGLE_CROSSED(answer) > 0);
        number += back ? -(int64_t)STORMTOGGLE_CROSSED(answer) : (int64_t)STORMTOGGLE_CROSSED(answer);
        if (number < 0 || number > end) {
            mismatch("SPACEs on partition %d add up to %d of %d", number_of(tape), (int)number, (int)end);
            return 0;
        }
    }
    happens(CROSSINGS_ADDED, 1);
    return reads_meet_from(record, tape, (uint32_t)number);
}

/* ---- the records that read */

/* A record of the comparison's own, with the whole cartridge mounted and no attention waiting. */
static inline int mount_for_reading(void)
{
    struct loan loan = whole_cartridge();
    uint8_t form = draw(2) * DESC, sense[SENSE_BYTES];
    uint64_t answer;
    stormtoggle_fresh(reading_record, RECORD_BYTES);
    answer = stormtoggle_mount(reading_record, RECORD_BYTES, bytes_at(loan, 0), length_at(loan, 0), bytes_at(loan, 1),
                               length_at(loan, 1));
    if (answer != DONE) {
        mismatch("the whole cartridge could not be mounted: refused by %u", STORMTOGGLE_REFUSAL(answer));
        return 0;
    }
    if (one_in(2))
        command_whole(reading_record, (struct bytes)SIX(TEST_UNIT_READY, 0, 0), NULL, 0);
    else
        command_whole(reading_record, (struct bytes)SIX(REQUEST_SENSE, form, SENSE_BYTES), sense, SENSE_BYTES);
    return 1;
}

/* A copy of a record of the life: from where it is, or from a beginning. Number 4 finds a fault exactly above N. */
static inline void read_under(const struct holder *holder)
{
    struct drive drive = drive_of(holder->record);
    const struct tape *tape = &ours[drive.current % partitions];
    uint64_t answer;
    if (!holder->is_mounted || drive.attention != ATTENTION_NONE)
        return;
    memcpy(reading_record, holder->record, RECORD_BYTES);
    happens(OWN_READINGS, 1);
    if (drive.position > end_of(&tape->history)) {
        happens(OWN_ABOVE_N, 1);
        answer = command_whole(reading_record, (struct bytes)SIX(READ, 0, LARGEST_BLOCK), read_bytes, LARGEST_BLOCK);
        if (STORMTOGGLE_REFUSAL(answer) != BY_DRIVE)
            read_differs(tape, drive.position, NULL, answer, reading_record);
    } else if (one_in(2)) {
        reads_meet_from(reading_record, tape, drive.position);
    } else {
        reads_meet_all(reading_record, &ours[draw(partitions)]);
    }
}

/* ---- the comparison after a call */

/* Both partitions, in either order, by views and by reads; none of them may change a byte. */
static inline void compare(void)
{
    int is_under_mounted = latest.by != NULL && latest.by->is_mounted;
    unsigned first = draw(partitions);
    for (unsigned i = 0; i < partitions; i++)
        memcpy(ours[i].as_called, ours[i].image, ours[i].length);
    if (!mount_for_reading())
        return;
    for (unsigned turn = 0; turn < partitions; turn++) {
        const struct tape *tape = &ours[(first + turn) % partitions];
        if (!views_agree(tape) || !reads_meet_all(reading_record, tape))
            return;
        if (one_in(8) && !reads_meet_file(reading_record, tape))
            return;
        if (one_in(8) && !reads_meet_by_crossing(reading_record, tape))
            return;
    }
    if (one_in(2))
        read_under(is_under_mounted ? latest.by : &holders[draw(drives)]);
    for (unsigned i = 0; i < partitions && !life_is_over; i++)
        if (memcmp(ours[i].image, ours[i].as_called, ours[i].length) != 0)
            mismatch("partition %u was changed by the views and reads", i);
}

/* The whole list by the demand's words, beside what is kept of it. */
static inline void read_lists_whole(void)
{
    for (unsigned i = 0; i < partitions; i++) {
        int64_t number = first_difference(&ours[i].history);
        happens(LISTS_READ_WHOLE, 1);
        if (number >= 0)
            mismatch("partition %u, number %d: the whole list and what is kept of it differ", i, (int)number);
    }
}

#endif
