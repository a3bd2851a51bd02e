/* services.c: blank, protect, view and the judging of images held to document 01, called as a C daemon calls them, and
 * the fields of an answer. */
#define _DEFAULT_SOURCE
#include "services_sound.h"

/* ---- blank */

static void blank_makes(size_t length)
{
    uint8_t *want = patterned(length), *image = lend(want, length);
    put32(want + length - TRAILER_N, 0);
    put32(want + length - TRAILER_FLAGS, 0);
    put32(want + length - TRAILER_D, (uint32_t)(length - TRAILER));
    put32(want + length - TRAILER_L, (uint32_t)length);
    expect_equal(stormtoggle_blank(image, length), DONE, "blank of %zu bytes", length);
    expect_bytes(image, want, length, "bytes after a blank of %zu", length);
    take_back(image, length);
    free(want);
}

static void blank_by_length(void)
{
    static const size_t refused[] = {0, 1, TRAILER - 1, TRAILER, 32, SHORTEST - 2, SHORTEST - 1};
    static const size_t made[] = {SHORTEST, SHORTEST + 1, SHORTEST + 2, SHORTEST + 3, 128, 255, 256, 4096,
                                  FORMER_LARGEST - 1, FORMER_LARGEST, FORMER_LARGEST + 1, 1000003, LARGEST_BLOCK - 1,
                                  LARGEST_BLOCK, LARGEST_BLOCK + 1};
    for (size_t i = 0; i < COUNT(refused); i++)
        refuses_length(stormtoggle_blank, refused[i], BY_LENGTH, "blank");
    for (size_t i = 0; i < COUNT(made); i++)
        blank_makes(made[i]);
}

/* A blank forgets the objects, and their bytes stay. */
static void blank_of_objects(void)
{
    uint8_t want[sizeof example_e], *image = lend(example_e, sizeof example_e);
    memcpy(want, example_e, sizeof want);
    lay_trailer(want, sizeof want, 0, 0);
    set_field(image, sizeof want, TRAILER_FLAGS, 0xffffffff);
    expect_equal(stormtoggle_blank(image, sizeof want), DONE, "blank of E");
    expect_bytes(image, want, sizeof want, "bytes after a blank of E");
    take_back(image, sizeof want);
}

/* ---- protect */

/* One image through set, set again, clear, and numbers whose low bits are 0. */
static void protect_numbers(void)
{
    static const uint64_t numbers[] = {1, 1, 0, 0, 2, 0, 256, 0, BEYOND_32_BITS, 0, UINT64_MAX, 0};
    uint8_t want[sizeof example_e], *image = lend(example_e, sizeof example_e);
    memcpy(want, example_e, sizeof want);
    for (size_t i = 0; i < COUNT(numbers); i++) {
        want[sizeof want - TRAILER_FLAGS + 3] = numbers[i] != 0 ? FLAG_PROTECTED : 0;
        expect_equal(stormtoggle_protect(image, sizeof want, numbers[i]), DONE, "protect %" PRIu64, numbers[i]);
        expect_bytes(image, want, sizeof want, "E after protect %" PRIu64, numbers[i]);
    }
    take_back(image, sizeof want);
}

/* ---- view */

static void view_by_number(void)
{
    static const struct {
        uint64_t partition, object, want;
    } rows[] = {
        {0, 0, 3}, {0, 1, 0}, {0, 2, 0}, {0, 3, 0},
        {0, BEYOND_32_BITS, 0}, {0, UINT64_C(1) << 62, 0}, {0, UINT64_MAX, 0},
        {1, 0, 5}, {1, 1, 0}, {1, 2, FOUND(5, 7)}, {1, 3, 0},
        {2, 0, 0}, {255, 0, 0}, {256, 0, 0}, {257, 0, 0},
        {BEYOND_32_BITS, 0, 0}, {BEYOND_32_BITS + 1, 0, 0}, {UINT64_MAX, 0, 0},
    };
    static const uint32_t entries[] = {5, ENTRY_FILEMARK | 5, 12};
    uint8_t second[100] = {0};
    lay_directory(second, sizeof second, entries, COUNT(entries));
    for (size_t i = 0; i < COUNT(rows); i++) {
        uint64_t partition = rows[i].partition, object = rows[i].object;
        uint64_t view = stormtoggle_view(example_e, sizeof example_e, second, sizeof second, partition, object);
        expect_equal(view, rows[i].want, "view of partition %" PRIu64 ", object %" PRIu64, partition, object);
    }
}

/* The slice that is not named may be absent, short or unsound. */
static void view_of_the_named_slice(void)
{
    uint8_t unsound[sizeof example_e];
    memcpy(unsound, example_e, sizeof unsound);
    set_field(unsound, sizeof unsound, TRAILER_FLAGS, 2 * FLAG_PROTECTED);
    for (size_t length = 0; length <= sizeof unsound; length++) {
        const uint8_t *other = length == 0 ? NULL : unsound;
        expect_equal(stormtoggle_view(example_e, E_BYTES, other, length, 0, 0), 3, "view beside %zu bytes", length);
        expect_equal(stormtoggle_view(other, length, example_e, E_BYTES, 1, 0), 3, "view behind %zu bytes", length);
        expect_equal(stormtoggle_view(example_e, E_BYTES, other, length, 1, 0), 0, "view of %zu unsound bytes", length);
        expect_equal(stormtoggle_view(other, length, example_e, E_BYTES, 0, 0), 0, "view of %zu unsound bytes", length);
    }
}

/* ---- what is lent */

static void nothing_lent(void)
{
    expect_equal(stormtoggle_blank(NULL, 0), REFUSED(BY_LENGTH), "blank of nothing");
    expect_equal(stormtoggle_protect(NULL, 0, 0), REFUSED(BY_LENGTH), "protect 0 of nothing");
    expect_equal(stormtoggle_protect(NULL, 0, 1), REFUSED(BY_LENGTH), "protect 1 of nothing");
    for (uint64_t partition = 0; partition < 3; partition++)
        expect_equal(stormtoggle_view(NULL, 0, NULL, 0, partition, 0), 0, "view of nothing");
}

static void read_only_partitions(void)
{
    enum { L = E_BYTES, SHORT = SHORTEST - 1 };
    const uint8_t zeros[L] = {0};
    uint8_t *e = sealed(example_e, L), *tail = sealed(example_e + L - SHORT, SHORT), *unsound = sealed(zeros, L);
    expect_in_child(stormtoggle_view(e, L, unsound, L, 0, 0) == 3, "view of a read-only partition 0");
    expect_in_child(stormtoggle_view(unsound, L, e, L, 1, 0) == 3, "view of a read-only partition 1");
    expect_in_child(stormtoggle_view(unsound, L, e, L, 0, 0) == 0, "view of a read-only unsound image");
    for (uint64_t on = 0; on < 2; on++) {
        expect_in_child(stormtoggle_protect(unsound, L, on) == REFUSED(BY_UNSOUND), "protect refused, read-only pages");
        expect_in_child(stormtoggle_protect(tail, SHORT, on) == REFUSED(BY_LENGTH), "protect refused, read-only pages");
    }
    expect_in_child(stormtoggle_blank(tail, SHORT) == REFUSED(BY_LENGTH), "blank refused, read-only pages");
    expect_in_child(stormtoggle_protect(e, L, 0) == DONE, "protection cleared where it is clear, on read-only pages");
}

static void many_blocks(void)
{
    enum { ROOM = 4 << 20, BLOCKS = 100000 };
    uint8_t *image = patterned(ROOM);
    for (uint32_t i = 0; i < BLOCKS; i++)
        set_entry(image, ROOM, i, i + 1);
    lay_trailer(image, ROOM, BLOCKS, 0);
    judged(image, ROOM, 1, "100,000 blocks");
    expect_equal(stormtoggle_view(image, ROOM, NULL, 0, 0, BLOCKS - 1), FOUND(BLOCKS - 1, 1), "the last block");
    expect_equal(stormtoggle_view(image, ROOM, NULL, 0, 0, BLOCKS), 0, "past the last block");
    set_entry(image, ROOM, BLOCKS / 2, BLOCKS / 2);
    judged(image, ROOM, 0, "100,000 blocks, one of them empty");
    free(image);
}

/* So many blocks of a size fill the longest image: one more does not fit. The last of them starts here. */
static void full_cartridge(uint8_t *image, uint32_t size, uint32_t blocks, uint32_t start)
{
    for (uint32_t i = 0; i < blocks; i++)
        set_entry(image, LONGEST, i, (i + 1) * size);
    lay_trailer(image, LONGEST, blocks, 0);
    expect(LONGEST - TRAILER - (uint64_t)blocks * (ENTRY + size) < ENTRY + size, "a full cartridge of %u",
           (unsigned)size);
    expect_equal(stormtoggle_view(image, LONGEST, NULL, 0, 0, blocks - 1), FOUND(start, size),
                 "the last block of a full cartridge of %u", (unsigned)size);
    expect_equal(stormtoggle_view(image, LONGEST, NULL, 0, 0, blocks), 0, "past the last block of %u", (unsigned)size);
    expect_equal(stormtoggle_protect(image, LONGEST, 1), DONE, "protect of a full cartridge of %u", (unsigned)size);
    expect_equal(get_field(image, LONGEST, TRAILER_FLAGS), FLAG_PROTECTED, "flags of a full cartridge of %u",
                 (unsigned)size);
}

/* The longest image, blank and then full of largest blocks, and of those that were the largest once. */
static void longest_image(void)
{
    uint8_t *image = sparse(LONGEST), want[SHORTEST] = {0};
    if (image == NULL)
        return;
    put32(want + sizeof want - TRAILER_D, LONGEST - TRAILER);
    put32(want + sizeof want - TRAILER_L, LONGEST);
    memset(image + LONGEST - TRAILER, 0xff, TRAILER);
    expect_equal(stormtoggle_blank(image, LONGEST), DONE, "blank of 1,073,741,824 bytes");
    expect_bytes(image + LONGEST - sizeof want, want, sizeof want, "the end of the longest blank");
    expect_equal(stormtoggle_protect(image, LONGEST, 1), DONE, "protect of 1,073,741,824 bytes");
    full_cartridge(image, LARGEST_BLOCK, 1023, 0x3fe00000);
    full_cartridge(image, FORMER_LARGEST, 16382, 0x3ffd0000);
    munmap(image, LONGEST);
}

/* Sound but for its length, and also by the low 32 bits of its length. */
static void too_long(size_t length)
{
    uint8_t *image = sparse(length), *trailer, want[TRAILER];
    if (image == NULL)
        return;
    trailer = image + length - TRAILER;
    memcpy(image, example_e, sizeof example_e);
    lay_trailer(image, length, 0, 0);
    memcpy(want, trailer, TRAILER);
    expect_equal(stormtoggle_blank(image, length), REFUSED(BY_LENGTH), "blank of %zu bytes", length);
    expect_equal(stormtoggle_protect(image, length, 1), REFUSED(BY_LENGTH), "protect of %zu bytes", length);
    expect_equal(stormtoggle_view(image, length, NULL, 0, 0, 0), 0, "view of %zu bytes", length);
    expect_bytes(image, example_e, sizeof example_e, "first bytes of %zu, refused", length);
    expect_bytes(trailer, want, TRAILER, "last bytes of %zu, refused", length);
    munmap(image, length);
}

/* ---- what is answered */

/* A loaded drive that has nothing to tell goes over both objects of E. */
static void cross_e(void)
{
    static const struct bytes to_end = SIX(SPACE, TO_END_OF_DATA, 0);
    struct drive loaded = mounted_drive(1);
    uint8_t record[RECORD_BYTES], e[E_BYTES];
    uint64_t answer;
    loaded.attention = ATTENTION_NONE;
    lay_drive(record, &loaded);
    memcpy(e, example_e, sizeof e);
    answer = stormtoggle_command(record, sizeof record, to_end.at, to_end.length, e, sizeof e, NULL, 0, NULL, 0, NULL,
                                 0);
    expect_equal(answer, UINT64_C(2) << ANSWER_CROSSED, "SPACE over E");
}

/* Nothing is left over from a SPACE: a service right after it, done or refused, answers as ever. */
#define after_a_space(call, want) (cross_e(), expect_equal((call), (want), "right after a SPACE: " #call))

static void services_after_a_space(void)
{
    enum { L = E_BYTES, SHORT = SHORTEST - 1 };
    uint8_t record[RECORD_BYTES] = {0}, e[L], unsound[L] = {0};
    memcpy(e, example_e, sizeof e);
    after_a_space(stormtoggle_fresh(record, sizeof record), DONE);
    after_a_space(stormtoggle_fresh(record, sizeof record - 1), REFUSED(BY_DRIVE));
    after_a_space(stormtoggle_mount(record, sizeof record - 1, e, L, NULL, 0), REFUSED(BY_DRIVE));
    after_a_space(stormtoggle_mount(record, sizeof record, unsound, L, NULL, 0), REFUSED(BY_UNSOUND));
    after_a_space(stormtoggle_mount(record, sizeof record, e, SHORT, NULL, 0), REFUSED(BY_LENGTH));
    after_a_space(stormtoggle_mount(record, sizeof record, e, L, NULL, 0), DONE);
    after_a_space(stormtoggle_mount(record, sizeof record, e, L, NULL, 0), REFUSED(BY_LOADED));
    after_a_space(stormtoggle_protect(e, L, 1), DONE);
    after_a_space(stormtoggle_protect(e, L, 0), DONE);
    after_a_space(stormtoggle_protect(e, SHORT, 1), REFUSED(BY_LENGTH));
    after_a_space(stormtoggle_protect(unsound, L, 1), REFUSED(BY_UNSOUND));
    after_a_space(stormtoggle_view(e, L, NULL, 0, 0, 0), FOUND(0, 3));
    after_a_space(stormtoggle_view(e, L, NULL, 0, 0, 1), 0);
    after_a_space(stormtoggle_blank(e, L), DONE);
    after_a_space(stormtoggle_blank(e, SHORT), REFUSED(BY_LENGTH));
}

static void fields(void)
{
    uint64_t answer = UINT64_C(0xd89abcdef), far = UINT64_C(0xfedcba9d89abcdef), view = UINT64_C(0xfedcba9876543210);
    uint64_t crossed = UINT64_C(0xfffffff) << 36;
    expect_equal(STORMTOGGLE_CARRIED(answer), 0x89abcdef, "bytes carried");
    expect_equal(STORMTOGGLE_REFUSAL(answer), 5, "refusal");
    expect_equal(STORMTOGGLE_STATUS(answer), 2, "status 02h");
    expect_equal(STORMTOGGLE_CROSSED(answer), 0, "none crossed");
    expect_equal(STORMTOGGLE_STATUS(~(UINT64_C(1) << 35)), 0, "status 00h");
    expect_equal(STORMTOGGLE_REFUSAL(~REFUSED(BY_MOST)), 0, "no refusal");
    expect_equal(STORMTOGGLE_CARRIED(far), 0x89abcdef, "bytes carried, below objects crossed");
    expect_equal(STORMTOGGLE_REFUSAL(far), 5, "refusal, below objects crossed");
    expect_equal(STORMTOGGLE_STATUS(far), 2, "status 02h, below objects crossed");
    expect_equal(STORMTOGGLE_CROSSED(far), 0xfedcba9, "objects crossed");
    expect_equal(STORMTOGGLE_CROSSED(~crossed), 0, "none crossed, all else set");
    expect_equal(STORMTOGGLE_CROSSED(crossed), 0xfffffff, "2^28 - 1 crossed, all else clear");
    expect_equal(STORMTOGGLE_CARRIED(crossed), 0, "none carried, 2^28 - 1 crossed");
    expect_equal(STORMTOGGLE_REFUSAL(crossed), 0, "no refusal, 2^28 - 1 crossed");
    expect_equal(STORMTOGGLE_STATUS(crossed), 0, "status 00h, 2^28 - 1 crossed");
    expect_equal(STORMTOGGLE_CROSSED(UINT64_C(1) << 36), 1, "one crossed");
    expect_equal(STORMTOGGLE_CROSSED(UINT64_C(1) << 63), 0x8000000, "2^27 crossed");
    expect_equal(STORMTOGGLE_CROSSED(INT64_C(-1)), 0xfffffff, "objects crossed, in a number with a sign");
    expect_equal(STORMTOGGLE_VIEW_LENGTH(view), 0x76543210, "a view's length");
    expect_equal(STORMTOGGLE_VIEW_START(view), 0xfedcba98, "a view's start");
}

int main(void)
{
    read_only_partitions();
    blank_by_length();
    blank_of_objects();
    judged_images();
    protect_numbers();
    view_by_number();
    view_of_the_named_slice();
    nothing_lent();
    many_blocks();
    longest_image();
    too_long((size_t)LONGEST + 1);
    too_long((size_t)BEYOND_32_BITS + SHORTEST);
    services_after_a_space();
    fields();
    return tally();
}
