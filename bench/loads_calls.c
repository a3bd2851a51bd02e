/* loads_calls.c: some calls, each with cartridges of its own from which nothing else loads, for bench/loads to trace.
 * Prints where each directory that was lent lies, and how many entries the call may load again to act on them. */
#include "images.h"
#include <stdio.h>

enum { SPARE = 64, EVERY_16TH = 16 };

/* Entries that are looked at to act on them: those of an object and of the one before it, its end or its kind; or those
 * that a walk crosses. */
enum again { NONE_AGAIN = 0, SOME_AGAIN = 4, WALKED_AGAIN = 10000 };

/* What a call is lent: a copy at a place of its own, which stays there so that no later call has the same. */
static struct image lent(const struct image *image)
{
    struct image copy = {malloc(image->length), image->length};
    if (copy.at == NULL)
        abort();
    memcpy(copy.at, image->at, image->length);
    return copy;
}

static struct image make_lent(uint32_t objects, struct image *made)
{
    *made = make_image(objects, 1, EVERY_16TH, SPARE);
    return lent(made);
}

static void tell(const char *name, enum again again, uint32_t objects, const struct image *image)
{
    const uint8_t *directory = image->at + image->length - TRAILER - (size_t)ENTRY * objects;
    printf("%p %u %d %s\n", (const void *)directory, objects, (int)again, name);
}

static const struct image none;

/* A command on one partition, in the middle of so many objects; all are GOOD but LOCATE past them. */
static void call_command(const char *name, enum again again, uint32_t objects, const uint8_t *block, size_t length)
{
    static uint8_t data[LONG_BYTES];
    struct image made, image = make_lent(objects, &made);
    int is_past = block[0] == LOCATE && get32(block + AT_OBJECT) > objects;
    uint64_t answer;
    mount(&made, &none);
    put_position(objects / 2);
    answer = stormtoggle_command(record, RECORD_BYTES, block, length, image.at, image.length, NULL, 0, data,
                                 sizeof data, data, sizeof data);
    if (STORMTOGGLE_REFUSAL(answer) != 0 ||
        STORMTOGGLE_STATUS(answer) != (is_past ? STORMTOGGLE_CHECK_CONDITION : STORMTOGGLE_GOOD))
        abort();
    tell(name, again, objects, &image);
}

static void call_with_two_partitions(const uint8_t *block, size_t length, uint32_t objects_0, uint32_t objects_1)
{
    struct image made_0, made_1, p0 = make_lent(objects_0, &made_0), p1 = make_lent(objects_1, &made_1);
    mount(&made_0, &made_1);
    if (stormtoggle_command(record, RECORD_BYTES, block, length, p0.at, p0.length, p1.at, p1.length, NULL, 0, NULL,
                            0) != 0)
        abort();
    tell("TEST UNIT READY, partition 0 of two", NONE_AGAIN, objects_0, &p0);
    tell("TEST UNIT READY, partition 1 of two", NONE_AGAIN, objects_1, &p1);
}

static void call_services(uint32_t objects)
{
    struct image made, mounted = make_lent(objects, &made), guarded = lent(&made), viewed = lent(&made);
    mount(&mounted, &none);
    tell("mount", NONE_AGAIN, objects, &mounted);
    if (stormtoggle_protect(guarded.at, guarded.length, 1) != 0)
        abort();
    tell("protect", NONE_AGAIN, objects, &guarded);
    if (stormtoggle_view(viewed.at, viewed.length, NULL, 0, 0, objects / 2) == 0)
        abort();
    tell("view", SOME_AGAIN, objects, &viewed);
}

int main(void)
{
    static const uint8_t ready[BYTES_6] = {TEST_UNIT_READY}, rewinding[BYTES_6] = {REWIND};
    static const uint8_t position[BYTES_10] = {READ_POSITION};
    static const uint8_t locating[BYTES_10] = {[0] = LOCATE, [AT_OBJECT + 3] = 200};
    static const uint8_t locating_past[BYTES_10] = {[0] = LOCATE, [AT_OBJECT] = 0xff};
    static const uint8_t locating_16[BYTES_16] = {[0] = LOCATE_16, [AT_IDENTIFIER + 7] = 200};
    /* Just after 625 filemarks, of which every sixteenth object is one; and on over as many. */
    static const uint8_t filing[BYTES_16] = {
        [0] = LOCATE_16, [1] = TO_FILE, [AT_IDENTIFIER + 6] = 625 >> 8, [AT_IDENTIFIER + 7] = 625 & 0xff};
    static const uint8_t spacing[BYTES_16] = {
        [0] = SPACE_16, [1] = FILEMARKS, [AT_COUNT_16 + 6] = 625 >> 8, [AT_COUNT_16 + 7] = 625 & 0xff};
    static const uint8_t reading[BYTES_6] = {READ, 0, 0, 0, 1}, writing[BYTES_6] = {WRITE, 0, 0, 0, 1};
    static const uint32_t sizes[] = {1, 3, 4, 7, 8, 9, 15, 16, 17, 31, 32, 33, 1000, 20000};
    enum { MANY = 20000, FEW = 333 };
    for (size_t i = 0; i < sizeof sizes / sizeof *sizes; i++)
        call_command("TEST UNIT READY", NONE_AGAIN, sizes[i], ready, sizeof ready);
    call_with_two_partitions(ready, sizeof ready, MANY, FEW);
    call_command("REWIND", NONE_AGAIN, MANY, rewinding, sizeof rewinding);
    call_command("LOCATE", NONE_AGAIN, MANY, locating, sizeof locating);
    call_command("LOCATE past the end", SOME_AGAIN, MANY, locating_past, sizeof locating_past);
    call_command("LOCATE (16)", NONE_AGAIN, MANY, locating_16, sizeof locating_16);
    call_command("LOCATE (16) to file 625", WALKED_AGAIN, MANY, filing, sizeof filing);
    call_command("SPACE (16) over 625 filemarks", WALKED_AGAIN, MANY, spacing, sizeof spacing);
    call_command("READ POSITION", SOME_AGAIN, MANY, position, sizeof position);
    call_command("READ", SOME_AGAIN, MANY, reading, sizeof reading);
    call_command("WRITE", SOME_AGAIN, MANY, writing, sizeof writing);
    call_services(MANY);
    return 0;
}
