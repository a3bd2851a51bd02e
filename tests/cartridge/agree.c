/* agree.c [SEED]: holds the reading of tools/image.h to the library's verdict on many damaged images: where one finds a
 * rule broken the other refuses, by the number of that rule. Every rule must have been met, and soundness too. */
#define _DEFAULT_SOURCE
#include "../../tools/image.h"
#include "../draw.h"
#include "../image.h"

enum { IMAGES = 300000, LONGEST_DRAWN = 200, MOST_OBJECTS = 12 };

static unsigned long met[RULES];

static unsigned refusal_of(struct image image)
{
    uint8_t record[RECORD_BYTES];
    stormtoggle_fresh(record, sizeof record);
    return STORMTOGGLE_REFUSAL(stormtoggle_mount(record, sizeof record, image.bytes, image.length, NULL, 0));
}

/* What the survey says beside soundness is held to the oracle of tests/image.h: room and zone by 01's own words. */
static void agrees(const uint8_t *bytes, size_t length)
{
    struct image image = {bytes, length};
    struct survey survey = survey_of(image);
    unsigned refusal = refusal_of(image);
    met[survey.broken]++;
    expect(is_verdict_on(refusal, survey.broken), "rule %d broken, and the library refuses by %u, at %zu bytes",
           (int)survey.broken, refusal, length);
    if (survey.broken != NO_RULE)
        return;
    uint64_t objects = get_field(bytes, length, TRAILER_N), end = end_at(bytes, length, objects);
    uint64_t room = length - TRAILER - ENTRY * objects - end;
    expect_equal(survey.blocks + survey.filemarks, objects, "objects counted");
    expect_equal(room_at_end(image), room, "room of %zu bytes", length);
    expect_equal(ends_in_zone(image), room * ZONE_SHARE < length - TRAILER, "zone of %zu bytes", length);
}

/* An end that is right, or beside it. */
static uint32_t drawn_entry(uint32_t *end)
{
    uint32_t filemark = one_in(3) ? ENTRY_FILEMARK : 0;
    uint32_t right = filemark != 0 ? *end : *end + 1 + draw(30);
    *end = one_in(20) ? (uint32_t)near(right) : right;
    return filemark | *end;
}

static void damage_field(uint8_t *image, size_t length)
{
    static const enum field fields[] = {TRAILER_N, TRAILER_FLAGS, TRAILER_D, TRAILER_L};
    enum field field = fields[draw(COUNT(fields))];
    uint32_t right = get_field(image, length, field);
    uint32_t wrong[] = {(uint32_t)draw_64(), (uint32_t)near(right), right ^ UINT32_C(1) << draw(32)};
    set_field(image, length, field, wrong[draw(COUNT(wrong))]);
}

static void draw_image(void)
{
    uint8_t image[LONGEST_DRAWN] = {0};
    uint32_t entries[MOST_OBJECTS], end = 0;
    size_t length = one_in(50) ? draw(SHORTEST) : SHORTEST + draw(LONGEST_DRAWN - SHORTEST), objects = draw(8);
    for (size_t i = 0; i < objects; i++)
        entries[i] = drawn_entry(&end);
    if (length >= SHORTEST)
        lay_directory(image, length, entries, objects);
    if (length >= SHORTEST && one_in(5))
        damage_field(image, length);
    agrees(image, length);
}

/* On each side of the largest block. */
static void large_blocks(void)
{
    static const uint32_t blocks[] = {LARGEST_BLOCK - 1, LARGEST_BLOCK, LARGEST_BLOCK + 1};
    size_t length = LARGEST_BLOCK + 4096;
    uint8_t *image = calloc(length, 1);
    if (image == NULL)
        abort();
    for (size_t i = 0; i < COUNT(blocks); i++) {
        lay_directory(image, length, &blocks[i], 1);
        agrees(image, length);
        expect((survey_of((struct image){image, length}).broken == NO_RULE) == (blocks[i] <= LARGEST_BLOCK),
               "a block of %u bytes", (unsigned)blocks[i]);
    }
    free(image);
}

int main(int count, char **words)
{
    seed = count > 1 ? strtoull(words[1], NULL, 10) : 1;
    random_state = seed;
    for (int i = 0; i < IMAGES; i++)
        draw_image();
    large_blocks();
    for (int rule = 0; rule < RULES; rule++)
        expect(met[rule] > 0, "rule %d was met", rule);
    return tally();
}
