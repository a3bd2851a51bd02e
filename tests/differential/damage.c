/* damage.c SEED: whether the library finds an image sound just where the model of documents 01 and 02 does, with one
 * thing wrong at a time: a bit of the trailer or of an entry, or an end that shows up a check which judges an entry by
 * another end than the one before it. The seed draws the objects of the larger images, and not what is wrong. */
#define _DEFAULT_SOURCE
#include "judgement.h"

/* ---- damages */

static void flip_bit(enum group group, size_t offset, const char *place, size_t number, unsigned bit)
{
    uint32_t word = get32(word_at(offset));
    put32(word_at(offset), word ^ UINT32_C(1) << bit);
    judge(group, (struct damage){place, number, "bit", bit});
    put32(word_at(offset), word);
}

static void flip_bits_of_trailer(enum group group)
{
    for (size_t field = 0; field < TRAILER / ENTRY; field++)
        for (unsigned bit = 0; bit < 32; bit++)
            flip_bit(group, image.length - TRAILER + ENTRY * field, "trailer field", field, bit);
}

static void flip_bits_of_entry(enum group group, size_t object)
{
    for (unsigned bit = 0; bit < 32; bit++)
        flip_bit(group, entry_at(image.length, object), "entry", object, bit);
}

/* Another entry in an object's place. With the later ends moved along all other entries stay lawful, so that this one
 * alone decides, but for D. */
static void put_entry(enum group group, size_t object, uint32_t entry, int moved)
{
    uint32_t by = entry - image.entries[object];
    size_t until = moved ? image.count : object + 1;
    lay_entry(object, entry);
    for (size_t i = object + 1; i < until; i++)
        lay_entry(i, (image.entries[i] & ENTRY_FILEMARK) | ((image.entries[i] + by) & ENTRY_END));
    judge(group, (struct damage){"entry", object, moved ? "later ends moved along with" : "value", entry});
    for (size_t i = object; i < until; i++)
        lay_entry(i, image.entries[i]);
}

/* An end as a block's and as a filemark's. */
static void put_end(size_t object, uint32_t end)
{
    int is_last = object + 1 == image.count;
    enum group group = object == 0 ? FIRST_ENDS : is_last ? LAST_ENDS : ENDS;
    const uint32_t entries[] = {end & ENTRY_END, end | ENTRY_FILEMARK};
    for (size_t i = 0; i < COUNT(entries); i++)
        if (entries[i] != image.entries[object]) {
            put_entry(group, object, entries[i], 0);
            if (!is_last)
                put_entry(object == 0 ? FIRST_ENDS : ENDS_MOVED, object, entries[i], 1);
        }
}

static int is_among(uint32_t number, const uint32_t *numbers, size_t count)
{
    while (count > 0 && numbers[count - 1] != number)
        count--;
    return count > 0;
}

/* Ends on both sides of each bound, which are counted from the end before the entry, or else from those that a wrong
 * check has in its place: the end before that one, the end of the entry after, and 0. What was the largest block before
 * 02 is no bound any more. */
static void put_ends(size_t object)
{
    uint32_t before = (uint32_t)end_in(image.slice, object);
    uint32_t earlier = object == 0 ? 0 : (uint32_t)end_in(image.slice, object - 1);
    uint32_t later = (uint32_t)end_in(image.slice, smaller(object + 2, image.count));
    uint32_t directory = get32(word_at(image.length - TRAILER_D));
    const uint32_t ends[] = {
        before - 1, before, before + 1, before + LARGEST_BLOCK, before + LARGEST_BLOCK + 1,
        before + LARGEST_BEFORE, before + LARGEST_BEFORE + 1,
        earlier, earlier + 1, earlier + LARGEST_BLOCK, earlier + LARGEST_BLOCK + 1,
        later - 1, later,
        0, 1, LARGEST_BLOCK, LARGEST_BLOCK + 1,
    };
    for (size_t i = 0; i < COUNT(ends); i++)
        if (!is_among(ends[i], ends, i))
            put_end(object, ends[i]);
    if (object + 1 == image.count) {
        put_end(object, directory);
        put_end(object, directory + 1);
    }
}

/* ---- small images */

static void damage_whole(uint32_t flags)
{
    lay_image(flags);
    lend_cartridge();
    judge_as_laid(AS_LAID);
    flip_bits_of_trailer(SMALL_BITS);
    for (size_t i = 0; i < image.count; i++)
        flip_bits_of_entry(SMALL_BITS, i);
    judge_as_laid(AS_LAID);
}

static void damage_small_images(void)
{
    enum { B = LARGEST_BLOCK, F = LARGEST_BEFORE };
    static const struct {
        size_t count;
        uint32_t sizes[9];
    } rows[] = {
        {0, {0}},
        {1, {0}}, {1, {1}}, {1, {F}}, {1, {F + 1}}, {1, {B}},
        {2, {0, 0}}, {2, {0, 1}}, {2, {1, 0}}, {2, {1, 1}}, {2, {F, F}}, {2, {B, B}}, {2, {300, 700}},
        {3, {0, B, 0}}, {3, {B, 0, 1}}, {3, {1, 0, B}}, {3, {F + 1, F, B - 1}},
        {9, {0, 1, 0, B, 0, 0, 1, 2, 0}},
        {9, {0, 0, 1, 1, 9000, B, 20000, 0, 1}},
        {9, {B, 0, 300, 1, 300, 0, 0, 1, B}},
    };
    static const size_t spares[] = {0, 1, LARGEST_BEFORE + 1, LARGEST_BLOCK + 1};
    for (size_t row = 0; row < COUNT(rows); row++)
        for (size_t i = 0; i < COUNT(spares); i++)
            for (int slice = P0; slice <= P1; slice++)
                for (uint32_t flags = 0; flags <= FLAG_PROTECTED; flags++) {
                    set_objects(rows[row].sizes, rows[row].count);
                    image.slice = (enum slice)slice;
                    place_image(full_length() + spares[i]);
                    damage_whole(flags);
                }
}

/* ---- larger images */

/* Small blocks and filemarks, and a largest block with one behind it that may take some of its bytes. One in three is
 * an older image: its largest block is the largest that there was. */
static void draw_objects(size_t count)
{
    static const uint32_t likely[] = {1, 1, 2, 3, 17, 255, 256, 300}, shares[] = {10, 40, 90};
    uint32_t sizes[OBJECTS_MOST + 2] = {0}, filemarks = shares[draw(COUNT(shares))];
    uint32_t most = one_in(3) ? LARGEST_BEFORE : LARGEST_BLOCK;
    size_t largest = draw(count + 1);
    for (size_t i = 0; i < count; i++)
        sizes[i] = draw(100) < filemarks ? 0 : likely[draw(COUNT(likely))];
    sizes[largest] = most;
    sizes[largest + 1] = 1 + draw(most);
    set_objects(sizes, count);
}

/* The objects near either end: of a loop that takes up to 32 entries at a time the first rounds, the last, and the rest
 * are met. */
static void damage_entries(void)
{
    enum { NEAR = 34 };
    for (size_t i = 0; i < image.count; i++)
        if (i < NEAR || i + NEAR >= image.count) {
            flip_bits_of_entry(ENTRY_BITS, i);
            put_ends(i);
        }
}

/* The last end one behind D, and so in the directory, at D, and one before it. */
static void move_directory(void)
{
    size_t full = full_length();
    if (image.end == 0 || full <= SHORTEST)
        return;
    for (size_t length = full - 1; length <= full + 1; length++) {
        place_image(length);
        lay_image(0);
        judge(DIRECTORIES, (struct damage){"last object", image.count - 1, "D", (uint32_t)(length - full + image.end)});
    }
}

static void damage_larger_image(size_t count, size_t spare)
{
    draw_objects(count);
    image.slice = one_in(3) ? P1 : P0;
    place_image(full_length() + spare);
    lay_image(one_in(4) ? FLAG_PROTECTED : 0);
    lend_cartridge();
    judge_as_laid(AS_LAID);
    flip_bits_of_trailer(TRAILER_BITS);
    damage_entries();
    judge_as_laid(AS_LAID);
    move_directory();
}

/* Their number has every remainder by 4, 8, 16 and 32. Little room lies behind the last end, and then enough for a
 * largest block. */
static void damage_larger_images(void)
{
    enum { EACH = 70 };
    static const size_t more[] = {127, 128, 129, 130, 255, 256, 257, 258, OBJECTS_MOST};
    for (size_t i = 0; i <= EACH + COUNT(more); i++) {
        size_t count = i <= EACH ? i : more[i - EACH - 1];
        damage_larger_image(count, draw(20));
        damage_larger_image(count, LARGEST_BLOCK + 1 + draw(20));
    }
}

/* ---- offsets */

/* So far behind the page in front of the image, or before the page behind it: neither can be read. But for the bytes of
 * the first object the directory starts with the image, so that a read beyond it is one of the page. */
static void damage_at_offset(size_t offset, int is_front, uint32_t first, size_t count)
{
    uint32_t sizes[OBJECTS_MOST] = {first};
    set_objects(sizes, count);
    image.slice = one_in(2) ? P1 : P0;
    place_image(full_length());
    twins[image.slice].at = is_front ? offset : SHARED_ROOM - image.length - offset;
    lay_image(0);
    lend_cartridge();
    judge_as_laid(OFFSETS);
    for (size_t i = 0; i < count; i++)
        flip_bit(OFFSETS, entry_at(image.length, i), "entry", i, 0);
}

static void damage_at_offsets(void)
{
    static const size_t counts[] = {12, 13, 14, 15, 16, 17, 23, 24, 25, 31, 32, 33, 47, 48, 49, 64};
    for (size_t i = 0; i < COUNT(counts); i++)
        for (uint32_t first = 0; first < 4; first++)
            for (size_t offset = 0; offset < 16; offset++) {
                damage_at_offset(offset, 1, first, counts[i]);
                damage_at_offset(offset, 0, first, counts[i]);
            }
}

int main(int arguments, char **argument)
{
    if (arguments != 2) {
        printf("damage SEED\n");
        return 2;
    }
    seed = strtoull(argument[1], NULL, 10);
    random_state = seed;
    map_twins();
    share_pages(P0);
    share_pages(P1);
    catch_faults(on_fault_by_damage);
    place(RECORD, RECORD_BYTES);
    place(COMMAND, BYTES_6);
    lay(COMMAND, 0, (const uint8_t[BYTES_6]){TEST_UNIT_READY}, BYTES_6);
    damage_small_images();
    damage_larger_images();
    damage_at_offsets();
    return report();
}
