/* judgement.h: one image lent to both sides, with a damage or without, and whether either finds it sound. */
#ifndef JUDGEMENT_H
#define JUDGEMENT_H

#include "twin.h"

/* ---- the image */

/* A room holds three of the largest blocks and more, as nobody looks at their data. */
enum { OBJECTS_MOST = 1000, SHARED_ROOM = 8 * LARGE_ROOM };

/* A sound image: each damage is laid over it, judged, and taken back. */
static struct {
    enum slice slice; /* the partition that it is */
    size_t length, count;
    uint32_t end; /* end(N) */
    uint32_t entries[OBJECTS_MOST];
} image;

/* Both sides have the same pages, and the library cannot write them: a damage is laid once, and a store is a fault. */
static inline void share_pages(enum slice slice)
{
    struct twin *twin = &twins[slice];
    FILE *file = tmpfile();
    if (file == NULL || ftruncate(fileno(file), SHARED_ROOM) != 0)
        abort();
    unmap_twin(twin);
    twin->room_length = SHARED_ROOM;
    for (int side = MODEL; side <= LIBRARY; side++) {
        int access = side == MODEL ? PROT_READ | PROT_WRITE : PROT_READ;
        twin->room[side] = guarded_pages(SHARED_ROOM, PROT_NONE);
        if (mmap(twin->room[side], SHARED_ROOM, access, MAP_SHARED | MAP_FIXED, fileno(file), 0) == MAP_FAILED)
            abort();
    }
    for (size_t at = 0; at < SHARED_ROOM; at += LARGE_ROOM)
        memcpy(twin->room[MODEL] + at, noise, LARGE_ROOM);
    sealed[slice] = 1;
    fclose(file);
}

static inline uint8_t *word_at(size_t offset)
{
    return bytes_of(image.slice, MODEL) + offset;
}

static inline void lay_entry(size_t object, uint32_t entry)
{
    put32(word_at(entry_at(image.length, object)), entry);
}

/* Sizes are those of the objects' data, 0 for a filemark. */
static inline void set_objects(const uint32_t *sizes, size_t count)
{
    image.count = count;
    image.end = 0;
    for (size_t i = 0; i < count; i++) {
        image.end += sizes[i];
        image.entries[i] = sizes[i] == 0 ? ENTRY_FILEMARK | image.end : image.end;
    }
}

/* How long the image is whose last end is D. */
static inline size_t full_length(void)
{
    return TRAILER + ENTRY * image.count + image.end;
}

/* An image has at least the shortest length. */
static inline void place_image(size_t length)
{
    image.length = length < SHORTEST ? SHORTEST : length;
    place(image.slice, image.length);
}

static inline void lay_image(uint32_t flags)
{
    for (size_t i = 0; i < image.count; i++)
        lay_entry(i, image.entries[i]);
    lay_count(word_at(0), image.length, image.count);
    put32(word_at(image.length - TRAILER_FLAGS), flags);
    put32(word_at(image.length - TRAILER_L), (uint32_t)image.length);
}

/* ---- the drive */

/* The record for a mount, and the one for a command. */
static uint8_t unloaded[RECORD_BYTES], loaded[RECORD_BYTES];

/* The other partition is blank. There must be one beside partition 1, and there may be beside partition 0. */
static inline void lend_cartridge(void)
{
    enum slice other = (enum slice)(P0 + P1 - image.slice);
    uint32_t partitions = image.slice == P1 ? 2 : 1 + draw(2);
    place(other, partitions == 2 ? SHORTEST : 0);
    model_blank(bytes_of(other, MODEL), twins[other].length);
    model_fresh(unloaded, RECORD_BYTES);
    memcpy(loaded, unloaded, RECORD_BYTES);
    loaded[STORMTOGGLE_RECORD_LOADED] = 1;
    loaded[STORMTOGGLE_RECORD_PARTITIONS] = (uint8_t)partitions;
    loaded[STORMTOGGLE_RECORD_CURRENT] = (uint8_t)draw(partitions);
    loaded[STORMTOGGLE_RECORD_ATTENTION] = ATTENTION_NONE;
}

/* ---- the judgement */

enum group {
    AS_LAID, SMALL_BITS, TRAILER_BITS, ENTRY_BITS, FIRST_ENDS, ENDS, ENDS_MOVED, LAST_ENDS, DIRECTORIES, OFFSETS, GROUPS
};
static const char *const group_names[GROUPS] = {
    "as laid", "each bit of small images", "each bit of a trailer", "each bit of an entry", "the first end", "an end",
    "an end, the later ones moved along", "the last end", "D beside the last end", "beside an unreadable page",
};

/* How many images were unsound by the model, and how many sound. A group has enough of both, or it shows nothing. */
static unsigned long judged[GROUPS][2];
enum { ENOUGH = 100 };

/* What is wrong with the image: "entry" 5, "bit" 31. */
static struct damage {
    const char *place; /* NULL if nothing is */
    size_t number;
    const char *change;
    uint32_t value;
} damage;

static inline void name_the_damage(void)
{
    size_t from = damage.number < 2 ? 0 : damage.number - 2;
    printf("%s of %zu objects in %zu bytes, ", slice_names[image.slice], image.count, image.length);
    if (damage.place == NULL)
        printf("as laid");
    else
        printf("%s %zu, %s %" PRIu32 " (%" PRIx32 "h)", damage.place, damage.number, damage.change, damage.value,
               damage.value);
    printf(", entries from %zu on", from);
    for (size_t i = from; i < from + 5 && i < image.count; i++)
        printf(" %08" PRIx32 "h", get32(word_at(entry_at(image.length, i))));
    printf(": ");
}

static inline void on_fault_by_damage(int signal_number, siginfo_t *fault, void *context)
{
    name_the_damage();
    on_fault(signal_number, fault, context);
}

/* What an answer to the latest call says of the image; a view is that of a block. */
static inline int says_sound(uint64_t answer)
{
    return latest.service == VIEW ? answer != 0 : STORMTOGGLE_REFUSAL(answer) == 0;
}

/* Makes the call on both sides, and tells what the model says. The first that differs ends the run. */
static inline int is_sound_by(struct call call, const uint8_t *record)
{
    uint64_t by_model, by_library;
    int differs;
    lay(RECORD, 0, record, RECORD_BYTES);
    begin_call(&call);
    running = IN_MODEL;
    by_model = invoke(MODEL, &call);
    running = IN_LIBRARY;
    by_library = invoke(LIBRARY, &call);
    running = IN_NEITHER;
    differs = answer_differs(by_library, by_model);
    if (slice_differs(RECORD) || differs) {
        name_the_damage();
        printf("%s by the model, %s by the library\n", says_sound(by_model) ? "sound" : "unsound",
               says_sound(by_library) ? "sound" : "unsound");
        cut_short();
    }
    return says_sound(by_model);
}

/* The next block behind an object, and behind the last from the front on; N if there is no other. */
static inline size_t other_block(size_t object)
{
    for (size_t i = 1; i < image.count; i++)
        if ((image.entries[(object + i) % image.count] & ENTRY_FILEMARK) == 0)
            return (object + i) % image.count;
    return image.count;
}

/* Asks by TEST UNIT READY on a loaded drive, by the view of a block that is not damaged itself, or by a mount. */
enum { WAYS = 3 };
static inline int is_sound(unsigned way)
{
    struct call view = {.service = VIEW, .number_1 = image.slice == P1, .number_2 = other_block(damage.number)};
    if (way % WAYS == 0)
        return is_sound_by((struct call){.service = A_COMMAND}, loaded);
    if (way % WAYS == 1 && view.number_2 < image.count)
        return is_sound_by(view, loaded);
    return is_sound_by((struct call){.service = MOUNT}, unloaded);
}

/* In one of the ways, by turns; the small images, and those that are not damaged, in each. */
static inline void judge(enum group group, struct damage what)
{
    static unsigned turn;
    damage = what;
    judged[group][is_sound(turn)]++;
    for (unsigned more = 1; more < WAYS && (group == AS_LAID || group == SMALL_BITS); more++)
        is_sound(turn + more);
    turn++;
}

/* Before the first damage, and again when all are taken back. */
static inline void judge_as_laid(enum group group)
{
    judge(group, (struct damage){.place = NULL});
}

/* ---- the images judged */

/* The exit status: 0 only without a mismatch, and if every group has enough of both verdicts. */
static inline int report(void)
{
    unsigned long sound = 0, unsound = 0;
    unsigned wanting = 0;
    for (int group = 0; group < GROUPS; group++) {
        int has_unsound = group == AS_LAID ? judged[group][0] == 0 : judged[group][0] >= ENOUGH;
        printf("%-36s %7lu sound %7lu unsound\n", group_names[group], judged[group][1], judged[group][0]);
        sound += judged[group][1];
        unsound += judged[group][0];
        wanting += judged[group][1] < ENOUGH || !has_unsound;
    }
    print_totals();
    printf(", %lu images judged, %lu sound and %lu unsound, %u groups without enough of either\n", sound + unsound,
           sound, unsound, wanting);
    return reached.mismatches > 0 || wanting > 0;
}

#endif
