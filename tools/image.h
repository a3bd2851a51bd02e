/* image.h: what a partition image says, read from its bytes after 01's "Partition image": the trailer, the directory,
 * and which of its rules an unsound one breaks first. Part of cartridge.c. The verdict on an image is the library's. */
#ifndef TOOLS_IMAGE_H
#define TOOLS_IMAGE_H

#include "../examples/decode.h"
#include "../examples/layout.h"
#include "progress.h"

struct image {
    const uint8_t *bytes;
    size_t length;
};

/* ---- the trailer, and the directory before it */

/* Of the room of a blank, the part that is the early-warning zone. */
enum { IMAGE_ZONE_SHARE = 16 };

/* Only for an image that is long enough to have a trailer. */
static inline uint32_t image_field(struct image image, enum image_field field)
{
    return number_at(image.bytes + image.length - field);
}

/* An object, as its entry tells it beside the end of the data before it. */
struct object {
    int is_filemark;
    uint32_t end;
};

/* Only for a number whose entry lies in the image. */
static inline struct object object_at(struct image image, uint32_t number)
{
    uint32_t entry = number_at(image.bytes + image.length - IMAGE_TRAILER - IMAGE_ENTRY * ((size_t)number + 1));
    return (struct object){.is_filemark = entry >> IMAGE_FILEMARK_SHIFT != 0, .end = entry & IMAGE_END};
}

/* end(N), of a sound image. */
static inline uint32_t end_of_data(struct image image)
{
    uint32_t objects = image_field(image, IMAGE_N);
    return objects == 0 ? 0 : object_at(image, objects - 1).end;
}

/* The room at N, of a sound image: L - 16 - 4N is D there. */
static inline uint32_t room_at_end(struct image image)
{
    return image_field(image, IMAGE_D) - end_of_data(image);
}

static inline int ends_in_zone(struct image image)
{
    return (uint64_t)room_at_end(image) * IMAGE_ZONE_SHARE < image.length - IMAGE_TRAILER;
}

/* ---- the rules, in the order in which they are looked at */

enum rule { NO_RULE, LENGTH_RULE, L_RULE, FLAGS_RULE, D_RULE, BLOCK_RULE, FILEMARK_RULE, END_RULE, RULES };

/* What a walk over the whole directory finds. */
struct survey {
    enum rule broken;
    uint32_t object;      /* the object that breaks it, for the last three rules; */
    uint32_t before, end; /* where the data before that object ends, and where its own does */
    uint32_t blocks, filemarks, smallest, largest;
};

static inline enum rule rule_of_trailer(struct image image)
{
    if (image.length < STORMTOGGLE_SHORTEST_IMAGE || image.length > STORMTOGGLE_LONGEST_IMAGE)
        return LENGTH_RULE;
    if (image_field(image, IMAGE_L) != image.length)
        return L_RULE;
    if ((image_field(image, IMAGE_FLAGS) & ~(uint32_t)IMAGE_PROTECTED) != 0)
        return FLAGS_RULE;
    uint64_t directory = (uint64_t)IMAGE_ENTRY * image_field(image, IMAGE_N);
    return image_field(image, IMAGE_D) + directory + IMAGE_TRAILER == image.length ? NO_RULE : D_RULE;
}

static inline enum rule rule_of_object(struct object object, uint32_t before)
{
    if (object.is_filemark)
        return object.end == before ? NO_RULE : FILEMARK_RULE;
    return object.end > before && object.end - before <= STORMTOGGLE_LARGEST_BLOCK ? NO_RULE : BLOCK_RULE;
}

static inline void count_object(struct survey *survey, struct object object, uint32_t before)
{
    uint32_t length = object.end - before;
    if (object.is_filemark) {
        survey->filemarks++;
        return;
    }
    if (survey->blocks == 0 || length < survey->smallest)
        survey->smallest = length;
    if (length > survey->largest)
        survey->largest = length;
    survey->blocks++;
}

static inline struct survey broken_at(enum rule rule, uint32_t object, uint32_t before, uint32_t end)
{
    return (struct survey){.broken = rule, .object = object, .before = before, .end = end};
}

/* The last rule speaks of end(N), so it is looked at when every entry has been; it names the first object whose data
 * runs into the directory. */
static inline struct survey survey_of(struct image image)
{
    struct survey survey = {.broken = rule_of_trailer(image)}, past = {.broken = NO_RULE};
    if (survey.broken != NO_RULE)
        return survey;
    uint32_t before = 0, objects = image_field(image, IMAGE_N), directory = image_field(image, IMAGE_D);
    for (uint32_t i = 0; i < objects; i++) {
        struct object object = object_at(image, i);
        enum rule rule = rule_of_object(object, before);
        if (rule != NO_RULE)
            return broken_at(rule, i, before, object.end);
        if (object.end > directory && past.broken == NO_RULE)
            past = broken_at(END_RULE, i, before, object.end);
        count_object(&survey, object, before);
        before = object.end;
        work_done(i);
    }
    return past.broken == NO_RULE ? survey : past;
}

/* Whether a verdict of the library, its refusal of a mount, is what a survey gives. */
static inline int is_verdict_on(unsigned refusal, enum rule broken)
{
    if (broken == NO_RULE)
        return refusal == 0;
    return refusal == (broken == LENGTH_RULE ? STORMTOGGLE_BY_LENGTH : STORMTOGGLE_BY_UNSOUND);
}

/* ---- in words */

static inline void print_rule_of_d(FILE *to, struct image image)
{
    uint32_t objects = image_field(image, IMAGE_N);
    uint64_t behind = (uint64_t)IMAGE_ENTRY * objects + IMAGE_TRAILER;
    fprintf(to, "the trailer's N is %u, ", (unsigned)objects);
    if (behind > image.length)
        fprintf(to, "more objects than %zu bytes have room for", image.length);
    else
        fprintf(to, "so D, which is L - 16 - 4N, should be %zu; it is %u", image.length - (size_t)behind,
                (unsigned)image_field(image, IMAGE_D));
}

static inline void print_rule_of_object(FILE *to, struct survey survey, const char *kind, const char *rule)
{
    fprintf(to, "object %u, a %s, ends at byte %u and the data before it at byte %u: %s", (unsigned)survey.object, kind,
            (unsigned)survey.end, (unsigned)survey.before, rule);
}

/* Why an image is unsound, as one line without its end. */
static inline void print_broken_rule(FILE *to, struct image image, struct survey survey)
{
    switch (survey.broken) {
    case LENGTH_RULE:
        fprintf(to, "it has %zu bytes; a partition has 64 to 1,073,741,824", image.length);
        break;
    case L_RULE:
        fprintf(to, "its last four bytes should give its length, %zu; they give %u: it was cut, has grown, "
                "or is no cartridge", image.length, (unsigned)image_field(image, IMAGE_L));
        break;
    case FLAGS_RULE:
        fprintf(to, "the trailer's flags are %08Xh; only bit 0, protected, has a meaning",
                (unsigned)image_field(image, IMAGE_FLAGS));
        break;
    case D_RULE: print_rule_of_d(to, image); break;
    case BLOCK_RULE: print_rule_of_object(to, survey, "block", "a block has 1 to 1,048,576 bytes"); break;
    case FILEMARK_RULE: print_rule_of_object(to, survey, "filemark", "a filemark has none"); break;
    case END_RULE:
        fprintf(to, "object %u ends at byte %u, inside the directory, which starts at byte %u (D)",
                (unsigned)survey.object, (unsigned)survey.end, (unsigned)image_field(image, IMAGE_D));
        break;
    default: fprintf(to, "no rule is broken"); break;
    }
}

#endif
