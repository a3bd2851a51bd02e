/* cartridge.c: the operator's tool: makes, lists, protects, reads and checks cartridges that lie in files. It judges
 * and changes none by itself: that is the library's, and what the library does not tell is read from bytes that it
 * found sound. `cartridge --help` says how it is used. */
#define _DEFAULT_SOURCE
#include "blank.h"
#include "extract.h"
#include "verdict.h"
#include "words.h"
#include <inttypes.h>

/* ---- one file or two */

static enum ending worse(enum ending one, enum ending other)
{
    return one > other ? one : other;
}

static enum ending open_partitions(struct file *files, const struct request *asked)
{
    for (int i = 0; i < asked->words; i++) {
        enum ending ending = open_file(&files[i], asked->word[i], TO_READ);
        if (ending != DONE)
            return ending;
    }
    if (asked->words == 2 && is_same_file(&files[0], files[1].device, files[1].number))
        return complain(WRONG_USE, files[1].name, "is the first partition's file too");
    return DONE;
}

/* ---- list */

/* The text of the listing program for the same image. On a terminal it tells by itself how far it is. */
static void print_listing(const struct file *file)
{
    struct image image = image_of(file);
    uint32_t before = 0, objects = image_field(image, IMAGE_N);
    begin_work(isatty(STDOUT_FILENO) ? NULL : "listing", file->name, objects);
    printf("objects %" PRIu32 " free %" PRIu32 "\n", objects, room_at_end(image));
    for (uint32_t i = 0; i < objects && !ferror(stdout); i++) {
        struct object object = object_at(image, i);
        if (object.is_filemark)
            printf("%" PRIu32 " filemark\n", i);
        else
            printf("%" PRIu32 " block %" PRIu32 "\n", i, object.end - before);
        before = object.end;
        work_done(i);
    }
}

static enum ending list(const struct request *asked)
{
    struct file files[2];
    enum ending ending = open_partitions(files, asked);
    if (ending != DONE)
        return ending;
    for (int i = 0; i < asked->words; i++)
        ending = worse(ending, judge(&files[i]));
    for (int i = 0; i < asked->words && ending == DONE; i++) {
        if (asked->words > 1)
            printf("partition %d: %s\n", i, files[i].name);
        print_listing(&files[i]);
    }
    return ending;
}

/* ---- protect */

static int is_protected(const struct file *file)
{
    struct image image = image_of(file);
    return image.length >= IMAGE_TRAILER && (image_field(image, IMAGE_FLAGS) & IMAGE_PROTECTED) != 0;
}

/* The library stores nothing where nothing changes, and the file then stays as it is, its times too. */
static enum ending set_protection(const struct file *file, int on)
{
    const char *is_now = on ? "protected" : "not protected";
    int was = is_protected(file);
    begin_work("judging", file->name, 0);
    unsigned refusal = STORMTOGGLE_REFUSAL(stormtoggle_protect(file->bytes, file->length, (uint64_t)on));
    if (refusal != 0)
        return tell_unsound(file, refusal);
    enum ending ending = was == on ? DONE : make_durable(file);
    if (ending == DONE)
        printf("%s: %s%s\n", file->name, was == on ? "already " : "", is_now);
    return ending;
}

static enum ending protect(const struct request *asked)
{
    struct file file;
    int on = strcmp(asked->word[1], "on") == 0;
    if (!on && strcmp(asked->word[1], "off") != 0)
        return complain(WRONG_USE, NULL, "'%s' is neither on nor off", asked->word[1]);
    enum ending ending = open_file(&file, asked->word[0], TO_CHANGE);
    return ending == DONE ? set_protection(&file, on) : ending;
}

/* ---- check */

static void print_soundness(const struct file *file, struct survey survey)
{
    struct image image = image_of(file);
    uint32_t objects = image_field(image, IMAGE_N);
    printf("%s: sound\n", file->name);
    printf("  objects %" PRIu32 "\n  blocks %" PRIu32 "\n  filemarks %" PRIu32 "\n", objects, survey.blocks,
           survey.filemarks);
    printf("  bytes used %" PRIu32 "\n  bytes free %" PRIu32 "\n", IMAGE_ENTRY * objects + end_of_data(image),
           room_at_end(image));
    if (survey.blocks > 0)
        printf("  smallest block %" PRIu32 "\n  largest block %" PRIu32 "\n", survey.smallest, survey.largest);
    printf("  protected %s\n", is_protected(file) ? "yes" : "no");
    printf("  end of data in the early-warning zone %s\n", ends_in_zone(image) ? "yes" : "no");
}

static enum ending check_file(const struct file *file)
{
    unsigned refusal = refusal_of(file);
    struct survey survey = survey_file(file);
    if (!is_verdict_on(refusal, survey.broken))
        return tell_disagreement(file, refusal, survey);
    end_work();
    if (refusal == 0) {
        print_soundness(file, survey);
        return DONE;
    }
    printf("%s: unsound: ", file->name);
    print_broken_rule(stdout, image_of(file), survey);
    printf("\n");
    return NOT_THERE;
}

static enum ending check(const struct request *asked)
{
    struct file files[2];
    enum ending ending = open_partitions(files, asked);
    if (ending != DONE)
        return ending;
    for (int i = 0; i < asked->words; i++)
        ending = worse(ending, check_file(&files[i]));
    return ending;
}

/* ---- verbs */

static const struct verb verbs[] = {
    {"blank", "SIZE FILE...", 2, INT32_MAX, blank,
     "Makes new files, each a blank partition of SIZE bytes: 64 to 1G. SIZE is a\n"
     "number, with K, M or G for powers of 1024, and with a decimal part if that\n"
     "gives whole bytes (1.5K). No file is overwritten, and none is made if one of\n"
     "the names is taken. The space is allocated; when a line says that a file is\n"
     "there, it is on disk.\n"},
    {"list", "CARTRIDGE [SECOND]", 1, 2, list,
     "Prints `objects N free R`, and then for each object its number and `filemark`\n"
     "or `block LENGTH`: the very text of the listing program, which takes 65,536\n"
     "bytes at most. With a second partition, `partition 0: CARTRIDGE` stands before\n"
     "the first list and `partition 1: SECOND` before the second. If a partition is\n"
     "unsound nothing is listed: where the listing program prints `refused 6` or\n"
     "`refused 7`, this says why on standard error, and ends with 1.\n"},
    {"protect", "CARTRIDGE on|off", 2, 2, protect,
     "Sets or clears the write protection of a partition; it is on disk when a line\n"
     "says so. A file that has it so already is not written.\n"},
    {"extract", "CARTRIDGE N FILE [--force]", 3, 3, extract,
     "Writes the bytes of block N to FILE, or to standard output if that is `-`.\n"
     "N counts all objects from 0 on, filemarks too, as `list` does. A FILE that\n"
     "exists is overwritten with --force alone, and never if it is the cartridge\n"
     "itself or one that a drive has.\n"},
    {"check", "CARTRIDGE [SECOND]", 1, 2, check,
     "Says whether a partition is sound. Of a sound one it tells objects, bytes used\n"
     "(data, and 4 for each object) and free, blocks, protection, and whether end of\n"
     "data is in the early-warning zone. Of an unsound one it tells the first rule\n"
     "that is broken, in this order: the file's length; the trailer's L; its flags;\n"
     "its N and D; the entries from object 0 on; the end of the data. The verdict is\n"
     "the library's. Should this tool's own reading ever give another, it says so\n"
     "and ends with 4.\n"},
};
enum { VERBS = sizeof verbs / sizeof *verbs };

static void print_help(FILE *to)
{
    fputs(help_head, to);
    for (int i = 0; i < VERBS; i++)
        print_usage(to, &verbs[i]);
    fputs(help_tail, to);
}

static const struct verb *verb_named(const char *name)
{
    for (int i = 0; i < VERBS; i++)
        if (strcmp(name, verbs[i].name) == 0)
            return &verbs[i];
    return NULL;
}

static enum ending carry_out(const struct verb *verb, int count, char **words)
{
    struct request asked = {0};
    const char *wrong = take_options(&asked, count, words);
    if (asked.wants_help) {
        print_usage(stdout, verb);
        fputs(verb->help, stdout);
        return DONE;
    }
    if (asked.is_forced && verb->act != extract)
        wrong = "--force";
    if (wrong != NULL)
        return complain(WRONG_USE, NULL, "%s has no option %s; `cartridge %s --help` says more", verb->name, wrong,
                        verb->name);
    if (asked.words < verb->least || asked.words > verb->most)
        return complain(WRONG_USE, NULL, "%s takes %s; `cartridge %s --help` says more", verb->name, verb->takes,
                        verb->name);
    return verb->act(&asked);
}

int main(int count, char **words)
{
    const struct verb *verb = count < 2 ? NULL : verb_named(words[1]);
    if (secure_descriptors() != DONE)
        return SYSTEM_REFUSED;
    start_telling();
    if (verb != NULL)
        return (int)finish_output(carry_out(verb, count - 2, words + 2));
    if (count > 1 && strcmp(words[1], "--help") == 0) {
        print_help(stdout);
        return (int)finish_output(DONE);
    }
    if (count > 1)
        return (int)complain(WRONG_USE, NULL, "there is no verb '%s'; `cartridge --help` names them", words[1]);
    print_help(stderr);
    return WRONG_USE;
}
