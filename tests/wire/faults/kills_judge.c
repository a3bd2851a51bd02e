/* kills_judge.c: whether the files of a killed daemon hold what they must.
 *
 *   kills_judge STATE JOURNAL SEED FIRST SECOND
 *
 * Plays the journal upon the state, and compares every object of both partitions (number, kind, length and bytes) with
 * the tapes that model.h allows, exactly. Then writes the state anew: what the files hold. Prints, in one line, which
 * command the kill fell into, which tape each partition holds, and how many objects and bytes were compared. Exit
 * status: 0 all holds, 1 not, 3 a partition is torn (a mount refuses it). */
#define _POSIX_C_SOURCE 200809L
#include "content.h"
#include "decode.h"
#include "model.h"
#include <fcntl.h>
#include <sys/mman.h>
#include <sys/stat.h>
#include <unistd.h>

enum { TRAILER = 16, IS_TORN = 3 };
enum held { BEFORE, CUT, NOW, KINDS };
static const char *const held_in_words[KINDS] = {"before", "cut", "now"};

struct image {
    const uint8_t *bytes;
    size_t length;
};

static struct model model;
static struct tape cut[PARTITIONS];
static uint8_t block[LARGEST_BLOCK];
static uint64_t seed, objects_compared, bytes_compared;

/* ---- the files */

static int open_image(struct image *i, const char *name)
{
    struct stat about;
    int fd = open(name, O_RDONLY);
    if (fd < 0 || fstat(fd, &about) != 0)
        return 0;
    i->length = (size_t)about.st_size;
    void *bytes = mmap(NULL, i->length, PROT_READ, MAP_PRIVATE, fd, 0);
    close(fd);
    i->bytes = bytes;
    return bytes != MAP_FAILED;
}

static unsigned mount_refusal(const struct image *i)
{
    uint8_t record[STORMTOGGLE_RECORD_LENGTH];
    stormtoggle_fresh(record, sizeof record);
    return STORMTOGGLE_REFUSAL(
        stormtoggle_mount(record, sizeof record, i[0].bytes, i[0].length, i[1].bytes, i[1].length));
}

static uint32_t objects_in(const struct image *i)
{
    return number_at(i->bytes + i->length - TRAILER);
}

/* In an image that a mount takes: an object below N that has no view is a filemark. */
static int is_object(const struct image *i, uint32_t number, struct object wanted)
{
    uint64_t view = stormtoggle_view(i->bytes, i->length, NULL, 0, 0, number);
    if (STORMTOGGLE_VIEW_LENGTH(view) != wanted.length)
        return 0;
    fill_block(block, wanted.length, seed, wanted.number);
    objects_compared++;
    bytes_compared += wanted.length;
    return wanted.length == 0 || memcmp(i->bytes + STORMTOGGLE_VIEW_START(view), block, wanted.length) == 0;
}

/* How many objects of the tape the image has, up to the first that is another. */
static uint32_t objects_alike(const struct image *i, const struct tape *t)
{
    uint32_t alike = 0;
    while (alike < t->count && alike < objects_in(i) && is_object(i, alike, t->objects[alike]))
        alike++;
    return alike;
}

static int is_tape(const struct image *i, const struct tape *t)
{
    return objects_in(i) == t->count && objects_alike(i, t) == t->count;
}

/* ---- the journal */

/* Gives back the command that the kill fell into, with what became of it. */
static struct act play_journal(const char *name, char *answer)
{
    FILE *journal = fopen(name, "r");
    struct act a, last = {.kind = NO_COMMAND};
    *answer = ANSWERED;
    while (journal != NULL && read_act(journal, &a, answer)) {
        last = a;
        if (*answer != ANSWERED)
            break;
        take(&model, a);
    }
    if (journal != NULL)
        fclose(journal);
    return last;
}

/* The tapes that the command would leave, and the file on the way there. */
static void play_unanswered(struct act a)
{
    carry_out(&model, a);
    for (int p = 0; p < PARTITIONS; p++) {
        copy_tape(&cut[p], &model.before[p]);
        if (model.lowest[p] < cut[p].count)
            cut[p].count = model.lowest[p];
    }
}

static const struct tape *tape_of(int p, enum held held)
{
    return held == BEFORE ? &model.before[p] : held == CUT ? &cut[p] : &model.now[p];
}

/* ---- the verdict */

static int holds(const struct image *images, enum held first, enum held second)
{
    return is_tape(&images[0], tape_of(0, first)) && is_tape(&images[1], tape_of(1, second));
}

/* In the order in which the file goes through them. */
static int find_held(const struct image *images, int is_final, enum held held[PARTITIONS])
{
    static const enum held ways[][PARTITIONS] = {{BEFORE, BEFORE}, {CUT, BEFORE}, {NOW, BEFORE}, {NOW, CUT},
                                                 {NOW, NOW}};
    int count = is_final ? (int)(sizeof ways / sizeof *ways) : 1;
    for (int i = 0; i < count; i++)
        if (holds(images, ways[i][0], ways[i][1])) {
            memcpy(held, ways[i], sizeof ways[i]);
            return 1;
        }
    return 0;
}

static void say_wrong(const struct image *images, struct act a, char answer)
{
    printf("FAILED: the kill fell into %s (%c), and the files hold no tape that may be there\n", kind_in_words(a.kind),
           answer);
    for (int p = 0; p < PARTITIONS; p++)
        for (enum held h = BEFORE; h < KINDS; h++)
            printf("    partition %d holds %" PRIu32 " objects; of '%s', which has %" PRIu32 ", the first %" PRIu32
                   " are alike\n", p, objects_in(&images[p]), held_in_words[h], tape_of(p, h)->count,
                   objects_alike(&images[p], tape_of(p, h)));
}

static int judge(const struct image *images, const char *state, const char *journal)
{
    enum held held[PARTITIONS];
    char answer;
    struct act a = play_journal(journal, &answer);
    unsigned refusal = mount_refusal(images);
    if (refusal != 0) {
        printf("FAILED: the kill fell into %s (%c), and a mount is refused %u: %s\n", kind_in_words(a.kind), answer,
               refusal, refusal_in_words(refusal));
        return IS_TORN;
    }
    if (answer == FELL)
        play_unanswered(a);
    if (!find_held(images, answer == FELL && is_final_point(a.kind), held)) {
        say_wrong(images, a, answer);
        return 1;
    }
    const struct tape *const tapes[PARTITIONS] = {tape_of(0, held[0]), tape_of(1, held[1])};
    printf("%s %s %s %" PRIu64 " %" PRIu64 "\n", answer == FELL ? kind_in_words(a.kind) : "between-commands",
           held_in_words[held[0]], held_in_words[held[1]], objects_compared, bytes_compared);
    return !write_state(state, model.next_number + 1, tapes);
}

int main(int count, char **arguments)
{
    struct image images[PARTITIONS];
    if (count != 6) {
        fputs("kills_judge STATE JOURNAL SEED FIRST SECOND: whether the files hold what they must\n", stderr);
        return 2;
    }
    seed = strtoull(arguments[3], NULL, 10);
    if (!read_state(&model, arguments[1]) || !open_image(&images[0], arguments[4]) ||
        !open_image(&images[1], arguments[5])) {
        printf("FAILED: the state or a file cannot be read\n");
        return 1;
    }
    return judge(images, arguments[1], arguments[2]);
}
