/* mains.c: lost mains. Plays random commands on the example daemon's drive, watches each step in which it writes its
 * files, and tears the step as lost mains would: any of its sectors on the disk, and any not. Each such file must be
 * sound, and hold what was final before, or what is to be final now, or, of what stood, all below every change. Now and
 * then the disk refuses a step. */
#define _DEFAULT_SOURCE
#include <sys/mman.h>
static int watched_msync(void *at, size_t length, int flags);
#define msync watched_msync
#include "../../examples/daemon/drive.h"
#undef msync
#include "../draw.h"
#include <stdlib.h>

enum { LONGEST = 20000, SECTOR = 512, TEARS = 4, REFUSED_ONE_IN = 40, MOST_REFUSED = 4 };

/* What the disk has of a partition; what it had when that was last final; below which object number nothing has changed
 * since; and, where it has refused steps since, what was to be final then, and where to be cut. */
static struct disk {
    uint8_t now[LONGEST], final[LONGEST], tried[MOST_REFUSED][LONGEST];
    uint32_t objects, lowest, cut[MOST_REFUSED];
    int tries;
} disks[2];
static struct drive drive = {.lock = PTHREAD_MUTEX_INITIALIZER};
static unsigned long commands, steps, tears, failures, refused, cuts, finals;

static void must(int holds, const char *what)
{
    if (holds)
        return;
    if (failures++ < 20)
        printf("command %lu, step %lu: %s\n", commands, steps, what);
}

/* ---- tearing */

static int is_sound(const uint8_t *image, size_t length)
{
    uint8_t record[STORMTOGGLE_RECORD_LENGTH];
    stormtoggle_fresh(record, sizeof record);
    return stormtoggle_mount(record, sizeof record, image, length, NULL, 0) == 0;
}

/* Whether two images have the same first objects. */
static int has_same(const struct cartridge *c, const uint8_t *a, const uint8_t *b, uint32_t objects)
{
    size_t entries = directory_of(c, objects);
    size_t end = objects == 0 ? 0 : number_at(a + entries) & IMAGE_END;
    return memcmp(a + entries, b + entries, IMAGE_ENTRY * (size_t)objects) == 0 && memcmp(a, b, end) == 0;
}

static int is_as(const struct cartridge *c, const uint8_t *torn, const uint8_t *image)
{
    return objects_in(c, torn) == objects_in(c, image) && has_same(c, image, torn, objects_in(c, image));
}

static int is_as_tried(const struct cartridge *c, const struct disk *d, const uint8_t *torn)
{
    for (int i = 0; i < d->tries; i++)
        if (is_as(c, torn, d->tried[i]) ||
            (objects_in(c, torn) == d->cut[i] && has_same(c, d->final, torn, d->cut[i])))
            return 1;
    return 0;
}

static void judge(const struct cartridge *c, const struct disk *d, const uint8_t *torn)
{
    uint32_t objects = objects_in(c, torn), kept = d->lowest < d->objects ? d->lowest : d->objects;
    tears++;
    must(is_sound(torn, c->length), "a torn file is unsound");
    if (!is_sound(torn, c->length))
        return;
    must(objects >= kept && has_same(c, d->final, torn, kept), "what was final, and below every change, is lost");
    must(is_as(c, torn, d->final) || is_as(c, torn, c->lent) || is_as_tried(c, d, torn) || objects == kept,
         "neither what was final, nor that cut, nor what is to be final");
}

/* Some of the sectors that differ: none, all, or each by a throw. */
static void tear(const struct cartridge *c, const uint8_t *from, const uint8_t *to, uint8_t *torn, int which)
{
    memcpy(torn, which == 0 ? from : to, c->length);
    for (size_t at = 0; which > 1 && at < c->length; at += SECTOR)
        if (one_in(2))
            memcpy(torn + at, from + at, c->length - at < SECTOR ? c->length - at : SECTOR);
}

/* The command under way: what it found, and where. It changes nothing below the position, if anything at all. (It may
 * put just what stood there.) */
static struct {
    uint8_t operation, lent[LONGEST];
    int partition;
    uint32_t position;
} found;

static void note_lowest(void)
{
    const struct cartridge *c = &drive.tape[found.partition];
    struct disk *d = &disks[found.partition];
    int is_put = (found.operation == WRITE || found.operation == WRITE_FILEMARKS) &&
                 position_of(&drive) != found.position;
    if ((is_put || memcmp(found.lent, c->lent, c->length) != 0) && found.position < d->lowest)
        d->lowest = found.position;
}

static int watched_msync(void *at, size_t length, int flags)
{
    static uint8_t torn[LONGEST];
    int which = at == drive.tape[1].file;
    const struct cartridge *c = &drive.tape[which];
    struct disk *d = &disks[which];
    note_lowest();
    steps++;
    must(length == c->length && flags == MS_SYNC, "a step is not waited for whole");
    for (int i = 0; i < TEARS; i++) {
        tear(c, d->now, c->file, torn, i);
        judge(c, d, torn);
    }
    if (d->tries < MOST_REFUSED && one_in(REFUSED_ONE_IN)) {
        /* Whatever came to the disk before it refused. */
        tear(c, d->now, c->file, torn, 2);
        memcpy(d->now, torn, c->length);
        memcpy(d->tried[d->tries], c->lent, c->length);
        d->cut[d->tries++] = d->lowest;
        refused++;
        errno = EIO;
        return -1;
    }
    memcpy(d->now, c->file, c->length);
    return 0;
}

/* ---- commands */

static struct exchange order(const uint8_t *command, const uint8_t *sent, size_t sent_length)
{
    static uint8_t received[LONGEST];
    struct exchange x = {.command = command, .command_length = SIXTEEN, .sent = sent, .sent_length = sent_length,
                         .received = received, .room = sizeof received};
    found.operation = command[0];
    found.partition = drive.record[STORMTOGGLE_RECORD_CURRENT];
    found.position = position_of(&drive);
    memcpy(found.lent, drive.tape[found.partition].lent, drive.tape[found.partition].length);
    answer(&drive, &x, 0);
    note_lowest();
    commands++;
    return x;
}

static int is_write_error(const struct exchange *x)
{
    return x->status != STORMTOGGLE_GOOD && (x->sense[STORMTOGGLE_SENSE_KEY] & STORMTOGGLE_KEY) == WRITE_ERROR >> 16;
}

/* GOOD, or told of the end of the partition, or of the disk. */
static int is_done(const struct exchange *x)
{
    uint8_t key = x->sense[STORMTOGGLE_SENSE_KEY] & STORMTOGGLE_KEY;
    return x->status == STORMTOGGLE_GOOD || key == NO_SENSE || key == VOLUME_OVERFLOW || is_write_error(x);
}

/* After a command that makes final: the disk has what the library was lent, unless the host was told otherwise. After
 * any other: the file is as it was. */
static void look_at_files(const struct exchange *x)
{
    uint8_t operation = x->command[0];
    int is_point = is_done(x) && (operation == WRITE_FILEMARKS || operation == ERASE ||
                                  (operation == LOAD_UNLOAD && !is_loaded(&drive)));
    for (int i = 0; i < 2; i++) {
        struct cartridge *c = &drive.tape[i];
        struct disk *d = &disks[i];
        if (is_point && x->why == NULL)
            must(memcmp(d->now, c->lent, c->length) == 0, "answered, and not on the disk");
        if (c->is_changed) {
            must(is_write_error(x) || !is_point, "told to be final, and is not");
            continue;
        }
        cuts += objects_in(c, c->lent) < d->objects;
        finals += memcmp(d->final, d->now, c->length) != 0;
        memcpy(d->final, d->now, c->length);
        d->objects = objects_in(c, c->lent);
        d->lowest = UINT32_MAX;
        d->tries = 0;
    }
}

static void write_something(uint8_t *command, uint8_t *data, size_t *length)
{
    *length = draw(one_in(4) ? 3000 : 300) + 1;
    for (size_t i = 0; i < *length; i++)
        data[i] = (uint8_t)draw_64();
    command[0] = WRITE;
    memcpy(command + 2, (uint8_t[]){THREE_BYTES(*length)}, 3);
}

static void move_somewhere(uint8_t *command)
{
    uint32_t objects = objects_in(current_of(&drive), current_of(&drive)->lent);
    uint32_t to = one_in(4) ? (uint32_t)less(objects, 1) : draw(objects + 2u);
    command[0] = LOCATE;
    command[1] = one_in(3) ? CHANGE_PARTITION : 0;
    memcpy(command + 3, (uint8_t[]){FOUR_BYTES(to)}, 4);
    command[8] = (uint8_t)draw(2);
}

static void play_one(void)
{
    uint8_t command[SIXTEEN] = {TEST_UNIT_READY}, data[3000];
    size_t length = 0;
    switch (draw(12)) {
    case 0: move_somewhere(command); break;
    case 1: memcpy(command, (uint8_t[]){WRITE_FILEMARKS, 0, 0, 0, (uint8_t)draw(4)}, 5); break;
    case 2: memcpy(command, (uint8_t[]){SPACE, TO_END_OF_DATA}, 2); break;
    case 3: command[0] = one_in(4) ? REWIND : TEST_UNIT_READY; break;
    case 4:
        if (one_in(4))
            memcpy(command, (uint8_t[]){ERASE, (uint8_t)draw(2)}, 2);
        break;
    case 5:
        if (one_in(3))
            memcpy(command, (uint8_t[]){LOAD_UNLOAD, 0, 0, 0, (uint8_t)draw(2)}, 5);
        break;
    default: write_something(command, data, &length);
    }
    struct exchange x = order(command, data, length);
    must(STORMTOGGLE_REFUSAL(x.answer) == 0, "a drive that is none any more");
    look_at_files(&x);
    if (!is_loaded(&drive))
        order((const uint8_t[SIXTEEN]){LOAD_UNLOAD, 0, 0, 0, 1}, NULL, 0);
}

/* ---- cartridges */

static int make_blank(char *name, size_t length)
{
    int fd = mkstemp(strcpy(name, "/tmp/mains.XXXXXX"));
    if (fd < 0 || ftruncate(fd, (off_t)length) != 0)
        return 0;
    void *image = mmap(NULL, length, PROT_READ | PROT_WRITE, MAP_SHARED, fd, 0);
    close(fd);
    return image != MAP_FAILED && stormtoggle_blank(image, length) == 0 && munmap(image, length) == 0;
}

static void begin(char names[2][32])
{
    memset(disks, 0, sizeof disks);
    for (int i = 0; i < 2; i++) {
        size_t length = 64 + 16 * (size_t)draw((LONGEST - 64) / 16);
        if (!make_blank(names[i], length) || !open_cartridge(&drive.tape[i], names[i]))
            exit(2);
        memcpy(disks[i].now, drive.tape[i].file, length);
        memcpy(disks[i].final, drive.tape[i].file, length);
        disks[i].lowest = UINT32_MAX;
    }
    stormtoggle_fresh(drive.record, sizeof drive.record);
    must(mount(&drive) == 0, "a blank cartridge is not mounted");
}

static void end(char names[2][32])
{
    for (int i = 0; i < 2; i++) {
        munmap(drive.tape[i].lent, drive.tape[i].length);
        munmap(drive.tape[i].file, drive.tape[i].length);
        close(drive.tape[i].fd);
        unlink(names[i]);
    }
    memset(drive.tape, 0, sizeof drive.tape);
}

int main(int count, char **arguments)
{
    char names[2][32];
    unsigned long wanted = count > 2 ? strtoul(arguments[2], NULL, 10) : 100000;
    seed = random_state = count > 1 ? strtoull(arguments[1], NULL, 10) : 1;
    if (freopen("/dev/null", "w", stderr) == NULL) /* the operator's messages, of which there are many */
        return 2;
    while (commands < wanted && failures < 20) {
        begin(names);
        for (int i = 0; i < 400; i++)
            play_one();
        end(names);
    }
    printf("seed %llu: %lu commands, %lu steps, %lu torn files, %lu refused steps, %lu cuts of what was final, "
           "%lu files made final: %lu mismatches\n",
           (unsigned long long)seed, commands, steps, tears, refused, cuts, finals, failures);
    return failures > 0 || steps == 0 || refused == 0 || cuts == 0;
}
