/* kills_write.c: a host that writes until the daemon is killed, which it does itself at a drawn moment.
 *
 *   kills_write URL STATE JOURNAL SEED KILL WITHIN PROCESS...
 *
 * First it compares, over the wire, that the drive has mounted what the state tells. Then it writes, marks, goes back
 * and overwrites, erases, changes the partition and unloads, at random by the seed and the kill's number, and keeps the
 * journal. Within so many microseconds it sends SIGKILL to the processes. Exit status: 0 if the daemon fell and all
 * answers before that were right, 1 if not. Prints how many objects it compared, and how many bytes they have. */
#define _POSIX_C_SOURCE 200809L
#include "model.h"
#include "tape.h"
#include <draw.h>
#include <fcntl.h>
#include <pthread.h>
#include <signal.h>
#include <unistd.h>

/* Of so many objects at the end of each partition the bytes are compared over the wire. (Those of all objects are
 * compared in the files.) The writer keeps so far from a partition's end that every answer is GOOD. */
enum { READ_BACK = 40, MOST_COMMANDS = 200000, MOST_KILLED = 4 };
static const uint64_t room_used[PARTITIONS] = {56 << 20, 12 << 20};

static struct model model;
static struct initiator host;
static int journal;
static uint64_t objects_compared, bytes_compared;

/* ---- the mount, over the wire */

static int is_at(unsigned partition, uint32_t object)
{
    struct place p = place_of(&host);
    return p.condition == GOOD && p.partition == partition && p.object == object;
}

static int is_found(uint8_t partition)
{
    const struct tape *t = &model.now[partition];
    uint32_t from = t->count < READ_BACK ? 0 : t->count - READ_BACK;
    struct reply r = locate(&host, partition, t->count + 1);
    if (condition(&r) != END_OF_DATA || !is_at(partition, t->count))
        return 0;
    r = locate(&host, partition, from);
    if (condition(&r) != GOOD)
        return 0;
    for (uint32_t i = from; i < t->count; i++) {
        if (!reads_as(&host, seed, t->objects[i].number, t->objects[i].length))
            return 0;
        objects_compared++;
        bytes_compared += t->objects[i].length;
    }
    return is_at(partition, t->count);
}

/* The daemon may have been started this very moment. */
static uint32_t first_answer(void)
{
    for (int tenths = 0; tenths < 100; tenths++) {
        struct reply r = test_ready(&host);
        if (condition(&r) != NO_DAEMON)
            return condition(&r);
        nanosleep(&(struct timespec){.tv_nsec = 100000000}, NULL);
    }
    return NO_DAEMON;
}

static void check_mount(void)
{
    uint32_t first = first_answer();
    if (first != MEDIUM_CHANGED || !is_at(0, 0)) {
        verdict(0, "a drive just started answers %06" PRIx32 ", and not the attention 6/28/00 at the beginning", first);
        exit(EXIT_FAILURE);
    }
    for (uint8_t p = 0; p < PARTITIONS; p++)
        if (!is_found(p)) {
            verdict(0, "partition %u over the wire is not what its file held: %" PRIu32 " objects", p,
                    model.now[p].count);
            exit(EXIT_FAILURE);
        }
}

/* ---- the kill */

struct blow {
    long after; /* microseconds */
    int count;
    pid_t processes[MOST_KILLED];
};

static void *strike(void *argument)
{
    const struct blow *b = argument;
    nanosleep(&(struct timespec){b->after / 1000000, b->after % 1000000 * 1000}, NULL);
    for (int i = 0; i < b->count; i++)
        kill(b->processes[i], SIGKILL);
    return NULL;
}

/* ---- what is sent */

static void note(const char *text, size_t length)
{
    if (write(journal, text, length) != (ssize_t)length)
        give_up("the journal", "cannot be written");
}

static struct reply send_act(struct act a)
{
    if (a.kind == PUT) {
        fill_block(block, a.second, seed, a.first);
        return write_block(&host, block, a.second);
    }
    if (a.kind == MARK)
        return write_filemarks(&host, (uint32_t)a.first);
    if (a.kind == WIPE)
        return ask_alone(&host, (uint8_t[SIX]){ERASE, (uint8_t)a.first}, SIX);
    if (a.kind == GO)
        return locate(&host, (uint8_t)a.first, a.second);
    return ask_alone(&host, (uint8_t[SIX]){LOAD_UNLOAD, 0, 0, 0, a.kind == LOAD}, SIX);
}

/* False once the daemon has fallen. */
static int perform(struct act a)
{
    char line[64];
    note(line, (size_t)write_act(line, sizeof line, a));
    struct reply r = send_act(a);
    uint32_t came = condition(&r);
    char letter = came == GOOD ? ANSWERED : came == NO_DAEMON ? NOT_BEGUN : FELL;
    note(&letter, 1);
    if (came == GOOD) {
        take(&model, a);
        return 1;
    }
    if (came != NO_DAEMON && came != DAEMON_FELL && came != NOT_ANSWERED) {
        verdict(0, "%s is answered by %06" PRIx32, kind_in_words(a.kind), came);
        exit(EXIT_FAILURE);
    }
    return 0;
}

/* The attention that the mount after an unload leaves is told to the next command, which is no part of the journal. */
static int reload(void)
{
    if (!perform((struct act){.kind = UNLOAD}) || !perform((struct act){.kind = LOAD}))
        return 0;
    struct reply r = test_ready(&host);
    if (condition(&r) == GOOD) {
        verdict(0, "no attention follows the mount");
        exit(EXIT_FAILURE);
    }
    return condition(&r) == MEDIUM_CHANGED;
}

static uint64_t bytes_below(const struct tape *t, uint32_t object)
{
    uint64_t bytes = 0;
    for (uint32_t i = 0; i < object; i++)
        bytes += t->objects[i].length + 4;
    return bytes;
}

static int has_room(void)
{
    const struct tape *t = &model.now[model.partition];
    return bytes_below(t, model.position) + LARGEST_BLOCK <= room_used[model.partition] && t->count < MOST_OBJECTS / 2;
}

static int go(unsigned partition, uint32_t object)
{
    return perform((struct act){GO, partition, object});
}

/* Near the end of what stands, mostly, so that cartridges fill; now and then far back. */
static int go_back(void)
{
    uint32_t count = model.now[model.partition].count, most = one_in(8) ? count : count < 12 ? count : 12;
    return go(model.partition, count - draw((uint64_t)most + 1));
}

static int change_partition(void)
{
    unsigned other = 1 - model.partition;
    uint32_t count = model.now[other].count;
    return go(other, one_in(3) ? draw((uint64_t)count + 1) : count);
}

static int put(void)
{
    return perform((struct act){PUT, model.next_number, length_by(draw_64())});
}

static int act_by_chance(void)
{
    uint32_t chance = draw(100);
    if (!has_room())
        return go(model.partition, draw((uint64_t)model.now[model.partition].count / 2 + 1));
    if (chance < 60)
        return put();
    if (chance < 80)
        return perform((struct act){.kind = MARK, .first = one_in(4) ? draw(4) : 1});
    if (chance < 88)
        return go_back();
    if (chance < 91)
        return go_back() && perform((struct act){.kind = WIPE, .first = one_in(4)});
    if (chance < 98)
        return change_partition();
    return reload() && go_back();
}

/* ---- */

static int read_arguments(char **arguments, struct blow *b)
{
    seed = strtoull(arguments[4], NULL, 10);
    random_state = mixed(seed ^ mixed(strtoull(arguments[5], NULL, 10)));
    uint64_t within = strtoull(arguments[6], NULL, 10);
    b->after = (long)draw(within > 0 ? within : 1);
    for (char **process = arguments + 7; *process != NULL && b->count < MOST_KILLED; process++)
        b->processes[b->count++] = (pid_t)strtol(*process, NULL, 10);
    return b->count > 0;
}

int main(int count, char **arguments)
{
    struct blow blow = {0};
    pthread_t thread;
    if (count < 8 || !read_state(&model, arguments[2]) || !read_arguments(arguments, &blow)) {
        fputs("kills_write URL STATE JOURNAL SEED KILL WITHIN PROCESS...: writes until it has killed these\n", stderr);
        return 2;
    }
    signal(SIGPIPE, SIG_IGN); /* the transport may fall while a command is sent to it */
    journal = open(arguments[3], O_WRONLY | O_CREAT | O_TRUNC | O_APPEND, 0600);
    if (journal < 0)
        give_up(arguments[3], "cannot be written");
    host = connect_to("iqn.2026-11.example.stormtoggle:writer", arguments[1]);
    check_mount();
    if (pthread_create(&thread, NULL, strike, &blow) != 0)
        give_up("a thread", "cannot be started");
    int is_alive = go(0, model.now[0].count);
    for (long i = 0; is_alive && i < MOST_COMMANDS; i++)
        is_alive = act_by_chance();
    pthread_join(thread, NULL);
    printf("%" PRIu64 " %" PRIu64 "\n", objects_compared, bytes_compared);
    return failures > 0 || is_alive;
}
