/* load.c: a drive under eight hosts at once. A tape has one position, which all of them move: so each block that was
 * answered stands once, the blocks of each host in its order, and of eight that read at once each gets others.
 *
 *   load URL COUNT SEED
 *
 * of a drive that has just been started, with an empty cartridge. Each host writes COUNT blocks. With
 * PAST_THE_TRANSPORT defined, the path of the daemon's own socket stands for the URL. Exit status: 0 if all holds, 1 if
 * not. */
#define _POSIX_C_SOURCE 200809L
#include "host.h"
#include <inttypes.h>
#include <pthread.h>

enum { HOSTS = 8, HEADER_LENGTH = 5, INQUIRY_LENGTH = 36, MODE_LENGTH = HEADER + DESCRIPTOR, NO_BLOCK = 0 };

struct host {
    pthread_t thread;
    int number;
    struct initiator initiator;
    uint8_t block[LARGEST_BLOCK], room[LARGEST_BLOCK];

    /* What it saw: its answers' seconds, the sums of the blocks that it read, and what was not as it must be. */
    double *answer_times;
    uint64_t *sums;
    size_t answers, blocks_read, answers_room;
    uint64_t bytes;
    uint32_t position;
    int attentions, wrong;
};

static struct host hosts[HOSTS];
static uint64_t seed;
static uint32_t blocks_each;
static uint8_t identity[INQUIRY_LENGTH], mode_data[MODE_LENGTH];

/* ---- the blocks */

static uint64_t random_of(int host, uint32_t sequence, uint64_t what)
{
    return mixed(seed ^ mixed((uint64_t)host << 48 | (uint64_t)sequence << 8 | what));
}

static uint32_t length_of(int host, uint32_t sequence)
{
    return length_by(random_of(host, sequence, 0));
}

/* Its host is in the first byte, so that even a block of one byte tells whose it is; then its number. */
static uint32_t make_block(uint8_t *bytes, int host, uint32_t sequence)
{
    const uint8_t header[HEADER_LENGTH] = {(uint8_t)host, FOUR_BYTES(sequence)};
    uint32_t length = length_of(host, sequence);
    fill_block(bytes, length, seed, random_of(host, sequence, 1));
    memcpy(bytes, header, length < sizeof header ? length : sizeof header);
    return length;
}

/* ---- one host's commands, timed */

static void count_wrong(struct host *h, const char *what, uint32_t got)
{
    if (h->wrong++ < 3)
        fprintf(stderr, "host %d: %s: answered %06" PRIx32 "\n", h->number, what, got);
}

static void take_time(struct host *h, double began)
{
    if (h->answers < h->answers_room)
        h->answer_times[h->answers] = seconds_now() - began;
    h->answers++;
}

static void expect(struct host *h, int holds, const char *what, uint32_t got)
{
    if (!holds)
        count_wrong(h, what, got);
}

static void ask_ready(struct host *h)
{
    struct reply r = test_ready(&h->initiator);
    expect(h, condition(&r) == GOOD, "TEST UNIT READY", condition(&r));
}

/* While all write, the position never goes back, and is never before what this host itself has put. */
static void ask_position(struct host *h, uint32_t written)
{
    struct place p = place_of(&h->initiator);
    expect(h, p.condition == GOOD, "READ POSITION", p.condition);
    expect(h, p.partition == 0 && p.object >= h->position && p.object >= written, "the position", p.object);
    h->position = p.object;
}

static void ask_same(struct host *h, const uint8_t *command, const uint8_t *wanted, size_t length, const char *what)
{
    struct reply r = ask_receiving(&h->initiator, command, SIX, h->room, length);
    expect(h, condition(&r) == GOOD && r.received == length && memcmp(h->room, wanted, length) == 0, what,
           condition(&r));
}

/* Every command of all hosts was GOOD, so there is no sense for any of them. */
static void ask_sense(struct host *h)
{
    const uint8_t command[SIX] = {REQUEST_SENSE, 0, 0, 0, STORMTOGGLE_SENSE_LENGTH};
    const uint8_t empty[STORMTOGGLE_SENSE_LENGTH] = {STORMTOGGLE_NOT_VALID, [STORMTOGGLE_SENSE_REST] = 0x0a};
    ask_same(h, command, empty, sizeof empty, "REQUEST SENSE");
}

static void ask_another(struct host *h, uint32_t sequence)
{
    double began = seconds_now();
    switch (random_of(h->number, sequence, 2) % 6) {
    case 0: ask_ready(h); break;
    case 1: ask_position(h, sequence); break;
    case 2: ask_same(h, (uint8_t[SIX]){MODE_SENSE, 0, 0, 0, MODE_LENGTH}, mode_data, MODE_LENGTH, "MODE SENSE"); break;
    case 3: ask_same(h, (uint8_t[SIX]){INQUIRY, 0, 0, 0, INQUIRY_LENGTH}, identity, INQUIRY_LENGTH, "INQUIRY"); break;
    case 4: ask_sense(h); break;
    default: return;
    }
    take_time(h, began);
}

/* ---- what the hosts do at the same time, a thread each */

/* The first command of each. The attention that a mount leaves waits for one of them, whichever comes first. */
static void *meet(void *argument)
{
    struct host *h = argument;
    struct reply r = test_ready(&h->initiator);
    h->attentions = condition(&r) == MEDIUM_CHANGED;
    expect(h, condition(&r) == GOOD || h->attentions, "TEST UNIT READY", condition(&r));
    return NULL;
}

static void *write_all(void *argument)
{
    struct host *h = argument;
    for (uint32_t i = 0; i < blocks_each; i++) {
        uint32_t length = make_block(h->block, h->number, i);
        double began = seconds_now();
        struct reply r = write_block(&h->initiator, h->block, length);
        take_time(h, began);
        h->bytes += length;
        expect(h, condition(&r) == GOOD, "WRITE", condition(&r));
        ask_another(h, i);
    }
    return NULL;
}

/* Until the end of data, however many of the blocks come to this host. */
static void *read_some(void *argument)
{
    struct host *h = argument;
    uint32_t came = GOOD;
    for (uint32_t i = 0; i <= HOSTS * blocks_each && came == GOOD; i++) {
        double began = seconds_now();
        struct reply r = read_block(&h->initiator, h->room);
        take_time(h, began);
        came = condition(&r);
        if (came != GOOD || h->blocks_read >= HOSTS * blocks_each)
            break;
        h->sums[h->blocks_read++] = sum_of(h->room, r.received);
        h->bytes += r.received;
    }
    expect(h, came == END_OF_DATA, "READ", came);
    return NULL;
}

static double all_at_once(void *(*what)(void *))
{
    double began = seconds_now();
    for (int i = 0; i < HOSTS; i++) {
        hosts[i].answers = 0;
        hosts[i].bytes = 0;
        hosts[i].wrong = 0;
        if (pthread_create(&hosts[i].thread, NULL, what, &hosts[i]) != 0)
            give_up("a thread", "cannot be started");
    }
    for (int i = 0; i < HOSTS; i++)
        pthread_join(hosts[i].thread, NULL);
    return seconds_now() - began;
}

static int wrong_answers(void)
{
    int wrong = 0;
    for (int i = 0; i < HOSTS; i++)
        wrong += hosts[i].wrong;
    return wrong;
}

/* ---- numbers */

static int compare_seconds(const void *left, const void *right)
{
    double difference = *(const double *)left - *(const double *)right;
    return (difference > 0) - (difference < 0);
}

static int compare_sums(const void *left, const void *right)
{
    uint64_t one = *(const uint64_t *)left, other = *(const uint64_t *)right;
    return (one > other) - (one < other);
}

static void *room_for(size_t count, size_t size)
{
    void *room = calloc(count, size);
    if (room == NULL)
        give_up("room for the numbers", "out of memory");
    return room;
}

/* Of the first so many hosts. */
static void say_numbers(const char *what, int count, double seconds)
{
    size_t answers = 0;
    uint64_t bytes = 0;
    double *all = room_for((size_t)count * hosts[0].answers_room, sizeof *all);
    for (int i = 0; i < count; i++) {
        size_t kept = at_most(hosts[i].answers, hosts[i].answers_room);
        memcpy(all + answers, hosts[i].answer_times, kept * sizeof *all);
        answers += kept;
        bytes += hosts[i].bytes;
    }
    qsort(all, answers, sizeof *all, compare_seconds);
    printf("    %s: %zu commands, %.1f MB in %.2f s: %.0f commands/s, %.1f MB/s; answered after %.2f ms (median), "
           "%.1f ms (longest)\n",
           what, answers, (double)bytes / 1e6, seconds, (double)answers / seconds, (double)bytes / 1e6 / seconds,
           answers > 0 ? all[answers / 2] * 1e3 : 0.0, answers > 0 ? all[answers - 1] * 1e3 : 0.0);
    free(all);
}

/* ---- the phases */

static void connect_all(const char *url)
{
    for (int i = 0; i < HOSTS; i++) {
        char name[80];
        struct host *h = &hosts[i];
        snprintf(name, sizeof name, "iqn.2026-11.example.stormtoggle:host-%d", i);
        h->number = i;
        h->initiator = connect_to(name, url);
        h->answers_room = (size_t)(HOSTS + 2) * blocks_each + HOSTS;
        h->answer_times = room_for(h->answers_room, sizeof *h->answer_times);
        h->sums = room_for((size_t)HOSTS * blocks_each, sizeof *h->sums);
    }
}

static void check_attention(void)
{
    int attentions = 0;
    all_at_once(meet);
    for (int i = 0; i < HOSTS; i++)
        attentions += hosts[i].attentions;
    verdict(attentions == 1 && wrong_answers() == 0, "of %d hosts that connect at once, %d met the attention 6/28/00",
            HOSTS, attentions);
}

/* What every host must be told the same, taken before the work. */
static void learn(void)
{
    const struct initiator *to = &hosts[0].initiator;
    struct reply i = ask_receiving(to, (uint8_t[SIX]){INQUIRY, 0, 0, 0, sizeof identity}, SIX, identity,
                                   sizeof identity);
    struct reply m = ask_receiving(to, (uint8_t[SIX]){MODE_SENSE, 0, 0, 0, sizeof mode_data}, SIX, mode_data,
                                   sizeof mode_data);
    verdict(condition(&i) == GOOD && condition(&m) == GOOD && place_of(to).object == 0,
            "the drive tells its identity and mode, and is at the beginning");
}

static void check_writing(void)
{
    double seconds = all_at_once(write_all);
    verdict(wrong_answers() == 0, "%d hosts at once wrote %" PRIu32 " blocks each of 1 to %d bytes, and asked for "
            "other things between: each answer was right", HOSTS, blocks_each, LARGEST_BLOCK);
    say_numbers("writing", HOSTS, seconds);
}

/* The next block on the tape is the next of the host that its first byte names. Its sum is kept for the hosts that read
 * at once. */
static int is_next(struct host *h, size_t length, uint32_t *next, uint64_t *sum)
{
    int whose = h->room[0];
    if (length == 0 || whose >= HOSTS || next[whose] >= blocks_each)
        return 0;
    *sum = sum_of(h->room, length);
    return make_block(h->block, whose, next[whose]++) == length && memcmp(h->block, h->room, length) == 0;
}

static size_t check_tape(uint64_t *sums)
{
    struct host *h = &hosts[0];
    uint32_t next[HOSTS] = {0}, came = GOOD;
    size_t read = 0;
    double began = seconds_now();
    h->answers = 0;
    h->bytes = 0;
    for (; read <= HOSTS * blocks_each; read++) {
        double asked = seconds_now();
        struct reply r = read_block(&h->initiator, h->room);
        take_time(h, asked);
        came = condition(&r);
        if (came != GOOD || !is_next(h, r.received, next, sums + read))
            break;
        h->bytes += r.received;
    }
    verdict(came == END_OF_DATA && read == HOSTS * blocks_each,
            "one host reads %zu of %" PRIu32 " blocks back: those of each host in its order, each once, and no other",
            read, HOSTS * blocks_each);
    say_numbers("reading, one host", 1, seconds_now() - began);
    return read;
}

static int rewind_tape(void)
{
    struct reply r = ask_alone(&hosts[0].initiator, (uint8_t[SIX]){REWIND}, SIX);
    return condition(&r) == GOOD;
}

/* A block that two hosts got, or that none got, or that came in part, changes the sums. */
static void check_reading(uint64_t *wanted, size_t count)
{
    uint64_t *got = room_for((size_t)HOSTS * HOSTS * blocks_each, sizeof *got);
    size_t total = 0, least = SIZE_MAX, most = 0;
    double seconds = all_at_once(read_some);
    for (int i = 0; i < HOSTS; i++) {
        size_t read = hosts[i].blocks_read;
        memcpy(got + total, hosts[i].sums, read * sizeof *got);
        total += read;
        least = read < least ? read : least;
        most = read > most ? read : most;
    }
    qsort(got, total, sizeof *got, compare_sums);
    qsort(wanted, count, sizeof *wanted, compare_sums);
    verdict(wrong_answers() == 0 && total == count && memcmp(got, wanted, count * sizeof *got) == 0,
            "%d hosts that read at once got %zu of %zu blocks together, each once and whole; one host %zu to %zu",
            HOSTS, total, count, least, most);
    say_numbers("reading", HOSTS, seconds);
    free(got);
}

int main(int count, char **arguments)
{
    if (count != 4 || (blocks_each = (uint32_t)strtoul(arguments[2], NULL, 10)) == NO_BLOCK) {
        fputs("load URL COUNT SEED: eight hosts at once write COUNT blocks each, and read them\n", stderr);
        return 2;
    }
    seed = strtoull(arguments[3], NULL, 10);
    connect_all(arguments[1]);
    check_attention();
    learn();
    check_writing();
    uint64_t *sums = room_for((size_t)HOSTS * blocks_each + 1, sizeof *sums);
    verdict(rewind_tape(), "rewound");
    size_t read = check_tape(sums);
    verdict(rewind_tape(), "rewound again");
    check_reading(sums, read);
    for (int i = 0; i < HOSTS; i++)
        disconnect(&hosts[i].initiator);
    return failures > 0;
}
