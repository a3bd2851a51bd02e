/* vanish.c: hosts that vanish in the middle of a transfer, by a farewell or a reset, at drawn places of it.
 *
 *   vanish URL CARTRIDGE TIMES SEED
 *
 * of a drive with an empty cartridge, whose file this is. TIMES hosts begin a WRITE of 1 MiB and send part of it:
 * nothing of it stands, and position and objects are as before. As many READ a block of 1 MiB, and take part of the
 * answer: the READ was carried out, so the position is behind the block, and the objects are as before. The next host
 * is served at once. Exit status: 0 if all holds, 1 if not. */
#define _DEFAULT_SOURCE
#include "plain.h"
#include "tape.h"
#include <draw.h>

enum { OBJECTS = 5, TRANSFER = LARGEST_BLOCK };
static const double seconds_at_once = 1.0;

/* The tape, where a filemark has length 0: what a WRITE at any place would cut, and where READ finds a whole MiB. */
static const uint32_t lengths[OBJECTS] = {TRANSFER, 65536, 0, TRANSFER, 3000};
static struct known_tape tape = {.count = OBJECTS, .lengths = lengths};

static const char *url;
static struct address address;
static double longest_wait;

/* ---- the host that comes next */

/* Connects anew, finds the position and the objects, and puts the tape where the next transfer begins. */
static int is_as_it_must(uint32_t position, uint32_t next)
{
    double began = seconds_now();
    struct initiator i = connect_to("iqn.2026-11.example.stormtoggle:next", url);
    struct place p = place_of(&i);
    double waited = seconds_now() - began;
    int is_right = p.condition == GOOD && p.partition == 0 && p.object == position && is_tape(&i, &tape);
    struct reply r = locate(&i, 0, next);
    disconnect(&i);
    longest_wait = waited > longest_wait ? waited : longest_wait;
    if (!is_right)
        fprintf(stderr, "after a host vanished: answer %06x, at object %u and not %u, or other objects\n",
                (unsigned)p.condition, (unsigned)p.object, (unsigned)position);
    return is_right && condition(&r) == GOOD;
}

/* ---- the hosts that vanish */

static int log_in_by_chance(struct plain *p)
{
    return log_in(p, &address, "iqn.2026-11.example.stormtoggle:vanishing", one_in(2), one_in(2));
}

/* The data that the drive has not asked for, then what it asks for, until no byte is left to send. */
static void send_rest(struct plain *p, uint32_t sent, uint32_t unasked)
{
    uint8_t header[UNIT_HEADER], data[512];
    if (!send_data(p, 0, NOT_ASKED_FOR, block, sent, unasked - sent))
        return;
    for (int asked = 0; asked < 1000 && receive_unit(p, header, data, sizeof data); asked++) {
        uint32_t offset = number_at(header + UNIT_OFFSET), length = number_at(header + UNIT_DESIRED);
        if (header[0] != GET_READY || offset > TRANSFER || length > TRANSFER - offset ||
            !send_data(p, 0, number_at(header + UNIT_FIELD), block, offset, length))
            return;
    }
}

/* The whole is longer than a MiB, by its headers: what is sent is less than all of it. */
static int write_in_part(void)
{
    const uint8_t command[SIX] = {WRITE, 0, THREE_BYTES(TRANSFER), 0};
    struct plain p;
    if (!log_in_by_chance(&p))
        return 0;
    uint32_t burst = p.first_burst < TRANSFER ? p.first_burst : TRANSFER;
    uint32_t with_command = !p.sends_with_command ? 0 : burst < p.segment ? burst : p.segment;
    uint32_t unasked = p.waits_for_ready ? with_command : burst;
    p.left = one_in(4) ? draw(200) : draw(TRANSFER);
    fill_block(block, TRANSFER, seed, OBJECTS + draw(1000));
    uint8_t flags = IS_WRITE | (unasked == with_command ? IS_FINAL : 0);
    if (send_command(&p, flags, 0, command, SIX, TRANSFER, block, with_command))
        send_rest(&p, with_command, unasked);
    int is_cut = p.left == 0;
    vanish(p.fd, one_in(2));
    return is_cut;
}

static int read_in_part(void)
{
    const uint8_t command[SIX] = {READ, SILI, THREE_BYTES(TRANSFER), 0};
    struct plain p;
    if (!log_in_by_chance(&p))
        return 0;
    size_t taken = 1 + (one_in(4) ? draw(100) : draw(TRANSFER));
    int is_taken = send_command(&p, IS_READ | IS_FINAL, 0, command, SIX, TRANSFER, NULL, 0) &&
                   receive_plainly(p.fd, room, taken < TRANSFER ? taken : TRANSFER);
    vanish(p.fd, one_in(2));
    return is_taken;
}

/* ---- */

static int has_failed(int holds, const char *what, int time)
{
    if (!holds)
        verdict(0, "%s, time %d", what, time);
    return !holds;
}

/* What vanishes, where it can begin, and how far it moves the tape. */
struct way {
    const char *name, *held;
    int (*transfer)(void);
    uint32_t places[OBJECTS + 1];
    uint32_t place_count, moved;
};

static void vanish_by(const struct way *w, int times)
{
    uint32_t position = w->places[0], next;
    int done = 0;
    longest_wait = 0;
    if (has_failed(is_as_it_must(OBJECTS, position), "the tape before any host vanishes", 0))
        return;
    for (; done < times; done++, position = next) {
        next = done + 1 < times ? w->places[draw(w->place_count)] : OBJECTS;
        if (has_failed(w->transfer(), "a host that begins a transfer is not heard", done) ||
            has_failed(is_as_it_must(position + w->moved, next), w->name, done))
            return;
    }
    verdict(1, "%d hosts vanished in a %s of 1 MiB: %s, and the objects are as before", done, w->name, w->held);
    verdict(longest_wait < seconds_at_once, "the next host was served at once, after %.0f ms at most",
            longest_wait * 1e3);
}

static const struct way writing = {"WRITE", "nothing of it stands, the position is as before", write_in_part,
                                   {0, 1, 2, 3, 4, 5}, OBJECTS + 1, 0};
static const struct way reading = {"READ", "it was carried out, the position is behind its block", read_in_part,
                                   {0, 3}, 2, 1};

int main(int count, char **arguments)
{
    if (count != 5 || !is_address(&address, arguments[1])) {
        fputs("vanish URL CARTRIDGE TIMES SEED: hosts that vanish in the middle of a transfer\n", stderr);
        return 2;
    }
    int times = atoi(arguments[3]);
    url = arguments[1];
    tape.seed = random_state = seed = strtoull(arguments[4], NULL, 10);
    struct initiator i = connect_to("iqn.2026-11.example.stormtoggle:first", url);
    verdict(put_tape(&i, &tape), "a tape of %d objects, all final", OBJECTS);
    disconnect(&i);
    uint64_t sum = sum_of_file(arguments[2]);
    vanish_by(&writing, times);
    vanish_by(&reading, times);
    expect_same_file(arguments[2], sum);
    return failures > 0;
}
