/* garbage_local.c: garbage on the daemon's own local socket, past the transport: as from one that was taken over.
 *
 *   garbage_local SOCKET ROUNDS SEED
 *
 * Requests with a wrong mark, with lengths above the limits, cut short, or bytes at random: each is answered by nothing
 * but the end of its connection, and a right request, over a new connection and over one that was open all the time, is
 * answered as before. At the limits themselves requests are served. Exit status: 0 if all holds, 1 if not. */
#define _DEFAULT_SOURCE
#define PAST_THE_TRANSPORT
#include "host.h"
#include <draw.h>
#include <sys/time.h>

enum { MOST_BYTES = 4096, IDLE = 64, WRITTEN = 1000, WRITE_LENGTH = REQUEST_LENGTH + SIX + WRITTEN };

static const char *path;

static struct initiator open_connection(void)
{
    struct initiator i = connect_to("", path);
    struct timeval patience = {.tv_sec = 10};
    setsockopt(i.fd, SOL_SOCKET, SO_RCVTIMEO, &patience, sizeof patience);
    setsockopt(i.fd, SOL_SOCKET, SO_SNDTIMEO, &patience, sizeof patience);
    return i;
}

/* Whether the other end closes the connection, and sends no byte before that. */
static int is_closed_without_answer(int fd)
{
    uint8_t byte;
    ssize_t got = recv(fd, &byte, 1, 0);
    return got == 0 || (got < 0 && errno == ECONNRESET);
}

/* A command block of 260 bytes, and room for 64 MiB: the most that there may be. */
static int serves_at_limits(void)
{
    const uint8_t command[LONGEST_COMMAND] = {READ_POSITION};
    uint8_t *most = malloc(LARGEST_TRANSFER);
    struct initiator i = open_connection();
    struct reply r = ask_receiving(&i, command, sizeof command, most, LARGEST_TRANSFER);
    disconnect(&i);
    free(most);
    return most != NULL && condition(&r) == GOOD && r.received == SHORT_POSITION;
}

/* ---- wrong ones */

static void draw_bytes(uint8_t *bytes, size_t length)
{
    for (size_t i = 0; i < length; i++)
        bytes[i] = (uint8_t)draw(256);
}

static uint32_t above(uint32_t limit)
{
    return one_in(2) ? limit + 1 : limit + 1 + (uint32_t)draw(UINT32_MAX - limit);
}

/* The head of a WRITE, then its command block and bytes. */
static void make_write(uint8_t *bytes, struct local_request r)
{
    write_request(bytes, r);
    memcpy(bytes + REQUEST_LENGTH, (uint8_t[SIX]){WRITE, 0, THREE_BYTES(WRITTEN), 0}, SIX);
    draw_bytes(bytes + REQUEST_LENGTH + SIX, WRITTEN);
}

/* With just one thing wrong in it. */
static size_t draw_wrong_request(uint8_t *bytes)
{
    struct local_request r = {.command_length = SIX, .sent_length = WRITTEN};
    uint32_t wrong = draw(4);
    if (wrong == 1)
        r.command_length = above(LONGEST_COMMAND);
    if (wrong == 2)
        r.sent_length = above(LARGEST_TRANSFER);
    if (wrong == 3)
        r.room = above(LARGEST_TRANSFER);
    make_write(bytes, r);
    if (wrong == 0)
        bytes[draw(4)] ^= (uint8_t)(1 + draw(255)); /* in the mark */
    return WRITE_LENGTH;
}

/* Right as far as it goes. */
static size_t draw_cut_request(uint8_t *bytes)
{
    make_write(bytes, (struct local_request){.command_length = SIX, .sent_length = WRITTEN});
    return draw(WRITE_LENGTH);
}

/* Longer than a request's head; never with its mark. */
static size_t draw_noise(uint8_t *bytes)
{
    size_t length = REQUEST_LENGTH + draw(MOST_BYTES - REQUEST_LENGTH);
    draw_bytes(bytes, length);
    bytes[0] = 0;
    return length;
}

static int is_turned_away(void)
{
    uint8_t bytes[MOST_BYTES];
    uint32_t kind = draw(3);
    size_t length = kind == 0 ? draw_wrong_request(bytes) : kind == 1 ? draw_cut_request(bytes) : draw_noise(bytes);
    struct initiator i = open_connection();
    send_whole(i.fd, bytes, length);
    if (kind == 1)
        shutdown(i.fd, SHUT_WR); /* no more comes */
    int is_closed = is_closed_without_answer(i.fd);
    disconnect(&i);
    return is_closed;
}

/* ---- */

static int is_served(const struct initiator *i, struct place wanted)
{
    struct place p = place_of(i);
    return p.condition == GOOD && p.partition == wanted.partition && p.object == wanted.object;
}

static int serves_a_new_one(struct place wanted)
{
    struct initiator i = open_connection();
    int is_same = is_served(&i, wanted);
    disconnect(&i);
    return is_same;
}

static unsigned long play(unsigned long rounds, const struct initiator *open_all_the_time, struct place wanted)
{
    unsigned long round = 0;
    while (round < rounds && is_turned_away() && serves_a_new_one(wanted) && is_served(open_all_the_time, wanted))
        round++;
    return round;
}

/* Connections that say a part of a request, and no more. */
static void open_idle(struct initiator *idle)
{
    uint8_t bytes[MOST_BYTES];
    for (int i = 0; i < IDLE; i++) {
        idle[i] = open_connection();
        send_whole(idle[i].fd, bytes, draw_cut_request(bytes));
    }
}

static void close_idle(struct initiator *idle)
{
    for (int i = 0; i < IDLE; i++)
        disconnect(&idle[i]);
}

int main(int count, char **arguments)
{
    struct initiator idle[IDLE];
    if (count != 4) {
        fputs("garbage_local SOCKET ROUNDS SEED: garbage on the daemon's local socket\n", stderr);
        return 2;
    }
    path = arguments[1];
    unsigned long rounds = strtoul(arguments[2], NULL, 10);
    random_state = seed = strtoull(arguments[3], NULL, 10);
    struct initiator first = open_connection();
    struct place wanted = place_of(&first);
    unsigned long done = play(rounds, &first, wanted);
    verdict(done == rounds, "%lu wrong, cut and random requests on the local socket were turned away, and after each "
            "right ones served", done);
    verdict(serves_at_limits(), "a request at the limits, %d bytes, is served", LARGEST_TRANSFER);
    open_idle(idle);
    verdict(serves_a_new_one(wanted) && is_served(&first, wanted),
            "the daemon serves beside %d connections that fell silent in the middle of a request", IDLE);
    close_idle(idle);
    verdict(serves_a_new_one(wanted) && is_served(&first, wanted), "and when they are gone");
    return failures > 0;
}
