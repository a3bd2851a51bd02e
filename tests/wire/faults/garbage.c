/* garbage.c: garbage on the drive's port: what no host sends, or none that is right.
 *
 *   garbage URL CARTRIDGE ROUNDS SEED
 *
 * of a drive with an empty cartridge, whose file this is. Four kinds by turns: bytes at random; after a right login,
 * units with operation codes, lengths and claims at random; data for a command outside of what the command said; and
 * half a unit, then silence. A command block that goes to the tape's own unit number has no operation code that moves
 * or writes, and data goes to another unit: so tape and position must stay exactly as they are, and a right host that
 * comes now and then compares both, all objects byte by byte. The transport may fall (it is not the drive), and is then
 * waited for. Exit status: 0 if all holds, 1 if not. */
#define _DEFAULT_SOURCE
#include "plain.h"
#include "tape.h"
#include <draw.h>
#include <signal.h>
#include <sys/wait.h>

enum { OBJECTS = 4, PLACE = 2, MOST_GARBAGE = 65536, PADDING = 4, SILENT = 8 };
enum { ROUNDS_A_CHECK = 10, TENTHS_TO_WAIT = 150 };
static const uint32_t lengths[OBJECTS] = {70000, 1, 0, LARGEST_BLOCK};
static struct known_tape tape = {.count = OBJECTS, .lengths = lengths};

static const char *url;
static struct address address;
static uint8_t garbage[MOST_GARBAGE + PADDING];
static int silent[SILENT], waits;

/* ---- the right host, in a process of its own: it may find no transport, and then comes again */

/* The transport may fall under the right host, too, by what garbage left in it; the tape is then where that host had
 * moved it. */
enum { SAME = 0, OTHER = 3, MOVED = 4 };
static int has_moved;

static int is_at_place(const struct initiator *i)
{
    struct place p = place_of(i);
    return p.condition == GOOD && p.partition == 0 && (p.object == PLACE || has_moved);
}

static int compare(void)
{
    struct initiator i = connect_to("iqn.2026-11.example.stormtoggle:right", url);
    if (!is_at_place(&i))
        return has_lost_answers ? EXIT_FAILURE : OTHER;
    if (!is_tape(&i, &tape))
        return has_lost_answers ? MOVED : OTHER;
    struct reply r = locate(&i, 0, PLACE);
    return condition(&r) == GOOD ? SAME : has_lost_answers ? MOVED : OTHER;
}

static int compare_in_child(void)
{
    int status;
    fflush(stdout);
    pid_t child = fork();
    if (child == 0) {
        signal(SIGPIPE, SIG_IGN);
        if (freopen("/dev/null", "w", stderr) == NULL) /* that there is no transport yet is no news */
            _exit(EXIT_FAILURE);
        _exit(compare());
    }
    if (child < 0 || waitpid(child, &status, 0) != child || !WIFEXITED(status))
        return EXIT_FAILURE;
    return WEXITSTATUS(status);
}

static void wait_a_tenth(void)
{
    waits++;
    usleep(100000);
}

static int check_tape(int round)
{
    int found = EXIT_FAILURE;
    for (int tenths = 0; tenths < TENTHS_TO_WAIT && found != SAME && found != OTHER; tenths++) {
        found = compare_in_child();
        has_moved = found == MOVED || (has_moved && found == EXIT_FAILURE);
        if (found != SAME && found != OTHER)
            wait_a_tenth();
    }
    if (found == SAME)
        return 1;
    return verdict(0, "after %d rounds of garbage %s", round,
                   found == OTHER ? "tape or position are not as before" : "no right host is served");
}

static void make_tape(void)
{
    struct initiator i = connect_to("iqn.2026-11.example.stormtoggle:first", url);
    tape.seed = seed;
    int is_put = put_tape(&i, &tape);
    struct reply r = locate(&i, 0, PLACE);
    verdict(is_put && condition(&r) == GOOD, "a tape of %d objects, all final; the drive is at %d", OBJECTS, PLACE);
    disconnect(&i);
}

/* ---- garbage */

static void draw_garbage(uint8_t *bytes, size_t length)
{
    fill_block(bytes, length, draw_64(), draw_64());
}

static void close_after_answer(int fd)
{
    struct timeval little = {.tv_usec = 20000};
    uint8_t answer[4096];
    setsockopt(fd, SOL_SOCKET, SO_RCVTIMEO, &little, sizeof little);
    for (int i = 0; i < 4 && recv(fd, answer, sizeof answer, 0) > 0; i++)
        ;
    vanish(fd, one_in(2));
}

static void send_bytes(void)
{
    struct plain p = {.fd = connect_plainly(&address), .left = UINT64_MAX};
    size_t length = 1 + draw(one_in(4) ? MOST_GARBAGE : 200);
    if (p.fd < 0) {
        wait_a_tenth();
        return;
    }
    draw_garbage(garbage, length);
    if (one_in(3))
        garbage[0] = SEND_LOGIN; /* gets further */
    send_plainly(&p, garbage, length);
    close_after_answer(p.fd);
}

static int log_in_to_disturb(struct plain *p)
{
    if (log_in(p, &address, "iqn.2026-11.example.stormtoggle:garbage", one_in(2), one_in(2)))
        return 1;
    wait_a_tenth();
    return 0;
}

/* Commands that move or write, or that a later one would meet: not for the tape's own unit. */
static const uint8_t changing[] = {REWIND, READ, WRITE, WRITE_FILEMARKS, SPACE, MODE_SELECT, ERASE, LOAD_UNLOAD,
                                   LOCATE, SPACE_16, LOCATE_16, 0x1e /* PREVENT ALLOW */};
static const uint8_t asking[] = {TEST_UNIT_READY, REQUEST_SENSE, READ_BLOCK_LIMITS, INQUIRY, MODE_SENSE,
                                 READ_POSITION, 0xa0 /* REPORT LUNS */};

static int changes_something(uint8_t operation)
{
    return memchr(changing, operation, sizeof changing) != NULL;
}

/* The tape's own unit is 0, in whichever of the ways that a unit number is written. */
static int may_be_own_unit(const uint8_t *lun)
{
    return lun[1] == 0;
}

/* The command block of a header that was drawn; in half of them without a bit that is a field error, so that it would
 * be carried out if it came to the tape. */
static void draw_command(uint8_t *header, uint32_t length)
{
    const uint8_t plain[SIXTEEN] = {0, 0, THREE_BYTES(length)};
    uint8_t *command = header + UNIT_COMMAND;
    if (one_in(2))
        memset(header + UNIT_LUN, 0, 8);
    if (one_in(2))
        memcpy(command, plain, sizeof plain);
    if (!one_in(4))
        command[0] = one_in(2) ? asking[draw(sizeof asking)] : changing[draw(sizeof changing)];
    while (may_be_own_unit(header + UNIT_LUN) && changes_something(command[0]))
        command[0] = (uint8_t)draw(256);
}

/* What a unit is to be followed by: what it claims, and what comes. */
struct data_of_unit {
    uint32_t claimed, follows;
};

/* A header at random, of an operation code that a target knows in most cases, in the right order in half of them. It
 * claims up to 16 MiB of data; what follows is mostly less, and the next header is then part of it. */
static struct data_of_unit draw_unit(struct plain *p, uint8_t *header)
{
    static const uint8_t codes[] = {SEND_COMMAND, SEND_COMMAND, SEND_COMMAND, SEND_DATA, 0x00 /* NOP */,
                                    0x02 /* task management */, SEND_LOGIN, 0x04 /* text */, 0x06 /* logout */,
                                    0x10 /* SNACK */};
    uint32_t claimed = one_in(3) ? draw(1 << 24) : one_in(2) ? draw(2000) : 0;
    if (!one_in(8))
        header[0] = codes[draw(sizeof codes)] | (one_in(4) ? 0x40 : 0);
    if (one_in(2))
        put_number(header + UNIT_COMMAND_NUMBER, p->command_number++);
    if (!one_in(4))
        header[4] = 0; /* no additional header */
    if (one_in(2))
        put_number(header + UNIT_FIELD, draw(MOST_GARBAGE));
    if ((header[0] & 0x3f) == SEND_COMMAND)
        draw_command(header, claimed);
    return (struct data_of_unit){claimed, claimed < MOST_GARBAGE ? claimed : draw(MOST_GARBAGE)};
}

/* A command as a host sends it, with data or the wish for some; only what it asks for makes no sense, and its length
 * may be up to 4 GiB. So it comes to the daemon. */
static struct data_of_unit draw_senseless_command(struct plain *p, uint8_t *header)
{
    uint32_t sent = one_in(3) ? 1 + draw(2000) : 0;
    header[0] = SEND_COMMAND;
    header[UNIT_FLAGS] = IS_FINAL | (sent > 0 ? IS_WRITE : one_in(3) ? 0 : IS_READ);
    header[4] = 0;
    put_number(header + UNIT_TAG, ++p->tag);
    put_number(header + UNIT_FIELD, sent > 0 ? sent : one_in(4) ? (uint32_t)draw_64() : draw(MOST_GARBAGE));
    put_number(header + UNIT_COMMAND_NUMBER, p->command_number++);
    draw_command(header, sent);
    return (struct data_of_unit){sent, sent};
}

static int send_a_unit(struct plain *p)
{
    uint8_t header[UNIT_HEADER];
    draw_garbage(header, sizeof header);
    struct data_of_unit data = one_in(6) ? draw_unit(p, header) : draw_senseless_command(p, header);
    memcpy(header + UNIT_DATA_LENGTH, (uint8_t[]){THREE_BYTES(data.claimed)}, 3);
    memset(garbage, one_in(2) ? 0 : 0xff, padded(data.follows));
    return send_plainly(p, header, sizeof header) && send_plainly(p, garbage, padded(data.follows));
}

static void send_units(void)
{
    struct plain p;
    if (!log_in_to_disturb(&p))
        return;
    for (int count = 1 + (int)draw(12); count > 0 && send_a_unit(&p); count--)
        ;
    close_after_answer(p.fd);
}

/* Of a WRITE to a unit that is not there: data behind its end, far behind it, or more than it said. */
static void send_data_outside(void)
{
    enum { ELSEWHERE = 5, SAID = 8192 };
    const uint8_t command[SIX] = {WRITE, 0, THREE_BYTES(SAID), 0};
    uint8_t header[UNIT_HEADER] = {SEND_DATA, IS_FINAL, [UNIT_LUN + 1] = ELSEWHERE};
    struct plain p;
    if (!log_in_to_disturb(&p))
        return;
    uint32_t offset = one_in(3) ? SAID : one_in(2) ? (uint32_t)draw_64() : SAID - draw(SAID);
    uint32_t length = 1 + draw(one_in(2) ? 4 * SAID : MOST_GARBAGE - 1);
    memset(garbage, 0, length);
    put_number(header + UNIT_TAG, p.tag + 1);
    put_number(header + UNIT_FIELD, NOT_ASKED_FOR);
    put_number(header + UNIT_OFFSET, offset);
    if (send_command(&p, IS_WRITE, ELSEWHERE, command, SIX, SAID, NULL, 0))
        send_unit(&p, header, garbage, length);
    close_after_answer(p.fd);
}

/* It stays silent until its place is needed for another, so right hosts come meanwhile. */
static void fall_silent(void)
{
    int place = (int)draw(SILENT), is_logged_in = one_in(2);
    uint8_t header[UNIT_HEADER] = {is_logged_in ? SEND_COMMAND : SEND_LOGIN, IS_FINAL, [6] = 2};
    struct plain p = {.fd = -1};
    if (is_logged_in && !log_in_to_disturb(&p))
        return;
    if (!is_logged_in)
        p = (struct plain){.fd = connect_plainly(&address), .left = UINT64_MAX};
    if (p.fd < 0) {
        wait_a_tenth();
        return;
    }
    header[UNIT_LUN + 1] = 1;
    send_plainly(&p, header, 1 + draw(UNIT_HEADER));
    if (silent[place] >= 0)
        vanish(silent[place], one_in(2));
    silent[place] = p.fd;
}

/* ---- */

enum { BYTES, UNITS, SILENCE, DATA_OUTSIDE, KINDS };

/* Data outside of its command is the rarest: it fells the transport nearly each time. */
static uint32_t draw_kind(void)
{
    return one_in(10) ? DATA_OUTSIDE : draw(DATA_OUTSIDE);
}

static void play(int rounds)
{
    static void (*const kinds[KINDS])(void) = {send_bytes, send_units, fall_silent, send_data_outside};
    static const char *const names[KINDS] = {"bytes at random", "units at random", "half a unit and silence",
                                             "data outside of its command"};
    int sent[KINDS] = {0};
    for (int round = 1; round <= rounds; round++) {
        random_state = mixed(seed ^ (uint64_t)round); /* whatever waited for the transport has drawn */
        uint32_t kind = draw_kind();
        kinds[kind]();
        sent[kind]++;
        if ((round % ROUNDS_A_CHECK == 0 || round == rounds) && !check_tape(round))
            return;
        if (round % 100 == 0)
            printf("    .. %d rounds of garbage\n", round);
        fflush(stdout);
    }
    verdict(1, "after %d rounds of garbage right hosts were served, and tape and position as before", rounds);
    for (int kind = 0; kind < KINDS; kind++)
        printf("    %d times %s\n", sent[kind], names[kind]);
    printf("    waited %d tenths of a second for the transport\n", waits);
}

int main(int count, char **arguments)
{
    if (count != 5 || !is_address(&address, arguments[1])) {
        fputs("garbage URL CARTRIDGE ROUNDS SEED: garbage on the drive's port\n", stderr);
        return 2;
    }
    url = arguments[1];
    random_state = seed = strtoull(arguments[4], NULL, 10);
    for (int i = 0; i < SILENT; i++)
        silent[i] = -1;
    make_tape();
    uint64_t sum = sum_of_file(arguments[2]);
    play(atoi(arguments[3]));
    expect_same_file(arguments[2], sum);
    return failures > 0;
}
