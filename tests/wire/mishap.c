/* mishap.c: the pilot's mishap, replayed over the wire. A host writes a run of 90 imaging cycles, spaces back over a
 * filemark in the middle of it, trusts the residue to tell at which object it stands, and reads on from there: every
 * tile must come under its own number, compared byte by byte.
 *
 *     mishap URL
 *
 * The cartridge has one partition of 80 MiB or more, and is written from its beginning. Exit status 0 if every tile
 * that was to be compared was compared and none differs, and every answer was the one expected; 1 if not; 2 for wrong
 * arguments. */
#define _POSIX_C_SOURCE 200809L
#include "answers.h"
#include "trips.h"
#include <inttypes.h>

enum { DIFFERENCES_SHOWN = 3 };

/* What the host believes, and what it has counted. */
struct host {
    struct wire *wire;
    const struct plan *plan;
    uint32_t at;
    int64_t residue;
    uint64_t compared, differing, trips_made, trips_failed, differences_shown;
};

/* ---- commands */

static struct reply command_6(struct host *host, uint8_t code, uint8_t byte_1, int64_t number)
{
    uint8_t command[6] = {code, byte_1, (uint8_t)(number >> 16), (uint8_t)(number >> 8), (uint8_t)number, 0};
    return ask_or_end(host->wire, &(struct request){.command = command, .command_length = sizeof command});
}

static struct reply space(struct host *host, int is_long, enum space_code code, int64_t count)
{
    uint8_t command[16] = {0x91, (uint8_t)code};
    if (!is_long)
        return command_6(host, 0x11, (uint8_t)code, count);
    put_number(command + 4, (uint32_t)((uint64_t)count >> 32));
    put_number(command + 8, (uint32_t)count);
    return ask_or_end(host->wire, &(struct request){.command = command, .command_length = sizeof command});
}

static struct reply read_into_room(struct host *host, uint8_t byte_1, uint32_t number, uint32_t room)
{
    uint8_t command[6] = {0x08, byte_1, (uint8_t)(number >> 16), (uint8_t)(number >> 8), (uint8_t)number, 0};
    return ask_or_end(host->wire, &(struct request){.command = command, .command_length = sizeof command,
                                                    .room = host->wire->room, .room_length = room});
}

/* A command without which nothing can go on. */
static void require(struct host *host, const char *doing, const struct reply *reply)
{
    if (reply->status == SCSI_STATUS_GOOD)
        return;
    printf("FAILED: %s at object %" PRIu32 ": is ", doing, host->at);
    print_reply(reply);
    printf(", and not GOOD\n");
    exit(EXIT_FAILURE);
}

static void locate(struct host *host, uint32_t object)
{
    uint8_t command[10] = {0x2b};
    put_number(command + 3, object);
    struct reply reply =
        ask_or_end(host->wire, &(struct request){.command = command, .command_length = sizeof command});
    host->at = object;
    require(host, "LOCATE", &reply);
}

static uint32_t ask_position(struct host *host)
{
    struct reply reply = ask_receiving(host->wire, "34 06 00 00 00 00 00 00 00 00", POSITION_LENGTH);
    require(host, "READ POSITION", &reply);
    return number_at(host->wire->room + POSITION_OBJECT);
}

static struct sense sense_in(const struct reply *reply)
{
    struct sense none = {0};
    return reply->sense_length < STORMTOGGLE_SENSE_LENGTH ? none : sense_of(reply->sense, reply->sense_length);
}

/* ---- writing */

static void write_objects(struct host *host, uint32_t first, uint32_t count, uint8_t byte_1, uint32_t number)
{
    static uint8_t data[LARGEST_TILE];
    uint8_t command[6] = {0x0a, byte_1, (uint8_t)(number >> 16), (uint8_t)(number >> 8), (uint8_t)number, 0};
    size_t length = 0;
    for (uint32_t object = first; object < first + count; object++) {
        make_tile(&host->plan->run.objects[object], data + length);
        length += host->plan->run.objects[object].length;
    }
    struct reply reply = ask_or_end(host->wire, &(struct request){.command = command, .command_length = sizeof command,
                                                                  .sent = data, .sent_length = length});
    require(host, "WRITE (the cartridge needs 80 MiB)", &reply);
    host->at = first + count;
}

static void write_next(struct host *host, uint32_t end)
{
    const struct object *object = &host->plan->run.objects[host->at];
    if (object->tile == IS_FILEMARK) {
        struct reply reply = command_6(host, 0x10, 0, 1);
        require(host, "WRITE FILEMARKS", &reply);
        host->at++;
    } else if (object->starts_fixed && host->at + FIXED_TILES <= end) {
        write_objects(host, host->at, FIXED_TILES, 1, FIXED_TILES);
    } else {
        write_objects(host, host->at, 1, 0, object->length);
    }
}

/* A host that appends goes to end of data first, and must find itself where it believes to be. */
static void append_until(struct host *host, uint32_t begin, uint32_t end)
{
    struct reply reply = command_6(host, 0x11, 3, 0);
    require(host, "SPACE to end of data", &reply);
    uint32_t found = ask_position(host);
    host->trips_made++;
    host->trips_failed += found != begin;
    printf("%-7s appending at object %" PRIu32 ", which READ POSITION tells as %" PRIu32 "\n",
           found == begin ? "ok:" : "FAILED:", begin, found);
    fflush(stdout);
    host->at = begin;
    while (host->at < end)
        write_next(host, end);
}

/* ---- reading on */

static void show_difference(struct host *host, const struct object *object, const struct reply *reply)
{
    if (host->differences_shown++ >= DIFFERENCES_SHOWN)
        return;
    printf("        cycle %d tile %d (%" PRIu32 " bytes, -1 is a filemark): READ has %zu bytes, ", object->cycle,
           object->tile, object->length, reply->received);
    print_bytes(host->wire->room, at_most(reply->received, 12));
    printf(", ");
    print_reply(reply);
    printf("\n");
}

/* Without SILI a shorter block is told by ILI and the difference, which must agree with what came. */
static int is_answer_of_tile(const struct reply *reply, uint32_t length, int has_sili)
{
    struct sense sense = sense_in(reply);
    if (has_sili || length == LARGEST_TILE)
        return reply->status == SCSI_STATUS_GOOD;
    return condition_of(sense) == WRONG_LENGTH && sense.has_residue && sense.residue == LARGEST_TILE - (int64_t)length;
}

static int is_tile(struct host *host, const struct object *object, size_t at)
{
    static uint8_t wanted[LARGEST_TILE];
    make_tile(object, wanted);
    return memcmp(host->wire->room + at, wanted, object->length) == 0;
}

static int is_object(struct host *host, const struct object *object, const struct reply *reply, int has_sili)
{
    if (reply->received != object->length)
        return 0;
    if (object->tile == IS_FILEMARK)
        return condition_of(sense_in(reply)) == FILEMARK_DETECTED;
    return is_answer_of_tile(reply, object->length, has_sili) && is_tile(host, object, 0);
}

/* The host compares what comes with the tile of the number at which it believes to stand. */
static void compare_next(struct host *host)
{
    const struct object *object = &host->plan->run.objects[host->at++];
    int has_sili = object->tile % 2 == 1;
    struct reply reply = read_into_room(host, has_sili ? 2 : 0, LARGEST_TILE, LARGEST_TILE);
    int is_same = is_object(host, object, &reply, has_sili);
    host->compared += object->tile != IS_FILEMARK;
    host->differing += !is_same;
    if (!is_same)
        show_difference(host, object, &reply);
}

/* The cycle's FIXED tiles by one command. */
static void compare_fixed(struct host *host)
{
    const struct object *objects = &host->plan->run.objects[host->at];
    struct reply reply = read_into_room(host, 1, FIXED_TILES, FIXED_TILES * FIXED_TILE);
    for (size_t i = 0; i < FIXED_TILES; i++) {
        int is_same = reply.status == SCSI_STATUS_GOOD && reply.received == FIXED_TILES * FIXED_TILE &&
                      is_tile(host, &objects[i], i * FIXED_TILE);
        host->compared++;
        host->differing += !is_same;
        if (!is_same)
            show_difference(host, &objects[i], &reply);
    }
    host->at += FIXED_TILES;
}

/* Behind the last object there is end of data, and nothing is read. */
static int meets_end_of_data(struct host *host)
{
    struct reply reply = read_into_room(host, 0, LARGEST_TILE, LARGEST_TILE);
    return condition_of(sense_in(&reply)) == END_OF_DATA && reply.received == 0;
}

static int read_on(struct host *host, uint32_t end)
{
    while (host->at < end)
        compare_next(host);
    return meets_end_of_data(host);
}

/* ---- a trip */

static uint32_t filemark_by_number(const struct run *run, int64_t number)
{
    return number < 0 || number >= CYCLES ? 0 : run->starts[number + 1] - 1;
}

static int64_t filemarks_before(const struct run *run, uint32_t object)
{
    return (int64_t)object - tiles_between(run, 0, object);
}

/* Where the host stands, from where it stood and what it was told. Nothing else is asked. */
static uint32_t work_out(const struct run *run, const struct trip *trip, uint32_t from, int64_t count,
                         const struct sense *told)
{
    int64_t moved = count - told->residue;
    if (trip->code == FILEMARKS)
        return told->code == AT_BEGINNING ? 0 : filemark_by_number(run, filemarks_before(run, from) + moved);
    if (told->flags & STORMTOGGLE_FILEMARK)
        moved += count < 0 ? -1 : 1;
    return (uint32_t)(from + moved);
}

static uint32_t wanted_condition(const struct trip *trip)
{
    switch (trip->wanted.end) {
    case AT_A_FILEMARK: return FILEMARK_DETECTED;
    case AT_THE_BEGINNING_OF_TAPE: return BEGINNING_OF_PARTITION;
    case AT_THE_END_OF_DATA: return END_OF_DATA;
    default: return GOOD;
    }
}

static int is_told_right(const struct trip *trip, int64_t count, const struct reply *reply, const struct sense *told)
{
    int status = trip->wanted.end == ALL_COUNTED ? SCSI_STATUS_GOOD : SCSI_STATUS_CHECK_CONDITION;
    return count == trip->count && reply->status == status && condition_of(*told) == wanted_condition(trip) &&
           told->residue == trip->wanted.residue && told->has_residue == (trip->wanted.end != ALL_COUNTED);
}

static void print_heading(void)
{
    printf("%-7s %-26s %-11s %6s %-14s %5s  %-9s %7s %10s %8s %5s %9s\n", "", "why", "from", "object", "SPACE", "count",
           "told", "residue", "worked out", "position", "tiles", "differing");
}

static const char *told_in_words(const struct reply *reply, const struct sense *told)
{
    if (reply->status == SCSI_STATUS_GOOD)
        return "GOOD";
    if (told->flags & STORMTOGGLE_FILEMARK)
        return "FILEMARK";
    return told->code == AT_BEGINNING ? "BEGINNING" : "other";
}

/* Cycle and tile, or the filemark of a cycle, before which a trip starts. */
static void print_start(const struct host *host, const struct trip *trip)
{
    const struct object *object = &host->plan->run.objects[trip->from];
    char place[24] = "end of data";
    if (trip->from < trip->end)
        snprintf(place, sizeof place, object->tile == IS_FILEMARK ? "end of %d" : "%d.%d", object->cycle, object->tile);
    printf("%-26s %-11s %6" PRIu32 " ", trip->why, place, trip->from);
}

static void make_trip(struct host *host, const struct trip *trip)
{
    uint64_t compared = host->compared, differing = host->differing;
    if (!trip->goes_on)
        locate(host, trip->from);
    int64_t count = trip->goes_on ? host->residue : trip->count;
    struct reply reply = space(host, trip->is_long, trip->code, count);
    struct sense told = sense_in(&reply);
    uint32_t worked_out = work_out(&host->plan->run, trip, host->at, count, &told), position = ask_position(host);
    host->at = worked_out;
    host->residue = told.residue;
    int holds = is_told_right(trip, count, &reply, &told) && worked_out == trip->wanted.at && position == worked_out;
    if (trip->reads_on)
        holds &= read_on(host, trip->end) && ask_position(host) == trip->end;
    compared = host->compared - compared;
    differing = host->differing - differing;
    holds &= differing == 0 && compared == trip->tiles;
    host->trips_made++;
    host->trips_failed += !holds;
    printf("%-7s ", holds ? "ok:" : "FAILED:");
    print_start(host, trip);
    printf("%-9s %-4s %5" PRId64 "  %-9s %7" PRId64 " ", trip->code == BLOCKS ? "blocks" : "filemarks",
           trip->is_long ? "(16)" : "", count, told_in_words(&reply, &told), told.residue);
    printf("%10" PRIu32 " %8" PRIu32 " %5" PRIu64 " %9" PRIu64 "\n", worked_out, position, compared, differing);
    fflush(stdout);
}

static void make_trips(struct host *host, size_t first, size_t end)
{
    for (size_t i = first; i < end; i++)
        make_trip(host, &host->plan->trips[i]);
}

/* ---- the whole */

/* Whoever mounted it last may have left an attention and another block length. */
static void prepare(struct host *host)
{
    static const uint8_t fixed_blocks[12] = {[3] = 8, [10] = FIXED_TILE >> 8};
    command_6(host, 0x00, 0, 0);
    struct reply reply = ask_sending(host->wire, "15 10 00 00 0C 00", fixed_blocks, sizeof fixed_blocks);
    require(host, "MODE SELECT", &reply);
    reply = command_6(host, 0x01, 0, 0);
    require(host, "REWIND", &reply);
    reply = command_6(host, 0x19, 0, 0);
    require(host, "ERASE", &reply);
}

/* Every tile in order, the FIXED ones by FIXED transfers. */
static void read_whole_run(struct host *host)
{
    uint64_t compared = host->compared, differing = host->differing;
    locate(host, 0);
    while (host->at < host->plan->run.count)
        if (host->plan->run.objects[host->at].starts_fixed)
            compare_fixed(host);
        else
            compare_next(host);
    int holds = meets_end_of_data(host) && host->differing == differing;
    host->trips_made++;
    host->trips_failed += !holds;
    printf("%-7s the whole run, read in order: %" PRIu64 " tiles, %" PRIu64 " differing\n", holds ? "ok:" : "FAILED:",
           host->compared - compared, host->differing - differing);
}

static int end_of_trips(const struct host *host)
{
    int is_complete = host->compared == host->plan->tiles;
    printf("%-7s tiles compared: %" PRIu64 " of %" PRIu64 " planned; differing: %" PRIu64 "\n",
           is_complete && host->differing == 0 ? "ok:" : "FAILED:", host->compared, host->plan->tiles,
           host->differing);
    uint64_t failed = host->trips_failed + (!is_complete || host->differing > 0);
    printf("%" PRIu64 " passed, %" PRIu64 " failed\n", host->trips_made + 1 - failed, failed);
    return failed > 0 ? EXIT_FAILURE : EXIT_SUCCESS;
}

static int replay(struct host *host)
{
    const struct plan *plan = host->plan;
    printf("a run of %d cycles: %" PRIu32 " objects, %" PRIu64 " bytes; %zu trips, %" PRIu64 " tiles to compare\n",
           CYCLES, plan->run.count, plan->run.bytes, plan->count, plan->tiles);
    prepare(host);
    print_heading();
    append_until(host, 0, plan->half);
    make_trips(host, 0, plan->trips_half);
    append_until(host, plan->half, plan->run.starts[CYCLE_WRITTEN_IN_TWO + 1]);
    make_trips(host, plan->trips_half, plan->trips_in_two);
    append_until(host, plan->run.starts[CYCLE_WRITTEN_IN_TWO + 1], plan->run.count);
    make_trips(host, plan->trips_in_two, plan->count);
    read_whole_run(host);
    return end_of_trips(host);
}

int main(int count, char **arguments)
{
    static struct wire wire = {.subject = "the run"};
    static struct plan plan;
    struct host host = {.wire = &wire, .plan = &plan};
    if (count != 2) {
        fprintf(stderr, "usage: mishap iscsi://HOST:PORT/TARGET/LUN\n");
        return 2;
    }
    make_plan(&plan);
    wire.initiator = connect_to("iqn.2026-11.example.stormtoggle:mishap", arguments[1]);
    int status = replay(&host);
    disconnect(&wire.initiator);
    return status;
}
