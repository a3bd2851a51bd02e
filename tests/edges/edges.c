/* edges.c: commands at the edges held to documents 01 and 02, called as a C daemon calls them. */
#define _DEFAULT_SOURCE
#include "drive.h"
#include "crossed.h"
#include "data.h"
#include "descriptors.h"
#include "ends.h"
#include "large.h"
#include "long.h"
#include "merged.h"
#include "mounted.h"
#include "order.h"

/* ---- the document's own table, on a drive that was mounted; the same holds with block length 0. P7's half with SILI,
 * which selects that length first, is in mounted.h, as Q-3 amends it */

static const struct edge documented[] = {
    {"P1: a block that leaves no room is put, with a warning", BLANK, SIX(WRITE, 0, 44), AT(0),
     .sent = 44, .after = AT(1), .told = RESIDUE(TOLD_ZONE, 0), .carried = 44, .puts = "b44"},
    {"P2: a block one byte too long is not put", BLANK, SIX(WRITE, 0, 45), AT(0),
     .sent = 45, .after = AT(0), .told = RESIDUE(TOLD_OVERFLOW, 45)},
    {"P3: seven filemarks behind ten bytes end before the zone", TEN, SIX(WRITE_FILEMARKS, 0, 7), AT(1),
     .after = AT(8), .puts = "f7"},
    {"P4: eight filemarks behind ten bytes end in the zone", TEN, SIX(WRITE_FILEMARKS, 0, 8), AT(1),
     .after = AT(9), .told = RESIDUE(TOLD_ZONE, 0), .puts = "f8"},
    {"P5: of nine filemarks eight are put", TEN, SIX(WRITE_FILEMARKS, 0, 9), AT(1),
     .after = AT(9), .told = RESIDUE(TOLD_OVERFLOW, 1), .puts = "f8"},
    {"P6: READ 5 of a block of 3", E, SIX(READ, 0, 5), AT(0),
     .room = 16, .after = AT(1), .told = RESIDUE(TOLD_LENGTH, 2), .data = BYTES(1, 2, 3)},
    {"P7: READ 2 of a block of 3", E, SIX(READ, 0, 2), AT(0),
     .room = 16, .after = AT(1), .told = RESIDUE(TOLD_LENGTH, 0xffffffff), .data = BYTES(1, 2)},
    {"P8: FIXED READ 2 of block and filemark", E, SIX(READ, FIXED, 2), SET(3, 0),
     .room = 16, .after = SET(3, 2), .told = RESIDUE(TOLD_FILEMARK, 1), .data = BYTES(1, 2, 3)},
    {"P9: FIXED READ 2 where the first block is odd", E, SIX(READ, FIXED, 2), SET(4, 0),
     .room = 16, .after = SET(4, 1), .told = RESIDUE(TOLD_LENGTH, 2)},
    {"P10: SPACE blocks -5 meets the filemark", E, SIX(SPACE, BLOCKS, -5), AT(2), .after = AT(1), .crossed = 1,
     .told = RESIDUE(TOLD_FILEMARK, 0xfffffffb)},
    {"P11: SPACE blocks -5 meets the beginning", E, SIX(SPACE, BLOCKS, -5), AT(1), .after = AT(0), .crossed = 1,
     .told = RESIDUE(TOLD_BEGINNING, 0xfffffffc)},
    {"P12: LOCATE to N", E, LOCATE(0, 2, 0), AT(0), .after = AT(2)},
    {"P12: LOCATE above N", E, LOCATE(0, 3, 0), AT(0), .after = AT(2), .told = PLAIN(TOLD_END_OF_DATA)},
    {"READ 5 of a filemark", E, SIX(READ, 0, 5), AT(1),
     .room = 16, .after = AT(2), .told = RESIDUE(TOLD_FILEMARK, 5)},
};

/* ---- slips that a drive easily makes, each with the cases that show it */

static const struct edge slips[] = {
    /* Nothing is cut before the first object is known to fit. */
    {"slip 1: a block too long at 0 of E cuts nothing", E, SIX(WRITE, 0, 45), AT(0),
     .sent = 45, .after = AT(0), .told = RESIDUE(TOLD_OVERFLOW, 45)},
    {"slip 1: a FIXED block too long at 0 of E cuts nothing", E, SIX(WRITE, FIXED, 2), SET(45, 0),
     .sent = 90, .after = SET(45, 0), .told = RESIDUE(TOLD_OVERFLOW, 2)},
    {"slip 1: a block too long amid objects cuts nothing", MIXED, SIX(WRITE, 0, 70), AT(2),
     .sent = 70, .after = AT(2), .told = RESIDUE(TOLD_OVERFLOW, 70)},
    {"slip 1: a filemark on a full partition", FULL, SIX(WRITE_FILEMARKS, 0, 1), AT(1),
     .after = AT(1), .told = RESIDUE(TOLD_OVERFLOW, 1)},
    /* Objects beyond the position take no room. */
    {"slip 2: a block as large as the one that fills the partition", FULL, SIX(WRITE, 0, 44), AT(0),
     .sent = 44, .after = AT(1), .told = RESIDUE(TOLD_ZONE, 0), .carried = 44, .puts = "b44"},
    {"slip 2: a small block over one that fills the partition", FULL, SIX(WRITE, 0, 1), AT(0),
     .sent = 1, .after = AT(1), .carried = 1, .puts = "b1"},
    {"slip 2: a filemark over a block that fills the partition", FULL, SIX(WRITE_FILEMARKS, 0, 1), AT(0),
     .after = AT(1), .puts = "f"},
    {"slip 2: the room amid objects, to its last byte", MIXED, SIX(WRITE, 0, 65), AT(2),
     .sent = 65, .after = AT(3), .told = RESIDUE(TOLD_ZONE, 0), .carried = 65, .puts = "b65"},
    /* A filemark met going back is crossed: the position is on its beginning side. */
    {"slip 3: SPACE blocks -1 over a filemark", E, SIX(SPACE, BLOCKS, -1), AT(2), .after = AT(1), .crossed = 1,
     .told = RESIDUE(TOLD_FILEMARK, 0xffffffff)},
    {"slip 3: SPACE blocks -2 over a block and a filemark", MIXED, SIX(SPACE, BLOCKS, -2), AT(7), .after = AT(5),
     .crossed = 2, .told = RESIDUE(TOLD_FILEMARK, 0xffffffff)},
    {"slip 3: SPACE filemarks -1", MIXED, SIX(SPACE, FILEMARKS, -1), AT(7), .after = AT(5), .crossed = 2},
    {"slip 3: SPACE filemarks -2", MIXED, SIX(SPACE, FILEMARKS, -2), AT(7), .after = AT(1), .crossed = 6},
    /* A block of another length is crossed, and is none of those read. */
    {"slip 4: FIXED READ 3, the third block odd", MIXED, SIX(READ, FIXED, 3), SET(3, 2),
     .room = 16, .after = SET(3, 5), .told = RESIDUE(TOLD_LENGTH, 1), .reads = 6},
    {"slip 4: FIXED READ 1, the block longer", MIXED, SIX(READ, FIXED, 1), SET(3, 4),
     .room = 16, .after = SET(3, 5), .told = RESIDUE(TOLD_LENGTH, 1)},
    {"slip 4: FIXED READ 1, the block shorter", MIXED, SIX(READ, FIXED, 1), SET(5, 3),
     .room = 16, .after = SET(5, 4), .told = RESIDUE(TOLD_LENGTH, 1)},
    /* REQUEST SENSE answers the attention that waits, not the kept sense, and clears both. */
    {"slip 5: REQUEST SENSE while 28h waits", E, SIX(REQUEST_SENSE, 0, SENSE_BYTES), LOADED(ATTENTION_MOUNTED, 1, 3),
     .room = 20, .after = SET(3, 1), .data = BYTES(0x70, 0, 6, 0, 0, 0, 0, 0x0a, 0, 0, 0, 0, 0x28, 0, 0, 0, 0, 0)},
    {"slip 5: REQUEST SENSE while 29h waits", NONE, SIX(REQUEST_SENSE, 0, SENSE_BYTES), BARE(ATTENTION_FRESH, 3),
     .room = 20, .after = EMPTY(3), .data = BYTES(0x70, 0, 6, 0, 0, 0, 0, 0x0a, 0, 0, 0, 0, 0x29, 0, 0, 0, 0, 0)},
};

/* ---- one drive's life: each call finds the bytes that the last one left, and the block length that the mount set
 * until another is selected */

static const struct edge life[] = {
    {.what = "the mount is told", .command = SIX(TEST_UNIT_READY, 0, 0), .after = TWO(0, 0),
     .told = PLAIN(TOLD_MOUNTED)},
    {.what = "and told once", .command = SIX(TEST_UNIT_READY, 0, 0), .after = TWO(0, 0)},
    {.what = "READ of E's block", .command = SIX(READ, 0, 3), .after = TWO(0, 1), .data = BYTES(1, 2, 3)},
    {.what = "LOCATE to the blank", .command = LOCATE(CP, 0, 1), .after = TWO(1, 0)},
    {.what = "WRITE of a block", .command = SIX(WRITE, 0, 2), .list = BYTES(8, 9), .after = TWO(1, 1), .carried = 2},
    {.what = "WRITE of a filemark", .command = SIX(WRITE_FILEMARKS, 0, 1), .after = TWO(1, 2)},
    {.what = "SPACE back over it", .command = SIX(SPACE, FILEMARKS, -1), .after = TWO(1, 1), .crossed = 1},
    {.what = "ERASE of it", .command = SIX(ERASE, 0, 0), .after = TWO(1, 1)},
    {.what = "end of data", .command = SIX(READ, 0, 4), .after = TWO(1, 1),
     .told = RESIDUE(TOLD_END_OF_DATA, 4)},
    {.what = "its sense", .command = SIX(REQUEST_SENSE, 0, SENSE_BYTES), .after = TWO(1, 1),
     .data = BYTES(0xf0, 0, 8, 0, 0, 0, 4, 0x0a, 0, 0, 0, 0, 0, 5, 0, 0, 0, 0)},
    {.what = "which is gone then", .command = SIX(REQUEST_SENSE, 0, SENSE_BYTES), .after = TWO(1, 1),
     .data = BYTES(0x70, 0, 0, 0, 0, 0, 0, 0x0a, 0, 0, 0, 0, 0, 0, 0, 0, 0, 0)},
    {.what = "REWIND stays on the partition", .command = SIX(REWIND, 0, 0), .after = TWO(1, 0)},
    {.what = "READ of what was written", .command = SIX(READ, 0, 2), .after = TWO(1, 1), .data = BYTES(8, 9)},
    {.what = "LOCATE (16) to E's second file", .command = LOCATE_16(CP | TO_FILE, 1, 0), .after = TWO(0, 2)},
    {.what = "SPACE (16) back to its beginning", .command = SPACE_16(FILEMARKS, -POWER_32), .after = TWO(0, 0),
     .crossed = 2, .told = NO_RESIDUE(TOLD_BEGINNING)},
    {.what = "whose sense has no residue", .command = SIX(REQUEST_SENSE, 0, SENSE_BYTES), .after = TWO(0, 0),
     .data = BYTES(0x70, 0, 0x40, 0, 0, 0, 0, 0x0a, 0, 0, 0, 0, 0, 4, 0, 0, 0, 0)},
    {.what = "READ of E's block again", .command = SIX(READ, 0, 3), .after = TWO(0, 1), .data = BYTES(1, 2, 3)},
    {.what = "LOCATE (16) past the end of the other", .command = LOCATE_16(CP, POWER_32, 1), .after = TWO(1, 1),
     .told = PAST_END},
    {.what = "block length 2", .command = SIX(MODE_SELECT, PF, MODE_BYTES),
     .list = BYTES(0, 0, 0, 8, 0, 0, 0, 0, 0, 0, 0, 2), .after = {1, 2, 1, ATTENTION_NONE, 1, 2, {0}},
     .carried = MODE_BYTES},
    {.what = "unload", .command = SIX(LOAD_UNLOAD, 0, 0), .after = EMPTY(2)},
    {.what = "not ready then", .command = SIX(TEST_UNIT_READY, 0, 0), .after = EMPTY(2),
     .told = PLAIN(TOLD_NOT_LOADED)},
    {.what = "no LOAD of what is not there", .command = SIX(LOAD_UNLOAD, 0, LOAD), .after = EMPTY(2),
     .told = PLAIN(TOLD_NOT_LOADED)},
    {.what = "the block length is kept", .command = PAGE(0, PAGE_NONE, 255), .after = EMPTY(2),
     .data = BYTES(0x0b, 0, 0, 8, 0, 0, 0, 0, 0, 0, 0, 2)},
};

/* ---- another's, at the end of its second partition, which moves into the zone and out of it again */

/* "Set it exactly when position N of the partition is in the zone": of 64 bytes, ten filemarks behind a block of two
 * leave a room of 2, and behind a block of one they leave 3. What was erased or written over has no say. */
static const struct edge life_at_the_end[] = {
    {.what = "the mount", .command = SIX(TEST_UNIT_READY, 0, 0), .after = TWO(0, 0), .told = PLAIN(TOLD_MOUNTED)},
    {.what = "past the end of the blank", .command = LOCATE(CP, 1, 1), .after = TWO(1, 0), .told = PAST_END},
    {.what = "READ of the blank", .command = SIX(READ, 0, 4), .after = TWO(1, 0),
     .told = RESIDUE(TOLD_END_OF_DATA, 4)},
    {.what = "WRITE of two bytes", .command = SIX(WRITE, 0, 2), .list = BYTES(8, 9), .after = TWO(1, 1), .carried = 2},
    {.what = "READ behind them", .command = SIX(READ, 0, 4), .after = TWO(1, 1), .told = RESIDUE(TOLD_END_OF_DATA, 4)},
    {.what = "ten filemarks into the zone", .command = SIX(WRITE_FILEMARKS, 0, 10), .after = TWO(1, 11),
     .told = RESIDUE(TOLD_ZONE, 0)},
    {.what = "READ in the zone", .command = SIX(READ, 0, 4), .after = TWO(1, 11), .told = RESIDUE(TOLD_END_IN_ZONE, 4)},
    {.what = "its sense", .command = SIX(REQUEST_SENSE, 0, SENSE_BYTES), .after = TWO(1, 11),
     .data = BYTES(0xf0, 0, 0x48, 0, 0, 0, 4, 0x0a, 0, 0, 0, 0, 0, 5, 0, 0, 0, 0)},
    {.what = "past the end of E", .command = LOCATE_16(CP | TO_FILE, 2, 0), .after = TWO(0, 2), .told = PAST_END},
    {.what = "its sense too", .command = SIX(REQUEST_SENSE, 0, SENSE_BYTES), .after = TWO(0, 2),
     .data = BYTES(0x70, 0, 8, 0, 0, 0, 0, 0x0a, 0, 0, 0, 0, 0, 5, 0, 0, 0, 0)},
    {.what = "back past the end in the zone", .command = LOCATE(CP, 12, 1), .after = TWO(1, 11),
     .told = PAST_END_IN_ZONE},
    {.what = "SPACE back over a filemark", .command = SIX(SPACE, FILEMARKS, -1), .after = TWO(1, 10), .crossed = 1},
    {.what = "SPACE over two", .command = SIX(SPACE, FILEMARKS, 2), .after = TWO(1, 11), .crossed = 1,
     .told = RESIDUE(TOLD_END_IN_ZONE, 1)},
    {.what = "SPACE (16) back over a filemark", .command = SPACE_16(FILEMARKS, -1), .after = TWO(1, 10), .crossed = 1},
    {.what = "ERASE of it", .command = SIX(ERASE, 0, 0), .after = TWO(1, 10)},
    {.what = "READ where it was", .command = SIX(READ, 0, 4), .after = TWO(1, 10),
     .told = RESIDUE(TOLD_END_OF_DATA, 4)},
    {.what = "LOCATE where it was", .command = LOCATE(0, 11, 0), .after = TWO(1, 10), .told = PAST_END},
    {.what = "a filemark into the zone again", .command = SIX(WRITE_FILEMARKS, 0, 1), .after = TWO(1, 11),
     .told = RESIDUE(TOLD_ZONE, 0)},
    {.what = "SPACE (16) of blocks there", .command = SPACE_16(BLOCKS, 1), .after = TWO(1, 11),
     .told = RESIDUE(TOLD_END_IN_ZONE, 1)},
    {.what = "REWIND", .command = SIX(REWIND, 0, 0), .after = TWO(1, 0)},
    {.what = "SPACE (16) of filemarks from 0", .command = SPACE_16(FILEMARKS, POWER_32), .after = TWO(1, 11),
     .crossed = 11, .told = NO_RESIDUE(TOLD_END_IN_ZONE)},
    {.what = "its sense has no residue", .command = SIX(REQUEST_SENSE, 0, SENSE_BYTES), .after = TWO(1, 11),
     .data = BYTES(0x70, 0, 0x48, 0, 0, 0, 0, 0x0a, 0, 0, 0, 0, 0, 5, 0, 0, 0, 0)},
    {.what = "LOCATE (16) to 0", .command = LOCATE_16(TO_OBJECT, 0, 0), .after = TWO(1, 0)},
    {.what = "WRITE of one byte over all", .command = SIX(WRITE, 0, 1), .list = BYTES(7), .after = TWO(1, 1),
     .carried = 1},
    {.what = "SPACE of filemarks behind it", .command = SIX(SPACE, FILEMARKS, 1), .after = TWO(1, 1),
     .told = RESIDUE(TOLD_END_OF_DATA, 1)},
    {.what = "ten filemarks to the zone's bound", .command = SIX(WRITE_FILEMARKS, 0, 10), .after = TWO(1, 11)},
    {.what = "READ on the bound", .command = SIX(READ, 0, 4), .after = TWO(1, 11),
     .told = RESIDUE(TOLD_END_OF_DATA, 4)},
    {.what = "LOCATE (16) to the file behind the last", .command = LOCATE_16(CP | TO_FILE, 11, 1), .after = TWO(1, 11),
     .told = PAST_END},
    {.what = "unload", .command = SIX(LOAD_UNLOAD, 0, 0), .after = UNLOADED},
};

static void live(uint8_t *record, uint8_t *p0, uint8_t *p1, const struct edge *step)
{
    uint8_t want[RECORD_BYTES], data[36] = {0}, *received = lend(data, sizeof data);
    struct drive after = with_length(step->after, MOUNTED_LENGTH);
    uint32_t from = get32(record + STORMTOGGLE_RECORD_POSITION);
    uint64_t answer = stormtoggle_command(record, RECORD_BYTES, step->command.at, step->command.length, p0, E_BYTES, p1,
                                          SHORTEST, step->list.at, step->list.length, received, sizeof data);
    hold_crossed(step, from, step->what);
    lay_told(want, &after, &step->told);
    memcpy(data, step->data.at, step->data.length);
    expect_equal(answer, answer_wanted(step), "answer in a life, %s", step->what);
    expect_bytes(record, want, RECORD_BYTES, "record in a life, %s", step->what);
    expect_bytes(received, data, sizeof data, "received in a life, %s", step->what);
    take_back(received, sizeof data);
    cases_run++;
}

/* On E and a blank; the second partition is then as wanted. */
static void live_through(const struct edge *steps, size_t count, const uint8_t *want)
{
    uint8_t blank[SHORTEST] = {0}, zeros[RECORD_BYTES] = {0};
    uint8_t *record = lend(zeros, RECORD_BYTES), *p0 = lend(example_e, E_BYTES), *p1;
    lay_trailer(blank, sizeof blank, 0, 0);
    p1 = lend(blank, sizeof blank);
    expect_equal(stormtoggle_fresh(record, RECORD_BYTES), DONE, "fresh in a life");
    expect_equal(stormtoggle_mount(record, RECORD_BYTES, p0, E_BYTES, p1, SHORTEST), DONE, "mount in a life");
    for (size_t i = 0; i < count; i++)
        live(record, p0, p1, &steps[i]);
    expect_equal(stormtoggle_mount(record, RECORD_BYTES, p0, E_BYTES, p1, SHORTEST), DONE, "mount after an unload");
    expect_equal(get32(record + STORMTOGGLE_RECORD_BLOCK_LENGTH), MOUNTED_LENGTH, "block length after a mount");
    expect_bytes(p0, example_e, E_BYTES, "partition 0 after a life");
    expect_bytes(p1, want, SHORTEST, "partition 1 after a life");
    take_back(p1, SHORTEST);
    take_back(p0, E_BYTES);
    take_back(record, RECORD_BYTES);
}

/* In the end the first life leaves one block, and the filemark's entry behind it; the second one a block of one byte,
 * and behind it the second byte of the block that it is written over; the third one the blank as it was. */
static void three_lives(void)
{
    static const uint8_t written[] = {8, 9}, written_over[] = {7};
    uint8_t want[SHORTEST] = {0};
    put_objects(want, sizeof want, 0, "b2 f", written);
    lay_trailer(want, sizeof want, 1, 0);
    live_through(life, COUNT(life), want);
    memset(want, 0, sizeof want);
    put_objects(want, sizeof want, 0, "b2", written);
    put_objects(want, sizeof want, 0, "b1 f10", written_over);
    live_through(life_at_the_end, COUNT(life_at_the_end), want);
    memset(want, 0, sizeof want);
    lay_trailer(want, sizeof want, 0, 0);
    live_through(life_of_spaces, COUNT(life_of_spaces), want);
}

/* The cases' E is the document's, and exactly the cartridges before UNSOUND are sound. */
static void cartridges(void)
{
    for (enum cartridge cartridge = E; cartridge < COUNT(tapes); cartridge++) {
        struct call call;
        make_tape(&call, PARTITION_0, cartridge);
        expect(sound(call.before[PARTITION_0], call.length[PARTITION_0]) == (cartridge < UNSOUND),
               "the cases' cartridge %d", (int)cartridge);
        if (cartridge == E)
            expect_bytes(call.before[PARTITION_0], example_e, sizeof example_e, "the cases' E");
        free(call.before[PARTITION_0]);
        free(call.after[PARTITION_0]);
    }
}

int main(void)
{
    cartridges();
    run(documented, COUNT(documented));
    run(slips, COUNT(slips));
    order_of_tests();
    data_and_movement();
    long_movement();
    ends_of_data();
    objects_crossed();
    merged_moves();
    mounted_drives();
    sense_in_descriptors();
    large_blocks();
    three_lives();
    printf("%lu cases\n", cases_run);
    return tally();
}
