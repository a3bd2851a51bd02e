/* mounted.h: cases of the block length that a mount sets, as Q-3 of document 02 changes it: "After a mount the block
 * length shall be 32,768 and no longer 0." */
#ifndef EDGES_MOUNTED_H
#define EDGES_MOUNTED_H

#include "data.h"
#include "order.h"
#include "tiles.h"

/* ---- the mount */

/* Records, with the partitions that are mounted and the number that refuses it; all have the old sense. */
static const struct mounting {
    const char *what;
    struct drive before;
    enum cartridge p0, p1;
    unsigned refusal;
    int cut; /* bytes that the record lacks of thirty */
} mountings[] = {
    {"after a fresh record", BARE(ATTENTION_FRESH, 0), E, NONE, 0, 0},
    {"after a fresh record, two partitions", BARE(ATTENTION_FRESH, 0), E, MIXED, 0, 0},
    {"over block length 0", EMPTY(0), E, NONE, 0, 0},
    {"over block length 0, two partitions", EMPTY(0), BLANK, E, 0, 0},
    {"over block length 1", EMPTY(1), E, NONE, 0, 0},
    {"over block length 1, two partitions", EMPTY(1), E, BLANK, 0, 0},
    {"after a fresh record, the second a blank", BARE(ATTENTION_FRESH, 0), E, BLANK, 0, 0},
    {"over block length 512", EMPTY(512), E, NONE, 0, 0},
    {"over block length 512, protected", EMPTY(512), GUARDED, NONE, 0, 0},
    {"over block length 512, two partitions", EMPTY(512), GUARDED, MIXED, 0, 0},
    {"over block length 32,767", EMPTY(MOUNTED_LENGTH - 1), E, NONE, 0, 0},
    {"over block length 32,768", EMPTY(MOUNTED_LENGTH), E, NONE, 0, 0},
    {"over block length 32,768, two partitions", EMPTY(MOUNTED_LENGTH), TILE, E, 0, 0},
    {"over block length 65,536", EMPTY(FORMER_LARGEST), E, NONE, 0, 0},
    {"over block length 65,536, of a block as long", EMPTY(FORMER_LARGEST), FORMER, NONE, 0, 0},
    {"over block length 65,536, two partitions", EMPTY(FORMER_LARGEST), E, TILES_2, 0, 0},
    {"over block length 65,537", EMPTY(FORMER_LARGEST + 1), E, NONE, 0, 0},
    {"over block length 1,048,576", EMPTY(LARGEST_BLOCK), E, NONE, 0, 0},
    {"over block length 1,048,576, of a block as long", EMPTY(LARGEST_BLOCK), LARGEST_1, NONE, 0, 0},
    {"over block length 1,048,576, two partitions", EMPTY(LARGEST_BLOCK), E, TILES_2, 0, 0},
    {"while 28h waits", BARE(ATTENTION_MOUNTED, 512), FULL, NONE, 0, 0},
    {"while 28h waits, two partitions", BARE(ATTENTION_MOUNTED, 0), FULL, FULL, 0, 0},
    {"while 29h waits, over block length 65,536", BARE(ATTENTION_FRESH, FORMER_LARGEST), E, GUARDED, 0, 0},
    {"while 29h waits, over block length 1,048,576", BARE(ATTENTION_FRESH, LARGEST_BLOCK), E, GUARDED, 0, 0},
    /* Refused, it leaves every byte: the length that is there, be it 0, another or its own, is not the mount's. */
    {"of block length 1,048,577", EMPTY(LARGEST_BLOCK + 1), E, NONE, BY_DRIVE, 0},
    {"of a block length with its top bit", EMPTY(0x80008000), E, NONE, BY_DRIVE, 0},
    {"of 00 80 00 in the wrong place", EMPTY(0x800000), E, MIXED, BY_DRIVE, 0},
    {"while 2Ah waits", BARE(0x2a, 0), E, NONE, BY_DRIVE, 0},
    {"of 29 bytes", EMPTY(0), E, NONE, BY_DRIVE, 1},
    {"of 31 bytes", EMPTY(512), E, NONE, BY_DRIVE, -1},
    {"while loaded with block length 0", SET(0, 1), E, NONE, BY_LOADED, 0},
    {"while loaded with block length 512", SET(512, 1), E, NONE, BY_LOADED, 0},
    {"while loaded as a mount leaves it", LOADED(ATTENTION_MOUNTED, 0, MOUNTED_LENGTH), E, NONE, BY_LOADED, 0},
    {"while partition 1 of two is loaded", {1, 2, 1, ATTENTION_NONE, 1, 0, OLD_SENSE}, E, E, BY_LOADED, 0},
    {"of nothing, over block length 0", EMPTY(0), NONE, NONE, BY_LENGTH, 0},
    {"of nothing, over block length 512", EMPTY(512), NONE, NONE, BY_LENGTH, 0},
    {"of nothing before a second one", BARE(ATTENTION_FRESH, 0), NONE, E, BY_LENGTH, 0},
    {"of an unsound one, over block length 0", EMPTY(0), UNSOUND, NONE, BY_UNSOUND, 0},
    {"of an unsound one, over block length 65,536", EMPTY(FORMER_LARGEST), OVERLAPPING, E, BY_UNSOUND, 0},
    {"of an unsound one, over block length 1,048,576", EMPTY(LARGEST_BLOCK), OVERLAPPING, E, BY_UNSOUND, 0},
    {"of an unsound second one", BARE(ATTENTION_FRESH, 0), E, UNSOUND, BY_UNSOUND, 0},
};

/* The thirty bytes that a mount leaves of whatever was there. */
static const uint8_t mounted_bytes[][RECORD_BYTES] = {
    {1, 1, 0, 0x28, 0, 0, 0, 0, 0x00, 0x00, 0x80, 0x00, 0x70, 0, 0, 0, 0, 0, 0, 0x0a, 0, 0, 0, 0, 0, 0, 0, 0, 0, 0},
    {1, 2, 0, 0x28, 0, 0, 0, 0, 0x00, 0x00, 0x80, 0x00, 0x70, 0, 0, 0, 0, 0, 0, 0x0a, 0, 0, 0, 0, 0, 0, 0, 0, 0, 0},
};
static const uint8_t fresh_bytes[RECORD_BYTES] = {
    0, 0, 0, 0x29, 0, 0, 0, 0, 0, 0, 0, 0, 0x70, 0, 0, 0, 0, 0, 0, 0x0a, 0, 0, 0, 0, 0, 0, 0, 0, 0, 0};

/* Mounts the record and the partitions that a call left, and hands the record's bytes on in their place. */
static void hold_mount(struct call *call, unsigned refusal, const char *what)
{
    uint8_t *lent[SPANS];
    uint64_t answer;
    for (int span = 0; span < SPANS; span++)
        lent[span] = lend(call->after[span], call->length[span]);
    if (refusal == 0)
        memcpy(call->after[THE_RECORD], mounted_bytes[call->length[PARTITION_1] > 0], RECORD_BYTES);
    answer = stormtoggle_mount(lent[THE_RECORD], call->length[THE_RECORD], lent[PARTITION_0],
                               call->length[PARTITION_0], lent[PARTITION_1], call->length[PARTITION_1]);
    expect_equal(answer, REFUSED(refusal), "mount %s", what);
    for (int span = 0; span < SPANS; span++) {
        expect_bytes(lent[span], call->after[span], call->length[span], "%s behind a mount %s", span_names[span], what);
        take_back(lent[span], call->length[span]);
    }
    cases_run++;
}

static struct call lent_for(const struct mounting *row)
{
    struct edge edge = {.p0 = row->p0, .p1 = row->p1, .before = row->before, .cut = row->cut};
    struct call call;
    make_lent(&call, &edge);
    return call;
}

/* Over any thirty bytes, and hands them on: "Fresh: all 0, attention 29h", so the block length is 0 then. */
static void hold_fresh(struct call *call, const char *what)
{
    uint8_t *record = lend(call->after[THE_RECORD], RECORD_BYTES);
    expect_equal(stormtoggle_fresh(record, RECORD_BYTES), DONE, "fresh, record %s", what);
    expect_bytes(record, fresh_bytes, RECORD_BYTES, "record behind fresh, %s", what);
    memcpy(call->after[THE_RECORD], record, RECORD_BYTES);
    take_back(record, RECORD_BYTES);
    cases_run++;
}

/* Each of them, and fresh over the record that it leaves, if that has thirty bytes. */
static void run_mountings(const struct mounting *rows, size_t count)
{
    for (const struct mounting *row = rows; row < rows + count; row++) {
        struct call call = lent_for(row);
        hold_mount(&call, row->refusal, row->what);
        if (row->cut == 0)
            hold_fresh(&call, row->what);
        free_call(&call);
    }
}

/* ---- the cases that say another thing than with block length 0: there they stand with SET(0, ...) or EMPTY(0) */

static const struct edge not_as_before[] = {
    {"READ 2 of a block of 3 with SILI tells ILI", E, SIX(READ, SILI, 2), MOUNTED(0), .room = 16, .after = MOUNTED(1),
     .told = RESIDUE(TOLD_LENGTH, 0xffffffff), .data = BYTES(1, 2)},
    {"READ 2 of the last block with SILI tells ILI, before the zone", LEFT_3, SIX(READ, SILI, 2), MOUNTED(0), .room = 5,
     .after = MOUNTED(1), .told = RESIDUE(TOLD_LENGTH, 0xffffffd9), .reads = 2},
    {"READ 2 of the last block with SILI tells ILI, in the zone", LEFT_2, SIX(READ, SILI, 2), MOUNTED(0), .room = 5,
     .after = MOUNTED(1), .told = RESIDUE(TOLD_LENGTH, 0xffffffd8), .reads = 2},
    {"FIXED READ 0 is GOOD", E, SIX(READ, FIXED, 0), MOUNTED(0), .after = MOUNTED(0)},
    {"FIXED WRITE 0 is GOOD", E, SIX(WRITE, FIXED, 0), MOUNTED(0), .after = MOUNTED(0)},
    {"2/3A and no field error of FIXED READ", NONE, SIX(READ, FIXED, 1), EMPTY(MOUNTED_LENGTH), .room = 9,
     .after = EMPTY(MOUNTED_LENGTH), .told = PLAIN(TOLD_NOT_LOADED)},
    {"2/3A and no field error of FIXED WRITE", NONE, SIX(WRITE, FIXED, 1), EMPTY(MOUNTED_LENGTH), .sent = 9,
     .after = EMPTY(MOUNTED_LENGTH), .told = PLAIN(TOLD_NOT_LOADED)},
    /* With block length 0 both are field errors too. */
    {"fields before 2/3A of FIXED WRITE", NONE, SIX(WRITE, FIXED, 1), EMPTY(0), .sent = 9, .after = EMPTY(0),
     .told = FIELD},
    {"FIXED READ 1 with block length 0", E, SIX(READ, FIXED, 1), SET(0, 0), .room = MOUNTED_LENGTH, .after = SET(0, 0),
     .told = FIELD},
    {"FIXED WRITE 1 with block length 0", FOR_1, SIX(WRITE, FIXED, 1), SET(0, 0), .sent = MOUNTED_LENGTH,
     .after = SET(0, 0), .told = FIELD},
};

/* ---- SILI and variable transfers */

static const struct edge variable_as_mounted[] = {
    {"SILI hides a block of 3 in READ 5", E, SIX(READ, SILI, 5), MOUNTED(0), .room = 5, .after = MOUNTED(1),
     .data = BYTES(1, 2, 3)},
    {"SILI hides a block of 32,768 in READ 32,769", TILE, SIX(READ, SILI, MOUNTED_LENGTH + 1), MOUNTED(0),
     .room = MOUNTED_LENGTH + 1, .after = MOUNTED(1), .reads = MOUNTED_LENGTH},
    {"SILI has nothing to hide in READ 32,768", TILE, SIX(READ, SILI, MOUNTED_LENGTH), MOUNTED(0),
     .room = MOUNTED_LENGTH, .after = MOUNTED(1), .reads = MOUNTED_LENGTH},
    {"SILI hides no block of 32,768 in READ 32,767", TILE, SIX(READ, SILI, MOUNTED_LENGTH - 1), MOUNTED(0),
     .room = MOUNTED_LENGTH, .after = MOUNTED(1), .told = RESIDUE(TOLD_LENGTH, 0xffffffff),
     .reads = MOUNTED_LENGTH - 1},
    {"SILI hides no block of 65,536 in READ 32,768", FORMER, SIX(READ, SILI, MOUNTED_LENGTH), MOUNTED(0),
     .room = MOUNTED_LENGTH, .after = MOUNTED(1), .told = RESIDUE(TOLD_LENGTH, 0xffff8000), .reads = MOUNTED_LENGTH},
    {"SILI hides no block of 1,048,576 in READ 32,768", LARGEST_1, SIX(READ, SILI, MOUNTED_LENGTH), MOUNTED(0),
     .room = MOUNTED_LENGTH, .after = MOUNTED(1), .told = RESIDUE(TOLD_LENGTH, 0xfff08000), .reads = MOUNTED_LENGTH},
    {"READ 32,768 of a block of 32,768", TILE, SIX(READ, 0, MOUNTED_LENGTH), MOUNTED(0), .room = MOUNTED_LENGTH,
     .after = MOUNTED(1), .reads = MOUNTED_LENGTH},
    {"READ 10,240 of a block of 32,768", TILE, SIX(READ, 0, 10240), MOUNTED(0), .room = 10240, .after = MOUNTED(1),
     .told = RESIDUE(TOLD_LENGTH, 0xffffa800), .reads = 10240},
    {"READ 3 of a block of 3", E, SIX(READ, 0, 3), MOUNTED(0), .room = 3, .after = MOUNTED(1), .data = BYTES(1, 2, 3)},
    {"READ 1 is no FIXED READ of 1", E, SIX(READ, 0, 1), MOUNTED(0), .room = 1, .after = MOUNTED(1),
     .told = RESIDUE(TOLD_LENGTH, 0xfffffffe), .data = BYTES(1)},
    {"WRITE 1 is no FIXED WRITE of 1", BLANK, SIX(WRITE, 0, 1), MOUNTED(0), .sent = 1, .after = MOUNTED(1),
     .carried = 1, .puts = "b1"},
    {"WRITE 10,240", FORMER, SIX(WRITE, 0, 10240), MOUNTED(0), .sent = 10240, .after = MOUNTED(1), .carried = 10240,
     .puts = "b10240"},
    {"WRITE 32,767", FORMER, SIX(WRITE, 0, 32767), MOUNTED(0), .sent = 32767, .after = MOUNTED(1), .carried = 32767,
     .puts = "b32767"},
    {"WRITE 32,768", FORMER, SIX(WRITE, 0, 32768), MOUNTED(0), .sent = 32768, .after = MOUNTED(1), .carried = 32768,
     .puts = "b32768"},
    {"WRITE 32,769", FORMER, SIX(WRITE, 0, 32769), MOUNTED(0), .sent = 32769, .after = MOUNTED(1), .carried = 32769,
     .puts = "b32769"},
    {"WRITE 65,536", FORMER, SIX(WRITE, 0, FORMER_LARGEST), MOUNTED(0), .sent = FORMER_LARGEST, .after = MOUNTED(1),
     .carried = FORMER_LARGEST, .puts = "b65536"},
    {"WRITE 65,537", FORMER, SIX(WRITE, 0, FORMER_LARGEST + 1), MOUNTED(0), .sent = FORMER_LARGEST + 1,
     .after = MOUNTED(1), .carried = FORMER_LARGEST + 1, .puts = "b65537"},
    {"WRITE 1,048,576", BIG, SIX(WRITE, 0, LARGEST_BLOCK), MOUNTED(0), .sent = LARGEST_BLOCK, .after = MOUNTED(1),
     .carried = LARGEST_BLOCK, .puts = "B"},
    {"WRITE 1,048,577 is a field error as ever", BIG, SIX(WRITE, 0, LARGEST_BLOCK + 1), MOUNTED(0),
     .sent = LARGEST_BLOCK + 1, .after = MOUNTED(0), .told = FIELD},
    {"WRITE 32,768 into no room", E, SIX(WRITE, 0, 32768), MOUNTED(0), .sent = 32768, .after = MOUNTED(0),
     .told = RESIDUE(TOLD_OVERFLOW, 32768)},
    {"WRITE FILEMARKS counts filemarks", BLANK, SIX(WRITE_FILEMARKS, 0, 2), MOUNTED(0), .after = MOUNTED(2),
     .puts = "f2"},
};

/* ---- what else tells the length or keeps it; MODE SELECT alone sets another */

#define TELLS_IT(wp) BYTES(0x0b, 0, wp, 8, 0, 0, 0, 0, 0, 0x00, 0x80, 0x00)
#define TELLS_OTHER(high, middle, low) BYTES(0x0b, 0, 0, 8, 0, 0, 0, 0, 0, high, middle, low)
#define SELECTS(high, middle, low) LIST(0, 0, 0, 8, 0, 0, 0, 0, 0, high, middle, low)
static const struct edge told_and_kept[] = {
    {"MODE SENSE tells it", E, PAGE(0, PAGE_NONE, MODE_BYTES), MOUNTED(1), .room = MODE_BYTES, .after = MOUNTED(1),
     .data = TELLS_IT(0)},
    {"MODE SENSE of all pages tells it", GUARDED, PAGE(0, PAGE_ALL, 255), MOUNTED(1), .room = 14, .after = MOUNTED(1),
     .data = TELLS_IT(0x80)},
    {"MODE SENSE 11 tells its first two bytes", E, PAGE(0, PAGE_NONE, MODE_BYTES - 1), MOUNTED(1), .room = MODE_BYTES,
     .after = MOUNTED(1), .data = BYTES(0x0b, 0, 0, 8, 0, 0, 0, 0, 0, 0x00, 0x80)},
    {"MODE SENSE with DBD tells nothing of it", E, PAGE(DBD, PAGE_NONE, MODE_BYTES), MOUNTED(1), .room = MODE_BYTES,
     .after = MOUNTED(1), .data = BYTES(3, 0, 0, 0)},
    {"MODE SENSE with nothing loaded tells what was kept", NONE, PAGE(0, PAGE_NONE, MODE_BYTES), EMPTY(MOUNTED_LENGTH),
     .room = MODE_BYTES, .after = EMPTY(MOUNTED_LENGTH), .data = TELLS_IT(0)},
    {"MODE SENSE of a fresh drive tells 0", NONE, PAGE(0, PAGE_NONE, MODE_BYTES), EMPTY(0), .room = MODE_BYTES,
     .after = EMPTY(0), .data = TELLS_OTHER(0, 0, 0)},
    {"READ BLOCK LIMITS has nothing of it", E, SIX(READ_BLOCK_LIMITS, 0, 0), MOUNTED(0), .room = LIMITS_BYTES,
     .after = MOUNTED(0), .data = BYTES(0, 0x10, 0, 0, 0, 1)},
    {"LOAD keeps it", E, SIX(LOAD_UNLOAD, 0, LOAD), MOUNTED(2), .after = MOUNTED(0)},
    {"LOAD keeps 0", E, SIX(LOAD_UNLOAD, 0, LOAD), SET(0, 2), .after = SET(0, 0)},
    {"LOAD keeps 512", E, SIX(LOAD_UNLOAD, 0, LOAD), SET(512, 2), .after = SET(512, 0)},
    {"LOAD keeps 65,536", E, SIX(LOAD_UNLOAD, 0, LOAD), SET(FORMER_LARGEST, 2), .after = SET(FORMER_LARGEST, 0)},
    {"LOAD keeps 1,048,576", E, SIX(LOAD_UNLOAD, 0, LOAD), SET(LARGEST_BLOCK, 2), .after = SET(LARGEST_BLOCK, 0)},
    {"unload keeps it", E, SIX(LOAD_UNLOAD, 0, 0), MOUNTED(2), .after = EMPTY(MOUNTED_LENGTH)},
    {"unload keeps 0", E, SIX(LOAD_UNLOAD, 0, 0), SET(0, 2), .after = EMPTY(0)},
    {"unload keeps 512", E, SIX(LOAD_UNLOAD, 0, 0), SET(512, 2), .after = EMPTY(512)},
    {"unload keeps 65,536", E, SIX(LOAD_UNLOAD, 0, 0), SET(FORMER_LARGEST, 2), .after = EMPTY(FORMER_LARGEST)},
    {"unload keeps 1,048,576", E, SIX(LOAD_UNLOAD, 0, 0), SET(LARGEST_BLOCK, 2), .after = EMPTY(LARGEST_BLOCK)},
    {"MODE SELECT of 0 sets 0", E, SIX(MODE_SELECT, PF, MODE_BYTES), MOUNTED(1), SELECTS(0, 0, 0), .after = SET(0, 1),
     .carried = MODE_BYTES},
    {"MODE SELECT of 512 sets 512", E, SIX(MODE_SELECT, PF, MODE_BYTES), MOUNTED(1), SELECTS(0, 2, 0),
     .after = SET(512, 1), .carried = MODE_BYTES},
    {"MODE SELECT of 32,768 sets it", E, SIX(MODE_SELECT, PF, MODE_BYTES), SET(0, 1), SELECTS(0, 0x80, 0),
     .after = MOUNTED(1), .carried = MODE_BYTES},
    {"MODE SELECT of 65,537 sets 65,537", E, SIX(MODE_SELECT, PF, MODE_BYTES), MOUNTED(1), SELECTS(1, 0, 1),
     .after = SET(FORMER_LARGEST + 1, 1), .carried = MODE_BYTES},
    {"MODE SELECT of 1,048,577 keeps it", E, SIX(MODE_SELECT, PF, MODE_BYTES), MOUNTED(1), SELECTS(0x10, 0, 1),
     .after = MOUNTED(1), .told = PLAIN(TOLD_LIST)},
    {"a list of 4 keeps it", E, SIX(MODE_SELECT, PF, MODE_HEADER), MOUNTED(1), LIST(0, 0, 0, 0), .after = MOUNTED(1),
     .carried = MODE_HEADER},
    {"a list of 0 keeps it", E, SIX(MODE_SELECT, PF, 0), MOUNTED(1), .after = MOUNTED(1)},
};

/* ---- P7's half with SILI, "which now selects length 0 first"; without it the same READ tells ILI, as above */

static const struct edge sili_half_of_p7[] = {
    {.what = "P7: the mount is told", .command = SIX(TEST_UNIT_READY, 0, 0), .after = MOUNTED(0),
     .told = PLAIN(TOLD_MOUNTED)},
    {.what = "P7: length 0 is selected", .command = SIX(MODE_SELECT, PF, MODE_BYTES), SELECTS(0, 0, 0),
     .after = SET(0, 0), .carried = MODE_BYTES},
    {.what = "P7: READ 2 of a block of 3 with SILI", .command = SIX(READ, SILI, 2), .room = 16, .after = SET(0, 1),
     .data = BYTES(1, 2)},
};

/* ---- LOAD and unload behind a mount, and behind a MODE SELECT */

static const struct edge loads_behind_a_mount[] = {
    {.what = "the mount is told to LOAD", .command = SIX(LOAD_UNLOAD, 0, LOAD), .after = MOUNTED(0),
     .told = PLAIN(TOLD_MOUNTED)},
    {.what = "LOAD right behind the mount", .command = SIX(LOAD_UNLOAD, 0, LOAD), .after = MOUNTED(0)},
    {.what = "READ of E's block", .command = SIX(READ, 0, 3), .room = 3, .after = MOUNTED(1), .data = BYTES(1, 2, 3)},
    {.what = "512 is selected", .command = SIX(MODE_SELECT, PF, MODE_BYTES), SELECTS(0, 2, 0), .after = SET(512, 1),
     .carried = MODE_BYTES},
    {.what = "LOAD keeps what is selected", .command = SIX(LOAD_UNLOAD, 0, LOAD), .after = SET(512, 0)},
    {.what = "MODE SENSE tells what is selected", .command = PAGE(0, PAGE_NONE, MODE_BYTES), .room = MODE_BYTES,
     .after = SET(512, 0), .data = TELLS_OTHER(0, 2, 0)},
    {.what = "unload keeps what is selected", .command = SIX(LOAD_UNLOAD, 0, 0), .after = EMPTY(512)},
};

static const struct edge unload_behind_a_mount[] = {
    {.what = "the second mount is told", .command = SIX(REQUEST_SENSE, 0, SENSE_BYTES), .room = SENSE_BYTES,
     .after = MOUNTED(0), .data = BYTES(0x70, 0, 6, 0, 0, 0, 0, 0x0a, 0, 0, 0, 0, 0x28, 0, 0, 0, 0, 0)},
    {.what = "unload right behind the second mount", .command = SIX(LOAD_UNLOAD, 0, 0),
     .after = EMPTY(MOUNTED_LENGTH)},
};

/* ---- a whole life on a cartridge that just holds two tiles: before its first mount, behind it, behind the second */

static const struct edge before_the_mount[] = {
    {.what = "FIXED READ under 29h", .command = SIX(READ, FIXED, 1), .after = EMPTY(0), .told = PLAIN(TOLD_FRESH)},
    {.what = "FIXED READ of a fresh drive", .command = SIX(READ, FIXED, 1), .after = EMPTY(0), .told = FIELD},
};

static const struct edge behind_the_mount[] = {
    {.what = "FIXED WRITE under 28h", .command = SIX(WRITE, FIXED, 1), .sent = BYTES_OF(1), .after = MOUNTED(0),
     .told = PLAIN(TOLD_MOUNTED)},
    {.what = "MODE SENSE right behind the mount", .command = PAGE(0, PAGE_ALL, 255), .room = MODE_BYTES,
     .after = MOUNTED(0), .data = TELLS_IT(0)},
    {.what = "FIXED WRITE of one tile", .command = SIX(WRITE, FIXED, 1), .sent = BYTES_OF(1), .after = MOUNTED(1),
     .carried = BYTES_OF(1), .puts = "b32768"},
    {.what = "FIXED WRITE of two where one fits", .command = SIX(WRITE, FIXED, 2), .sent = BYTES_OF(2),
     .after = MOUNTED(2), .told = RESIDUE(TOLD_OVERFLOW, 1), .carried = BYTES_OF(1), .puts = "b32768"},
    {.what = "REWIND", .command = SIX(REWIND, 0, 0), .after = MOUNTED(0)},
    {.what = "FIXED READ of both", .command = SIX(READ, FIXED, 2), .room = BYTES_OF(2), .after = MOUNTED(2),
     .reads = BYTES_OF(2)},
    {.what = "SPACE back over one", .command = SIX(SPACE, BLOCKS, -1), .after = MOUNTED(1), .crossed = 1},
    {.what = "variable WRITE of 10,240", .command = SIX(WRITE, 0, 10240), .sent = 10240, .after = MOUNTED(2),
     .carried = 10240, .puts = "b10240"},
    {.what = "LOCATE to it", .command = LOCATE(0, 1, 0), .after = MOUNTED(1)},
    {.what = "FIXED READ of it", .command = SIX(READ, FIXED, 1), .room = BYTES_OF(1), .after = MOUNTED(2),
     .told = RESIDUE(TOLD_LENGTH, 1)},
    {.what = "length 10,240 is selected", .command = SIX(MODE_SELECT, PF, MODE_BYTES), SELECTS(0, 0x28, 0),
     .after = SET(10240, 2), .carried = MODE_BYTES},
    {.what = "FIXED WRITE of one more such", .command = SIX(WRITE, FIXED, 1), .sent = 10240, .after = SET(10240, 3),
     .carried = 10240, .puts = "b10240"},
    {.what = "LOCATE back", .command = LOCATE(0, 1, 0), .after = SET(10240, 1)},
    {.what = "FIXED READ of both such", .command = SIX(READ, FIXED, 2), .room = 20480, .after = SET(10240, 3),
     .reads = 20480},
    {.what = "unload keeps the length", .command = SIX(LOAD_UNLOAD, 0, 0), .after = EMPTY(10240)},
};

static const struct edge behind_the_second[] = {
    {.what = "the second mount", .command = SIX(TEST_UNIT_READY, 0, 0), .after = MOUNTED(0),
     .told = PLAIN(TOLD_MOUNTED)},
    {.what = "FIXED READ of 2, the second odd", .command = SIX(READ, FIXED, 2), .room = BYTES_OF(2),
     .after = MOUNTED(2), .told = RESIDUE(TOLD_LENGTH, 1), .reads = BYTES_OF(1)},
    {.what = "READ 5 of the next with SILI", .command = SIX(READ, SILI, 5), .room = 5, .after = MOUNTED(3),
     .told = RESIDUE(TOLD_LENGTH, 0xffffd805), .reads = 5},
    {.what = "length 0 is selected", .command = SIX(MODE_SELECT, PF, MODE_BYTES), SELECTS(0, 0, 0), .after = SET(0, 3),
     .carried = MODE_BYTES},
    {.what = "LOCATE to the next", .command = LOCATE(0, 2, 0), .after = SET(0, 2)},
    {.what = "READ 5 of it with SILI", .command = SIX(READ, SILI, 5), .room = 5, .after = SET(0, 3), .reads = 5},
    {.what = "FIXED READ of 1", .command = SIX(READ, FIXED, 1), .room = BYTES_OF(1), .after = SET(0, 3), .told = FIELD},
    {.what = "LOAD keeps 0", .command = SIX(LOAD_UNLOAD, 0, LOAD), .after = SET(0, 0)},
    {.what = "unload keeps 0", .command = SIX(LOAD_UNLOAD, 0, 0), .after = EMPTY(0)},
};

/* Made of a record that is none, with the mount's length in it. */
static struct call fresh_drive_with(enum cartridge p0)
{
    static const struct drive noise = {0xff, 0x80, 0x80, 0x80, 0x80808080, 0x00008000, OLD_SENSE};
    struct mounting start = {.before = noise, .p0 = p0};
    struct call call = lent_for(&start);
    hold_fresh(&call, "of noise");
    return call;
}

static void run_p7_with_sili(void)
{
    struct call call = fresh_drive_with(E);
    hold_mount(&call, 0, "for P7");
    run_in_turn(&call, sili_half_of_p7, COUNT(sili_half_of_p7));
    free_call(&call);
}

static void run_loads(void)
{
    struct call call = fresh_drive_with(E);
    hold_mount(&call, 0, "before LOAD");
    run_in_turn(&call, loads_behind_a_mount, COUNT(loads_behind_a_mount));
    hold_mount(&call, 0, "over what was selected");
    run_in_turn(&call, unload_behind_a_mount, COUNT(unload_behind_a_mount));
    hold_mount(&call, 0, "over its own length");
    free_call(&call);
}

static void run_life_of_tiles(void)
{
    struct call call = fresh_drive_with(FOR_2);
    run_in_turn(&call, before_the_mount, COUNT(before_the_mount));
    hold_mount(&call, 0, "for a life of tiles");
    hold_mount(&call, BY_LOADED, "while there is one");
    run_in_turn(&call, behind_the_mount, COUNT(behind_the_mount));
    hold_mount(&call, 0, "a second time");
    run_in_turn(&call, behind_the_second, COUNT(behind_the_second));
    hold_mount(&call, 0, "a third time");
    hold_fresh(&call, "while there is one");
    free_call(&call);
}

static void mounted_drives(void)
{
    run_mountings(mountings, COUNT(mountings));
    run(not_as_before, COUNT(not_as_before));
    run(variable_as_mounted, COUNT(variable_as_mounted));
    fixed_as_mounted();
    run(told_and_kept, COUNT(told_and_kept));
    run_p7_with_sili();
    run_loads();
    run_life_of_tiles();
}

#endif
