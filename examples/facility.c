/* facility.c: a facility's day on cartridges in mapped files, from power-on to unload; its calls are in calls.h.
 *
 *   facility TILES INDEX TIER CAMERA
 *
 * The files are made anew. TILES is partition 0 of a cartridge: cycles of tiles, a filemark after each. INDEX is its
 * partition 1, and is document 01's example E in the end. TIER is a second cartridge and CAMERA a third, each of one
 * partition. What is not as it must be ends the day with a line that says so (expect.h).
 */
#define _POSIX_C_SOURCE 200809L
#include "calls.h"
#include "camera.h"
#include "decode.h"
#include "expect.h"
#include "stormtoggle.h"
#include "tier.h"
#include <errno.h>
#include <fcntl.h>
#include <stdio.h>
#include <stdlib.h>
#include <string.h>
#include <sys/mman.h>
#include <unistd.h>

/* The listing program takes 65,536 bytes at most. In as many, early warning comes one tile before the end. */
enum { TILES = 0, INDEX = 1, TILES_LENGTH = 65536, INDEX_LENGTH = STORMTOGGLE_SHORTEST_IMAGE };
enum { TILE = 3840, CYCLES = 3, BATCH = 5 };

/* The index: how many tiles each cycle has. With a filemark after each cycle it tells where every tile stands. */
static const uint8_t tiles_of[CYCLES] = {1, 2, 3};

/* The index partition at the day's end. */
static const uint8_t example_e[INDEX_LENGTH] = {
    [0] = 0x01, 0x02, 0x03,                /* object 0's data */
    [40] = 0x80, 0x00, 0x00, 0x03,         /* object 1: a filemark that ends at 3 */
    [44] = 0x00, 0x00, 0x00, 0x03,         /* object 0: a block that ends at 3 */
    [51] = 0x02, [59] = 0x28, [63] = 0x40, /* trailer: N, flags 0, D, L */
};

/* ---- the day's tiles */

static void make_tile(uint8_t *tile, unsigned cycle, unsigned number)
{
    fill_tile(tile, TILE, cycle, number);
}

/* Cycles and tiles count from 1, objects from 0. */
static uint32_t object_of(const uint8_t *index, unsigned cycle, unsigned number)
{
    uint32_t object = number - 1;
    for (unsigned before = 1; before < cycle; before++)
        object += index[before - 1] + 1u; /* its tiles, and the filemark */
    return object;
}

static void expect_tile(const struct drive *d, const uint8_t *seen, unsigned cycle, unsigned number)
{
    uint8_t wanted[TILE];
    make_tile(wanted, cycle, number);
    expect_bytes(d, seen, wanted, TILE);
    printf("    compared: these are the bytes of tile %u of cycle %u\n", number, cycle);
}

/* ---- the day, part by part */

/* The drive first tells once that it was reset, then that it is empty; after the mount, that the medium is another. */
static void open_the_day(struct drive *d)
{
    puts("\nPower on, and a blank cartridge");
    fresh(d);
    expect_refusal(d, 0);
    for (int partition = TILES; partition <= INDEX; partition++) {
        blank(d, partition);
        expect_refusal(d, 0);
    }
    struct sense told = request_sense(d, IN_FIXED_FORM);
    expect_good(d, 0, 0);
    must_equal(d, "what is told", condition_of(told), POWER_ON);
    test_unit_ready(d);
    expect(d, MEDIUM_NOT_PRESENT, 0, 0, 0);
    mount(d);
    expect_refusal(d, 0);
    mount(d);
    expect_refusal(d, STORMTOGGLE_BY_LOADED);
    test_unit_ready(d);
    expect(d, MEDIUM_CHANGED, 0, TILES, 0);
    test_unit_ready(d);
    expect_good(d, TILES, 0);
}

static void write_cycles(struct drive *d)
{
    uint8_t tile[TILE];
    uint32_t object = 0;
    puts("\nThree cycles of tiles");
    for (unsigned cycle = 1; cycle <= CYCLES; cycle++) {
        for (unsigned number = 1; number <= tiles_of[cycle - 1]; number++) {
            make_tile(tile, cycle, number);
            write_block(d, tile, TILE);
            expect_good(d, TILES, ++object);
            expect_carried(d, TILE);
        }
        write_filemarks(d, 1);
        expect_good(d, TILES, ++object);
    }
}

/* SPACE over blocks crosses the filemark that stops it. The residue is what is missing of the count, sign and all: in
 * 32 bits of the one form and in 64 of the other a host reads the same. */
static void go_back(struct drive *d)
{
    uint8_t bytes[TILE + 256];
    puts("\nBack over a filemark, and a tile read");
    space(d, BLOCKS, -5);
    expect(d, FILEMARK_DETECTED, -5, TILES, 8);
    expect_crossed(d, 1);
    expect_told(d, IN_FIXED_FORM, FILEMARK_DETECTED, -5);
    space(d, FILEMARKS, 1);
    expect_good(d, TILES, 9);
    space(d, BLOCKS, -5);
    expect(d, FILEMARK_DETECTED, -5, TILES, 8);
    expect_told(d, IN_DESCRIPTOR_FORM, FILEMARK_DETECTED, -5);
    space(d, BLOCKS, -1);
    expect_good(d, TILES, 7);
    expect_crossed(d, 1);
    read_block(d, bytes, TILE);
    expect_good(d, TILES, 8);
    expect_carried(d, TILE);
    expect_tile(d, bytes, 3, 3);
    read_block(d, bytes, TILE);
    expect(d, FILEMARK_DETECTED, TILE, TILES, 9);
    space(d, FILEMARKS, -9);
    expect(d, BEGINNING_OF_PARTITION, -6, TILES, 0);
    expect_crossed(d, 9);
    read_block(d, bytes, sizeof bytes);
    expect(d, WRONG_LENGTH, 256, TILES, 1);
    expect_carried(d, TILE);
    expect_tile(d, bytes, 1, 1);
}

/* The index finds a tile by one LOCATE. The view shows the same tile in the file itself. */
static void use_index(struct drive *d)
{
    uint8_t index[CYCLES], tile[TILE];
    size_t length;
    puts("\nAn index in partition 1, and a tile found by it");
    locate(d, INDEX, 0);
    expect_good(d, INDEX, 0);
    write_block(d, tiles_of, CYCLES);
    expect_good(d, INDEX, 1);
    write_filemarks(d, 1);
    expect_good(d, INDEX, 2);
    expect_bytes(d, d->tape[INDEX].image, example_e, INDEX_LENGTH);
    rewind_tape(d);
    expect_good(d, INDEX, 0);
    read_block(d, index, CYCLES);
    expect_good(d, INDEX, 1);
    expect_bytes(d, index, tiles_of, CYCLES);
    uint32_t object = object_of(index, 2, 2);
    locate(d, TILES, object);
    expect_good(d, TILES, 3);
    read_block(d, tile, TILE);
    expect_good(d, TILES, 4);
    expect_tile(d, tile, 2, 2);
    const uint8_t *block = view(d, TILES, object, &length);
    must_equal(d, "the block's length", (long)length, TILE);
    expect_tile(d, block, 2, 2);
}

/* A backup program that positions in sixteen bytes finds a cycle by its number: it starts behind as many filemarks. No
 * identifier is cut to 32 bits, and a residue that they do not hold is not told. */
static void go_in_sixteen_bytes(struct drive *d)
{
    uint8_t tile[TILE];
    puts("\nIn sixteen bytes: to a cycle by its file number, past the last one, and far back");
    locate_16(d, TILES, TO_FILE, 2);
    expect_good(d, TILES, 5);
    read_block(d, tile, TILE);
    expect_good(d, TILES, 6);
    expect_tile(d, tile, 3, 1);
    locate_16(d, TILES, TO_FILE, CYCLES);
    expect_good(d, TILES, 9);
    locate_16(d, TILES, TO_FILE, CYCLES + 1);
    expect(d, END_OF_DATA, 0, TILES, 9);
    locate_16(d, TILES, TO_OBJECT, 3 + (UINT64_C(1) << 32));
    expect(d, END_OF_DATA, 0, TILES, 9);
    space_16(d, BLOCKS, -2);
    expect(d, FILEMARK_DETECTED, -2, TILES, 8);
    space_16(d, FILEMARKS, -(INT64_C(1) << 40));
    expect(d, BEGINNING_OF_PARTITION, 0, TILES, 0);
    must_equal(d, "byte 0 of the sense", d->record[STORMTOGGLE_RECORD_SENSE], STORMTOGGLE_NOT_VALID);
    locate_16(d, TILES, TO_END, 0);
    expect_good(d, TILES, 9);
    locate_16(d, TILES, TO_OBJECT, 4);
    expect_good(d, TILES, 4);
}

/* The next tiles of the fourth cycle, as one WRITE sends them. */
static void write_batch(struct drive *d, unsigned first)
{
    uint8_t batch[BATCH * TILE];
    for (unsigned i = 0; i < BATCH; i++)
        make_tile(batch + i * TILE, CYCLES + 1, first + i);
    write_fixed(d, batch, BATCH);
}

/* A host plans from EOM at end of data whether a partition takes more, without writing to it: it asks for an object
 * that is never there. The bit tells of the partition that LOCATE goes to, wherever it comes from. */
static void plan(struct drive *d, uint8_t partition, enum condition condition, long objects)
{
    locate(d, partition, UINT32_MAX);
    expect(d, condition, 0, partition, objects);
    int is_near = is_near_end(sense_in_fixed_form(d->record + STORMTOGGLE_RECORD_SENSE));
    must_equal(d, "whether its end is near", is_near, condition == END_OF_DATA_IN_WARNING);
    printf("    planned: %s\n", is_near ? "change the cartridge before more goes to this partition" : "it takes more");
}

/* At early warning all is written; at overflow the residue tells how many tiles are not. A filemark still fits. */
static void fill(struct drive *d)
{
    uint8_t position[POSITION_LENGTH];
    puts("\nA fourth cycle, to early warning and on to volume overflow");
    plan(d, TILES, END_OF_DATA, 9);
    set_block_length(d, TILE);
    expect_good(d, TILES, 9);
    rewind_tape(d);
    expect_good(d, TILES, 0);
    space(d, TO_END_OF_DATA, 0);
    expect_good(d, TILES, 9);
    write_batch(d, 1);
    expect_good(d, TILES, 14);
    write_batch(d, 6);
    expect(d, EARLY_WARNING, 0, TILES, 19);
    expect_carried(d, BATCH * TILE);
    write_batch(d, 11);
    expect(d, NOT_ALL_WRITTEN, BATCH - 1, TILES, 20);
    expect_carried(d, TILE);
    write_filemarks(d, 1);
    expect(d, EARLY_WARNING, 0, TILES, 21);
    read_position(d, position, sizeof position - 1);
    expect_refusal(d, STORMTOGGLE_BY_RECEIVED);
    read_position(d, position, sizeof position);
    expect_good(d, TILES, 21);
    must_equal(d, "byte 0", position[0], POSITION_WARNING);
    must_equal(d, "the object told", number_at(position + POSITION_OBJECT), 21);
    must_equal(d, "the number of filemarks told", number_at(position + POSITION_FILEMARKS), CYCLES + 1);
}

/* READ and SPACE tell the same at end of data; SPACE to end of data meets nothing, and is GOOD. */
static void plan_the_change(struct drive *d)
{
    uint8_t tile[TILE];
    puts("\nA cartridge change planned from EOM at end of data");
    plan(d, INDEX, END_OF_DATA, 2);
    plan(d, TILES, END_OF_DATA_IN_WARNING, 21);
    read_block(d, tile, TILE);
    expect(d, END_OF_DATA_IN_WARNING, TILE, TILES, 21);
    space(d, BLOCKS, 1);
    expect(d, END_OF_DATA_IN_WARNING, 1, TILES, 21);
    space(d, TO_END_OF_DATA, 0);
    expect_good(d, TILES, 21);
}

/* Support tells a long wind from a host that hangs by how far a SPACE had to go, which its residue does not say. */
static void tell_support(const struct drive *d, long objects)
{
    expect_crossed(d, objects);
    printf("    support: %ld objects went by%s\n", objects, objects > 0 ? "" : ", so any wait is the host's own");
}

static void wind(struct drive *d)
{
    puts("\nA long wind, told from a hung host");
    space_16(d, FILEMARKS, -(INT64_C(1) << 40));
    expect(d, BEGINNING_OF_PARTITION, 0, TILES, 0);
    tell_support(d, 21);
    space_16(d, FILEMARKS, -(INT64_C(1) << 40));
    expect(d, BEGINNING_OF_PARTITION, 0, TILES, 0);
    tell_support(d, 0);
    space(d, BLOCKS, 5);
    expect(d, FILEMARK_DETECTED, 4, TILES, 2);
    tell_support(d, 2);
    space(d, TO_END_OF_DATA, 0);
    expect_good(d, TILES, 21);
    tell_support(d, 19);
}

/* A scheduler sends one SPACE in place of two where they may be merged (docs/SCHEDULING.md): the record is the same, to
 * the byte. Over filemarks there and back they may not: both are GOOD, and the drive is not where it was. */
static void send_as_one(struct drive *d)
{
    uint8_t behind_two[STORMTOGGLE_RECORD_LENGTH];
    puts("\nTwo moves sent as one, and two that may not be");
    locate(d, TILES, 9);
    expect_good(d, TILES, 9);
    space(d, BLOCKS, 4);
    expect_good(d, TILES, 13);
    space(d, BLOCKS, -1);
    expect_good(d, TILES, 12);
    memcpy(behind_two, d->record, sizeof behind_two);
    locate(d, TILES, 9);
    expect_good(d, TILES, 9);
    space(d, BLOCKS, 3);
    expect_good(d, TILES, 12);
    expect_bytes(d, d->record, behind_two, sizeof behind_two);
    puts("    scheduler: one move leaves what two left");
    space(d, FILEMARKS, 1);
    expect_good(d, TILES, 21);
    space(d, FILEMARKS, -1);
    expect_good(d, TILES, 20);
    puts("    scheduler: over filemarks there and back is not home, and is never merged");
}

static void close_the_day(struct drive *d)
{
    uint8_t tile[TILE];
    puts("\nThe last tile read, the tiles protected, and the cartridge out");
    locate(d, TILES, 19);
    expect_good(d, TILES, 19);
    read_block(d, tile, TILE);
    expect_good(d, TILES, 20);
    expect_tile(d, tile, 4, 11);
    protect(d, TILES);
    expect_refusal(d, 0);
    write_block(d, tile, TILE);
    expect(d, WRITE_PROTECTED, 0, TILES, 20);
    unload(d);
    expect_good(d, 0, 0);
    test_unit_ready(d);
    expect(d, MEDIUM_NOT_PRESENT, 0, 0, 0);
}

/* ---- the files */

static void stop(const char *name)
{
    perror(name);
    exit(EXIT_FAILURE);
}

/* Shared, so that what a service stores is in the file; allocated, so that no store finds the disk full. */
static struct partition map_partition(const char *name, size_t length)
{
    int file = open(name, O_RDWR | O_CREAT | O_TRUNC, 0644);
    if (file < 0 || (errno = posix_fallocate(file, 0, (off_t)length)) != 0)
        stop(name);
    void *image = mmap(NULL, length, PROT_READ | PROT_WRITE, MAP_SHARED, file, 0);
    if (image == MAP_FAILED)
        stop(name);
    close(file); /* the mapping stays */
    return (struct partition){image, length};
}

int main(int count, char **words)
{
    if (count != 5) {
        fprintf(stderr, "usage: facility TILES INDEX TIER CAMERA\n");
        return EXIT_FAILURE;
    }
    const struct partition files[] = {map_partition(words[1], TILES_LENGTH), map_partition(words[2], INDEX_LENGTH),
                                      map_partition(words[3], TIER_LENGTH), map_partition(words[4], CAMERA_LENGTH)};
    struct drive d = {.tape = {files[TILES], files[INDEX]}};
    log_heading();
    open_the_day(&d);
    write_cycles(&d);
    go_back(&d);
    use_index(&d);
    go_in_sixteen_bytes(&d);
    fill(&d);
    plan_the_change(&d);
    wind(&d);
    send_as_one(&d);
    close_the_day(&d);
    write_a_tier(&d, files[2], TILE);
    write_variable_blocks(&d);
    serve_the_camera(&d, files[3]);
    for (size_t i = 0; i < sizeof files / sizeof *files; i++)
        if (msync(files[i].image, files[i].length, MS_SYNC) != 0 || munmap(files[i].image, files[i].length) != 0)
            stop(words[1 + i]);
    return EXIT_SUCCESS;
}
