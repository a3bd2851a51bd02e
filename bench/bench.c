/* bench.c: times the library's services against plain C on the same bytes, as ratios measured in one run; with EARLIER
 * defined against an earlier build of the library as well, whose services have names of their own. */
#define _DEFAULT_SOURCE
#include "clock.h"
#include "images.h"
#include "large.h"
#include <stdio.h>

enum { TILE = 32768 };

/* ---- plain C, as one would write it */

__attribute__((noinline)) static int plain_sound(const uint8_t *s, size_t length) { return sound(s, length); }

__attribute__((noinline)) static uint64_t plain_sum(const uint8_t *s, size_t length)
{
    uint32_t n = get32(s + length - TRAILER_N);
    uint64_t sum = 0;
    for (uint32_t i = 0; i < n; i++)
        sum += get32(s + length - TRAILER - ENTRY * ((size_t)i + 1));
    return sum;
}

/* The quickest way to have looked at each entry: eight bytes at a time, and their order left as it is. */
__attribute__((noinline)) static uint64_t plain_words(const uint8_t *s, size_t length)
{
    size_t bytes = ENTRY * (size_t)get32(s + length - TRAILER_N);
    const uint8_t *at = s + length - TRAILER - bytes;
    uint64_t sum = 0, word;
    for (size_t i = 0; i < bytes / sizeof word; i++) {
        memcpy(&word, at + i * sizeof word, sizeof word);
        sum += word;
    }
    return sum;
}

__attribute__((noinline)) static uint32_t plain_filemarks(const uint8_t *s, size_t length, uint32_t asked)
{
    uint32_t n = get32(s + length - TRAILER_N), i = 0;
    while (asked > 0 && i < n)
        asked -= (get32(s + length - TRAILER - ENTRY * ((size_t)++i)) & ENTRY_FILEMARK) != 0;
    return i;
}

/* ---- what is timed: each does its work once */

static uint8_t tile[TILE], *blocks;

static void plain_pass(void) { sink = (uint64_t)plain_sound(image.at, image.length); }
static void sum_entries(void) { sink = plain_sum(image.at, image.length); }
static void sum_words(void) { sink = plain_words(image.at, image.length); }

static void test_unit_ready(void)
{
    static const uint8_t block[BYTES_6] = {TEST_UNIT_READY};
    sink = command(block, sizeof block, NULL, 0, NULL, 0);
}

static void locate(void)
{
    static const uint8_t block[BYTES_10] = {[0] = LOCATE, [AT_OBJECT + 2] = 10000 >> 8, [AT_OBJECT + 3] = 10000 & 0xff};
    sink = command(block, sizeof block, NULL, 0, NULL, 0);
}

static void locate_16(void)
{
    static const uint8_t block[BYTES_16] = {[0] = LOCATE_16, [10] = 10000 >> 8, [11] = 10000 & 0xff};
    sink = command(block, sizeof block, NULL, 0, NULL, 0);
}

static void read_tile(void)
{
    static const uint8_t block[BYTES_6] = {READ, 0, 0, 0x80, 0};
    put_position(10000);
    sink = command(block, sizeof block, NULL, 0, tile, sizeof tile);
}

static void write_tile(void)
{
    static const uint8_t block[BYTES_6] = {WRITE, 0, 0, 0x80, 0};
    uint32_t n = get32(image.at + image.length - TRAILER_N);
    put_position(n - 1);
    sink = command(block, sizeof block, tile, sizeof tile, NULL, 0);
}

static void write_256(void)
{
    static const uint8_t block[BYTES_6] = {WRITE, FIXED, 0, 1, 0};
    put_position(0);
    sink = command(block, sizeof block, blocks, (size_t)256 * TILE, NULL, 0);
}

static void copy_256(void)
{
    memcpy(image.at, blocks, (size_t)256 * TILE);
    sink = image.at[sink % TILE];
}

/* The same pass and a memcpy of the same bytes: the pass leaves the caches as it leaves them to the command. */
static void pass_and_copy_out(void)
{
    pass();
    memcpy(tile, image.at + (size_t)10000 * TILE, sizeof tile);
    sink = tile[sink % TILE];
}

static void pass_and_copy_in(void)
{
    pass();
    memcpy(image.at + (size_t)(get32(image.at + image.length - TRAILER_N) - 1) * TILE, tile, sizeof tile);
    sink = image.at[sink % TILE];
}

static void space_filemarks(void)
{
    static const uint8_t block[BYTES_6] = {SPACE, FILEMARKS, 0x01, 0x86, 0xa0};
    put_position(0);
    sink = command(block, sizeof block, NULL, 0, NULL, 0);
}

/* The same in sixteen bytes: SPACE (16) over as many, LOCATE (16) to the file behind them, and more than there are. */
static void space_16(void)
{
    static const uint8_t block[BYTES_16] = {[0] = SPACE_16, [1] = FILEMARKS, [9] = 0x01, [10] = 0x86, [11] = 0xa0};
    put_position(0);
    sink = command(block, sizeof block, NULL, 0, NULL, 0);
}

static void locate_file(void)
{
    static const uint8_t block[BYTES_16] = {[0] = LOCATE_16, [1] = TO_FILE, [9] = 0x01, [10] = 0x86, [11] = 0xa0};
    sink = command(block, sizeof block, NULL, 0, NULL, 0);
}

static void space_most(void)
{
    static const uint8_t block[BYTES_16] = {SPACE_16, FILEMARKS, 0, 0, 0x7f, 0xff, 0xff, 0xff, 0xff, 0xff, 0xff, 0xff};
    put_position(0);
    sink = command(block, sizeof block, NULL, 0, NULL, 0);
}

static void locate_most(void)
{
    static const uint8_t block[BYTES_16] = {LOCATE_16, TO_FILE, 0, 0, 0xff, 0xff, 0xff, 0xff, 0xff, 0xff, 0xff, 0xff};
    sink = command(block, sizeof block, NULL, 0, NULL, 0);
}

static void plain_space(void) { sink = plain_filemarks(image.at, image.length, 100000); }

static uint8_t asked[BYTES_10];
static size_t asked_length;

static void ask(void) { sink = command(asked, asked_length, NULL, 0, tile, sizeof tile); }

/* ---- what is compared */

/* k as make_image has it, or any bytes. */
enum { ANY_BYTES = UINT16_MAX };

static void passes(uint32_t n, uint32_t k, const char *what)
{
    double best[5];
    image = make_image(n, 1, k, 0);
    if (k == ANY_BYTES)
        scramble(&image);
    took(4 + EARLIER_BUILDS,
         (const struct work[]){
             {pass, &ours}, {plain_pass, NULL}, {sum_entries, NULL}, {sum_words, NULL}, {pass, &earlier}},
         best);
    row(what, best[0], "plain C", best[1]);
    row("", best[0], "a plain sum of the entries", best[2]);
    row("", best[0], "a sum of the directory's words", best[3]);
    earlier_row(best[0], best[4]);
    free(image.at);
}

/* The same command by both, which must leave the same record, bytes and answer; LOCATE asks for an object, SPACE goes
 * to end of data. */
static void small(uint8_t code, size_t length, uint32_t object, const char *what)
{
    uint8_t before[RECORD_BYTES], left[RECORD_BYTES], data[LONG_BYTES];
    uint64_t answer;
    memset(asked, 0, sizeof asked);
    asked[0] = code;
    if (code == LOCATE)
        put32(asked + AT_OBJECT, object);
    if (code == SPACE)
        asked[1] = TO_END_OF_DATA;
    asked_length = length;
    memcpy(before, record, RECORD_BYTES);
    by = &ours;
    ask();
    answer = sink;
    memcpy(left, record, RECORD_BYTES), memcpy(data, tile, sizeof data);
    memcpy(record, before, RECORD_BYTES);
    by = &plain;
    ask();
    if (sink != answer || memcmp(left, record, RECORD_BYTES) != 0 || memcmp(data, tile, sizeof data) != 0)
        abort();
    compare(what, ask, "plain C", (struct work){ask, &plain});
}

/* A transfer of a block against the same pass and a memcpy, and both without the pass. */
static void transfer(void (*work)(void), void (*copy)(void), const char *what, const char *alone)
{
    double best[4];
    took(3 + EARLIER_BUILDS,
         (const struct work[]){{work, &ours}, {copy, &ours}, {pass, &ours}, {work, &earlier}}, best);
    row(what, best[0], "the pass and a memcpy", best[1]);
    earlier_row(best[0], best[3]);
    row(alone, best[0] - best[2], "memcpy", best[1] - best[2]);
}

/* Moves over the 100,000 filemarks of an image, each against its pass and plain C's walk; and in sixteen bytes against
 * the short form, which an earlier build has too. */
static void walks(void)
{
    double best[8];
    took(7 + EARLIER_BUILDS,
         (const struct work[]){{space_filemarks, &ours}, {plain_space, NULL}, {plain_pass, NULL}, {space_16, &ours},
                               {locate_file, &ours}, {space_most, &ours}, {locate_most, &ours},
                               {space_filemarks, &earlier}},
         best);
    row("SPACE over 100,000 filemarks, with the pass", best[0], "pass and plain C", best[1] + best[2]);
    earlier_row(best[0], best[7]);
    row("SPACE (16) over 100,000 filemarks", best[3], "pass and plain C", best[1] + best[2]);
    row("", best[3], "SPACE (6) over as many", best[0]);
    row("LOCATE (16) to file 100,000", best[4], "pass and plain C", best[1] + best[2]);
    row("", best[4], "SPACE (6) over as many", best[0]);
    row("SPACE (16) over 2^63 - 1 filemarks", best[5], "SPACE (16) over as many as there are", best[3]);
    row("LOCATE (16) to file 2^64 - 1", best[6], "LOCATE (16) to the last file", best[4]);
}

int main(void)
{
    printf("%-52s %10s %-36s %10s %6s\n", "the library", "ns", "against", "ns", "ratio");
    passes(32768, 0, "soundness, 32,768 entries, no filemarks");
    passes(32768, 16, "soundness, 32,768 entries, one filemark in sixteen");
    passes(32768, 2, "soundness, 32,768 entries, half of them filemarks");
    passes(32768, ANY_BYTES, "soundness, 32,768 entries, any bytes");
    passes(8000000, 0, "soundness, 8,000,000 entries, no filemarks");
    passes(8000000, 16, "soundness, 8,000,000 entries, one in sixteen");
    passes(8000000, 2, "soundness, 8,000,000 entries, half filemarks");

    image = make_image(1, 1, 0, 64);
    mount(&image, &none);
    small(TEST_UNIT_READY, BYTES_6, 0, "TEST UNIT READY, one object");
    put_position(1);
    small(READ_POSITION, BYTES_10, 0, "READ POSITION, one object");
    small(LOCATE, BYTES_10, UINT32_MAX, "LOCATE past the end of one object");
    put_position(0);
    small(SPACE, BYTES_6, 0, "SPACE to end of data, one object");
    free(image.at);

    image = make_image(20000, TILE, 0, (size_t)2 * TILE + 64);
    mount(&image, &none);
    compare("TEST UNIT READY among 20,000 objects", test_unit_ready, "its pass", (struct work){pass, &ours});
    compare("LOCATE among 20,000 objects", locate, "its pass", (struct work){pass, &ours});
    compare_new("LOCATE (16) among 20,000 objects", locate_16, "its pass", (struct work){pass, &ours});
    transfer(read_tile, pass_and_copy_out, "READ of 32 KiB among 20,000 objects", "READ of 32 KiB, without the pass");
    transfer(write_tile, pass_and_copy_in, "WRITE of 32 KiB behind 20,000 objects",
             "WRITE of 32 KiB, without the pass");
    free(image.at);

    blocks = calloc(256, TILE);
    image = make_image(0, 0, 0, (size_t)257 * (TILE + ENTRY));
    mount(&image, &none);
    put32(record + STORMTOGGLE_RECORD_BLOCK_LENGTH, TILE);
    compare("WRITE FIXED of 256 blocks of 32 KiB", write_256, "memcpy", (struct work){copy_256, NULL});
    free(image.at);

    large_blocks();

    image = make_image(200000, 1, 2, 0);
    mount(&image, &none);
    walks();
    free(image.at);
    free(blocks);
    return 0;
}
