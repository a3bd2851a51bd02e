/* numbered.c: a tape client for the guest: numbered blocks, whose every byte follows from the block's number.
 *
 *   numbered print LENGTH FIRST COUNT  writes blocks FIRST to FIRST + COUNT - 1 to standard output
 *   numbered fill DEVICE LENGTH        writes blocks 0, 1, ... to a tape until it takes no more, and tells how it went
 *   numbered compare DEVICE LENGTH     reads a tape up to a filemark or the end, and tells how many blocks are as they
 *                                      were written
 *
 * The tape driver tells early warning in this way: the write that meets it is whole; the next one is refused with
 * ENOSPC; the one after that is tried, and so on by turns. So two refusals one after the other mean that a block was
 * tried and did not fit. */
#define _POSIX_C_SOURCE 200809L
#include <errno.h>
#include <fcntl.h>
#include <stdint.h>
#include <stdio.h>
#include <stdlib.h>
#include <string.h>
#include <unistd.h>

enum { PAGE = 4096, MOST_TRIES = 10000000 };

static void make_block(uint8_t *block, size_t length, uint32_t number)
{
    uint32_t state = number * 2654435761u + 1;
    for (size_t i = 0; i < length; i++) {
        state ^= state << 13;
        state ^= state >> 17;
        state ^= state << 5;
        block[i] = (uint8_t)state;
    }
}

static void fail(const char *what)
{
    fprintf(stderr, "numbered: %s: %s\n", what, strerror(errno));
    exit(1);
}

/* Aligned to a page, as the tape driver wants it for a transfer without a copy. */
static uint8_t *new_block(size_t length)
{
    void *block = NULL;
    if ((errno = posix_memalign(&block, PAGE, length)) != 0)
        fail("no room for a block");
    return block;
}

static int open_tape(const char *device, int way)
{
    int tape = open(device, way);
    if (tape < 0)
        fail(device);
    return tape;
}

static const char *name_of(int error)
{
    if (error == 0)
        return "none";
    if (error == ENOSPC)
        return "ENOSPC";
    return error == EIO ? "EIO" : strerror(error);
}

static int print_blocks(size_t length, uint32_t first, uint32_t count)
{
    uint8_t *block = new_block(length);
    for (uint32_t number = first; number < first + count; number++) {
        make_block(block, length, number);
        if (fwrite(block, 1, length, stdout) != length)
            return 1;
    }
    return fflush(stdout) == 0 ? 0 : 1;
}

/* ---- until the tape is full */

/* How many writes the tape took before its first refusal, and in all; how many it refused; whether it refused the last
 * one; and what else went wrong. */
struct account {
    uint32_t warned, written, refused;
    int is_refused;
    const char *other;
};

static void refuse(struct account *a)
{
    if (a->refused == 0)
        a->warned = a->written;
    a->refused++;
}

/* True while another write is worth a try. */
static int write_block(struct account *a, int tape, uint8_t *block, size_t length)
{
    int was_refused = a->is_refused;
    make_block(block, length, a->written);
    ssize_t done = write(tape, block, length);
    a->is_refused = done < 0 && errno == ENOSPC;
    if (a->is_refused)
        refuse(a);
    else if (done == (ssize_t)length)
        a->written++;
    else
        a->other = done < 0 ? name_of(errno) : "a short write";
    return a->other == NULL && !(was_refused && a->is_refused);
}

static int fill(const char *device, size_t length)
{
    int tape = open_tape(device, O_WRONLY), tries = 0;
    uint8_t *block = new_block(length);
    struct account a = {0};
    while (tries < MOST_TRIES && write_block(&a, tape, block, length))
        tries++;
    int at_close = close(tape) == 0 ? 0 : errno;
    printf("warned %u written %u refused %u other %s close %s\n", (unsigned)a.warned, (unsigned)a.written,
           (unsigned)a.refused, a.other == NULL ? "none" : a.other, name_of(at_close));
    return 0;
}

/* ---- and back */

static const char *ending(ssize_t done, int error)
{
    if (done < 0)
        return name_of(error);
    return done == 0 ? "end" : "other bytes";
}

static int compare(const char *device, size_t length)
{
    int tape = open_tape(device, O_RDONLY);
    uint8_t *wanted = new_block(length), *block = new_block(length);
    uint32_t equal = 0;
    ssize_t done;
    make_block(wanted, length, equal);
    while ((done = read(tape, block, length)) == (ssize_t)length && memcmp(wanted, block, length) == 0)
        make_block(wanted, length, ++equal);
    printf("equal %u then %s\n", (unsigned)equal, ending(done, errno));
    return close(tape) == 0 ? 0 : 1;
}

static size_t number(const char *word)
{
    return (size_t)strtoul(word, NULL, 10);
}

int main(int count, char **words)
{
    if (count == 5 && strcmp(words[1], "print") == 0)
        return print_blocks(number(words[2]), (uint32_t)number(words[3]), (uint32_t)number(words[4]));
    if (count == 4 && strcmp(words[1], "fill") == 0)
        return fill(words[2], number(words[3]));
    if (count == 4 && strcmp(words[1], "compare") == 0)
        return compare(words[2], number(words[3]));
    fprintf(stderr, "usage: numbered print LENGTH FIRST COUNT | fill DEVICE LENGTH | compare DEVICE LENGTH\n");
    return 2;
}
