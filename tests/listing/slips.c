/* slips.c: a listing program in plain C by document 01, with one slip, so that faults.sh can show that listing.sh
 * finds it. The slips are those of a main: how it reads, how it writes, and what it is for. SLIP 0 is none. */
#define _DEFAULT_SOURCE
#include "../image.h"
#include <errno.h>

#ifndef SLIP
#define SLIP 0
#endif
enum {
    NO_SLIP, LISTS_NOTHING, HEADING_ONLY, NO_LAST_NEWLINE, INPUT_CUT, LENGTH_OF_16_BITS, READS_3, READS_1, WRITES_2,
    WRITES_3_TOO, WRITES_0_TOO, ONE_READ, SHORT_IS_END, ONE_WRITE, FROM_THE_START, OUTPUT_CUT, STATUS_1,
    READ_INTERRUPTED_IS_END, WRITE_INTERRUPTED_IS_END, INTERRUPTED_FORGETS
};

enum { MOST = 65536, INPUT = SLIP == READS_3 ? 3 : SLIP == READS_1 ? 1 : 0, OUTPUT = SLIP == WRITES_2 ? 2 : 1 };

/* One byte more than may be listed tells that there are more. */
static uint8_t image[MOST + 1];
static char text[1 << 20];

/* Whether a call that gave no byte is made again. */
static int goes_on(ssize_t done, int is_read)
{
    int slips = is_read ? SLIP == READ_INTERRUPTED_IS_END : SLIP == WRITE_INTERRUPTED_IS_END;
    return done < 0 && errno == EINTR && !slips;
}

static size_t read_all(void)
{
    size_t length = 0, room = SLIP == INPUT_CUT ? MOST : sizeof image;
    while (length < room) {
        ssize_t done = read(INPUT, image + length, room - length);
        if (done > 0)
            length += (size_t)done;
        else if (!goes_on(done, 1))
            break;
        else if (SLIP == INTERRUPTED_FORGETS)
            length = 0;
        if (SLIP == ONE_READ || (SLIP == SHORT_IS_END && done > 0 && length < room))
            break;
    }
    return length;
}

/* A length that 16 bits cut: what comes in goes round in a ring of so many bytes. */
static size_t read_round(void)
{
    static uint8_t ring[MOST];
    size_t length = 0, last;
    ssize_t done;
    uint8_t byte[4096];
    while ((done = read(INPUT, byte, sizeof byte)) > 0 || goes_on(done, 1))
        for (ssize_t i = 0; i < done; i++)
            ring[length++ % MOST] = byte[i];
    last = length > 0 && length % MOST == 0 ? MOST : length % MOST;
    for (size_t i = 0; i < last; i++)
        image[i] = ring[(length - last + i) % MOST];
    return last;
}

static void write_all(int file, size_t length)
{
    size_t at = 0;
    int starts_again = SLIP == FROM_THE_START;
    while (at < length) {
        ssize_t done = write(file, text + at, length - at);
        if (done <= 0 && !goes_on(done, 0))
            return;
        if (done > 0)
            at += (size_t)done;
        if (SLIP == ONE_WRITE)
            return;
        if (starts_again && at < length)
            at = 0, starts_again = 0;
    }
}

static size_t listing_of(size_t length)
{
    size_t objects, at = 0;
    uint32_t end = 0;
    if (length > MOST || !length_in_range(length))
        return (size_t)sprintf(text, "refused %d\n", BY_LENGTH);
    if (!sound(image, length))
        return (size_t)sprintf(text, "refused %d\n", BY_UNSOUND);
    objects = get_field(image, length, TRAILER_N);
    at += (size_t)sprintf(text, "objects %zu free %zu\n", objects,
                          length - TRAILER - ENTRY * objects - end_at(image, length, objects));
    for (size_t i = 0; i < objects && SLIP != HEADING_ONLY; i++) {
        uint32_t entry = get32(image + length - TRAILER - ENTRY * (i + 1));
        if (entry & ENTRY_FILEMARK)
            at += (size_t)sprintf(text + at, "%zu filemark\n", i);
        else
            at += (size_t)sprintf(text + at, "%zu block %u\n", i, (unsigned)(entry - end));
        end = entry & ENTRY_END;
    }
    return at;
}

int main(void)
{
    size_t length = SLIP == LENGTH_OF_16_BITS ? read_round() : read_all(), written = listing_of(length);
    if (SLIP == LISTS_NOTHING)
        return 0;
    if (SLIP == OUTPUT_CUT && written > MOST)
        written = MOST;
    write_all(OUTPUT, written - (SLIP == NO_LAST_NEWLINE));
    if (SLIP == WRITES_3_TOO)
        write_all(3, written);
    if (SLIP == WRITES_0_TOO)
        write_all(0, written);
    return SLIP == STATUS_1;
}
