/* lend.h: bytes for the host-side tests to lend: between canaries, on read-only pages, or too many to hold. */
#ifndef LEND_H
#define LEND_H

#include "check.h"
#include <sys/mman.h>

enum { CANARIES = 64, CANARY = 0xc5 };

/* Goes on with the bytes at the start, so many of them, again and again. */
static inline void repeat_bytes(uint8_t *bytes, size_t period, size_t length)
{
    for (size_t done = period; done < length; done *= 2)
        memcpy(bytes + done, bytes, done < length - done ? done : length - done);
}

/* After how many bytes a pattern repeats: a prime, so that those 256 or 65,536 apart are not the same. */
enum { PERIOD = 251 };

/* Bytes none of which is 0, as a fresh page or a blank would have it. */
static inline void lay_pattern(uint8_t *bytes, size_t length)
{
    for (size_t i = 0; i < PERIOD && i < length; i++)
        bytes[i] = (uint8_t)(i + 3);
    repeat_bytes(bytes, PERIOD, length);
}

static inline uint8_t *patterned(size_t length)
{
    uint8_t *bytes = malloc(length + 1);
    if (bytes == NULL)
        abort();
    lay_pattern(bytes, length);
    return bytes;
}

/* A copy of the bytes between canaries. */
static inline uint8_t *lend(const uint8_t *bytes, size_t length)
{
    uint8_t *room = malloc(length + 2 * CANARIES);
    if (room == NULL)
        abort();
    memset(room, CANARY, CANARIES);
    if (length > 0)
        memcpy(room + CANARIES, bytes, length);
    memset(room + CANARIES + length, CANARY, CANARIES);
    return room + CANARIES;
}

/* Checks the canaries around lent bytes. */
static inline void look_at_canaries(const uint8_t *lent, size_t length)
{
    const uint8_t *room = lent - CANARIES;
    int alive = 1;
    for (size_t i = 0; i < CANARIES; i++)
        alive = alive && room[i] == CANARY && lent[length + i] == CANARY;
    expect(alive, "canaries around %zu lent bytes", length);
}

/* The same, and frees them. */
static inline void take_back(uint8_t *lent, size_t length)
{
    look_at_canaries(lent, length);
    free(lent - CANARIES);
}

/* A copy that ends where readable memory ends, on pages that cannot be written. */
static inline uint8_t *sealed(const uint8_t *bytes, size_t length)
{
    size_t page = (size_t)sysconf(_SC_PAGESIZE), room = (length + page - 1) / page * page;
    uint8_t *pages = mmap(NULL, room + page, PROT_READ | PROT_WRITE, MAP_PRIVATE | MAP_ANONYMOUS, -1, 0);
    if (pages == MAP_FAILED)
        abort();
    memcpy(pages + room - length, bytes, length);
    if (mprotect(pages, room, PROT_READ) != 0 || mprotect(pages + room, page, PROT_NONE) != 0)
        abort();
    return pages + room - length;
}

/* Zeros of which only the pages that are touched take memory; NULL, and a failed check, where they cannot be mapped. */
static inline uint8_t *sparse(size_t length)
{
    int flags = MAP_PRIVATE | MAP_ANONYMOUS | MAP_NORESERVE;
    void *bytes = mmap(NULL, length, PROT_READ | PROT_WRITE, flags, -1, 0);
    expect(bytes != MAP_FAILED, "mapping %zu bytes", length);
    return bytes == MAP_FAILED ? NULL : bytes;
}

/* A service over one slice refuses this length by its number, and leaves the bytes. */
static inline void refuses_length(uint64_t (*service)(uint8_t *, size_t), size_t length, int number, const char *what)
{
    uint8_t *before = patterned(length), *lent = lend(before, length);
    expect_equal(service(lent, length), REFUSED(number), "%s of %zu bytes", what, length);
    expect_bytes(lent, before, length, "bytes after a refused %s of %zu", what, length);
    take_back(lent, length);
    free(before);
}

#endif
