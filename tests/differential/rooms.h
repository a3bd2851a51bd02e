/* rooms.h: where the lent slices lie, each twice: for the model and for the library. */
#ifndef ROOMS_H
#define ROOMS_H

#include "../draw.h"
#include "model/commands.h"
#include <sys/mman.h>

enum side { MODEL, LIBRARY };
enum slice { RECORD, COMMAND, P0, P1, SENT, RECEIVED, SLICES };
static const char *const slice_names[SLICES] = {"record", "command", "partition 0", "partition 1", "sent", "received"};

/* Both sides hold the same bytes between calls, also around the slice, so that whatever differs after one is a store
 * that only one side made. Pages that cannot be touched lie on either side of the room.
 *
 * A sparse room is one too large to hold or to compare: only what is stored to takes memory. A piece of it cannot be
 * written until a store there faults, which opens it; so the open pieces of either side are all that can differ. */
enum { MARGIN = 32, PAGE_BYTES = 4096, LARGE_ROOM = 128 * PAGE_BYTES, PIECE = 64 * PAGE_BYTES };
static struct twin {
    uint8_t *room[2];
    uint8_t *open[2]; /* for each piece of a sparse room, whether it is open */
    size_t room_length, at, length;
} twins[SLICES];

static uint8_t noise[LARGE_ROOM];

/* ---- pages */

static inline uint8_t *guarded_pages(size_t length, int access)
{
    int flags = MAP_PRIVATE | MAP_ANONYMOUS | MAP_NORESERVE;
    uint8_t *pages = mmap(NULL, length + 2 * PAGE_BYTES, PROT_NONE, flags, -1, 0);
    if (pages == MAP_FAILED || mprotect(pages + PAGE_BYTES, length, access) != 0)
        abort();
    return pages + PAGE_BYTES;
}

static inline void map_twins(void)
{
    for (size_t i = 0; i < sizeof noise; i++)
        noise[i] = (uint8_t)draw(256);
    for (int slice = 0; slice < SLICES; slice++) {
        struct twin *twin = &twins[slice];
        twin->room_length = slice == RECORD || slice == COMMAND ? PAGE_BYTES : LARGE_ROOM;
        for (int side = MODEL; side <= LIBRARY; side++) {
            twin->room[side] = guarded_pages(twin->room_length, PROT_READ | PROT_WRITE);
            memcpy(twin->room[side], noise, twin->room_length);
        }
    }
}

/* ---- sparse rooms */

static inline size_t pieces_of(const struct twin *twin)
{
    return twin->room_length / PIECE;
}

static inline int is_sparse(const struct twin *twin)
{
    return twin->open[MODEL] != NULL;
}

static inline struct twin sparse_twin(size_t length)
{
    struct twin twin = {.room_length = (length + PIECE - 1) / PIECE * PIECE};
    for (int side = MODEL; side <= LIBRARY; side++) {
        twin.room[side] = guarded_pages(twin.room_length, PROT_READ);
        twin.open[side] = calloc(pieces_of(&twin), 1);
        if (twin.open[side] == NULL)
            abort();
    }
    return twin;
}

static inline void unmap_twin(struct twin *twin)
{
    for (int side = MODEL; side <= LIBRARY; side++) {
        munmap(twin->room[side] - PAGE_BYTES, twin->room_length + 2 * PAGE_BYTES);
        free(twin->open[side]);
    }
}

/* Opens the piece that an address lies in. Not if it is open already: then the fault is another. */
static inline int open_piece(struct twin *twin, enum side side, const uint8_t *address)
{
    size_t piece = (size_t)(address - twin->room[side]) / PIECE;
    if (twin->open[side][piece])
        return 0;
    twin->open[side][piece] = 1;
    return mprotect(twin->room[side] + piece * PIECE, PIECE, PROT_READ | PROT_WRITE) == 0;
}

static inline void close_pieces(struct twin *twin, enum side side)
{
    size_t count = pieces_of(twin);
    for (size_t from = 0, to; from < count; from = to + 1) {
        for (to = from; to < count && twin->open[side][to]; to++)
            twin->open[side][to] = 0;
        if (to > from && mprotect(twin->room[side] + from * PIECE, (to - from) * PIECE, PROT_READ) != 0)
            abort();
    }
}

static inline void close_rooms(void)
{
    for (int slice = 0; slice < SLICES; slice++)
        for (int side = MODEL; side <= LIBRARY && is_sparse(&twins[slice]); side++)
            close_pieces(&twins[slice], (enum side)side);
}

/* The sparse room that an address lies in, and on which side of it. */
static inline struct twin *room_with(const uint8_t *address, enum side *side)
{
    for (int slice = 0; slice < SLICES; slice++)
        for (int i = MODEL; i <= LIBRARY && is_sparse(&twins[slice]); i++)
            if (address >= twins[slice].room[i] && address < twins[slice].room[i] + twins[slice].room_length) {
                *side = (enum side)i;
                return &twins[slice];
            }
    return NULL;
}

/* ---- the slices */

static inline uint8_t *bytes_of(enum slice slice, enum side side)
{
    return twins[slice].room[side] + twins[slice].at;
}

/* Against the last page, where one byte too many is a fault, against the first, or with margins. */
static inline void place(enum slice slice, size_t length)
{
    struct twin *twin = &twins[slice];
    size_t spare;
    if (length > twin->room_length)
        length = twin->room_length;
    spare = twin->room_length - length;
    twin->length = length;
    twin->at = one_in(3) ? spare : one_in(3) ? 0 : draw(spare + 1);
}

static inline void lay(enum slice slice, size_t offset, const uint8_t *bytes, size_t length)
{
    memcpy(bytes_of(slice, MODEL) + offset, bytes, length);
    memcpy(bytes_of(slice, LIBRARY) + offset, bytes, length);
}

static inline void lay_noise(enum slice slice)
{
    size_t length = twins[slice].length;
    lay(slice, 0, noise + draw(LARGE_ROOM - length + 1), length);
}

#endif
