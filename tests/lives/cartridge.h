/* cartridge.h: the followed cartridge, foreign partitions beside it, the drive records, and what a call is lent. */
#ifndef CARTRIDGE_H
#define CARTRIDGE_H

#include "../draw.h"
#include "../lend.h"
#include "../record.h"
#include "history.h"

/* ---- bytes that stay as they are for the whole run */

enum { NOISE = LARGEST_BLOCK + (1 << 18) };
static const uint8_t *noise; /* ends where readable memory ends, on pages that cannot be written */

static inline void make_noise(void)
{
    uint8_t *bytes = malloc(NOISE);
    if (bytes == NULL)
        abort();
    for (size_t i = 0; i < NOISE; i++)
        bytes[i] = (uint8_t)draw(256);
    noise = sealed(bytes, NOISE);
    free(bytes);
}

/* At times the last ones, behind which nothing can be read. */
static inline const uint8_t *some_noise(size_t length)
{
    return noise + (one_in(16) ? NOISE - length : draw(NOISE - length + 1));
}

/* ---- partitions */

struct tape {
    uint8_t *image; /* between canaries */
    size_t length;
    struct history history; /* of ours: what was put and cut since the blank */
    uint8_t *as_called;     /* of ours: its bytes as the latest call left them */
};

static struct tape ours[2], foreign[2];
static unsigned partitions; /* of the cartridge that is followed */

static inline int is_ours(const struct tape *tape)
{
    return tape == &ours[0] || tape == &ours[1];
}

/* Longer than this, it is kept to few objects: each makes every later reading of it slower. */
static inline int is_long(const struct tape *tape)
{
    return tape->length > 8000;
}

/* One that has room for the largest block. */
static inline int is_vast(const struct tape *tape)
{
    return tape->length > LARGEST_BLOCK;
}

static inline int is_protected(const struct tape *tape)
{
    return (get_field(tape->image, tape->length, TRAILER_FLAGS) & FLAG_PROTECTED) != 0;
}

static inline void take_tape_back(struct tape *tape)
{
    if (tape->image != NULL)
        take_back(tape->image, tape->length);
    free(tape->as_called);
    tape->image = tape->as_called = NULL;
    tape->length = 0;
}

/* Random bytes, not blank yet. */
static inline void lend_tape(struct tape *tape, size_t length)
{
    take_tape_back(tape);
    tape->image = lend(some_noise(length), length);
    tape->length = length;
}

/* The same for a partition that is followed from here on. */
static inline void lend_ours(struct tape *tape, size_t length)
{
    lend_tape(tape, length);
    tape->as_called = malloc(length);
    if (tape->as_called == NULL)
        abort();
    forget(&tape->history);
}

/* ---- what is lent of partitions */

/* Its two places; NULL is the empty slice. */
struct loan {
    struct tape *at[2];
};

static inline struct loan whole_cartridge(void)
{
    return (struct loan){{&ours[0], partitions == 2 ? &ours[1] : NULL}};
}

static inline int is_whole(struct loan loan)
{
    struct loan whole = whole_cartridge();
    return loan.at[0] == whole.at[0] && loan.at[1] == whole.at[1];
}

/* Whether any of the cartridge is lent. */
static inline int lends_ours(struct loan loan)
{
    return is_ours(loan.at[0]) || is_ours(loan.at[1]);
}

/* One partition alone, in either place, beside nothing or a foreign slice; or nothing of the cartridge. */
static inline struct loan partial_loan(void)
{
    struct tape *one = &ours[draw(partitions)], *other = &foreign[draw(2)];
    switch (draw(9)) {
    case 0: case 1: case 2: return (struct loan){{one, NULL}};
    case 3: case 4: return (struct loan){{one, other}};
    case 5: case 6: return (struct loan){{other, one}};
    case 7: return (struct loan){{NULL, one}};
    default: return (struct loan){{&foreign[0], one_in(2) ? &foreign[1] : NULL}};
    }
}

static inline uint8_t *bytes_at(struct loan loan, int place)
{
    return loan.at[place] == NULL ? NULL : loan.at[place]->image;
}

static inline size_t length_at(struct loan loan, int place)
{
    return loan.at[place] == NULL ? 0 : loan.at[place]->length;
}

/* ---- drive records */

/* The odd one is foreign or broken: random bytes, or another one's with a byte off. */
enum { DRIVES = 4, ODD = DRIVES, HOLDERS };

struct holder {
    uint8_t *record; /* between canaries */
    size_t room, length;
    struct loan usual; /* what it was mounted with, and what it is mostly lent */
    int is_mounted;    /* with the whole cartridge, by a mount that was done */
    int alone_since;   /* it is, and since then neither was used with another */
    int as_mounted;    /* its block length is that of its mount: none was selected since */
    int was_unloaded, was_refused;
};

static struct holder holders[HOLDERS];
static unsigned drives; /* of them in this life, the odd one not counted */

/* That a record and these slices are used together: the others are no longer alone with the cartridge. */
static inline void note_use(struct holder *by, struct loan loan)
{
    if (!is_whole(loan))
        by->alone_since = 0;
    for (int i = 0; i < HOLDERS; i++)
        if (&holders[i] != by && lends_ours(loan))
            holders[i].alone_since = 0;
}

/* That nothing is mounted under the record any more. */
static inline void note_unloaded(struct holder *holder)
{
    holder->is_mounted = holder->alone_since = 0;
}

/* The odd one has room for a length that is wrong. */
static inline void lend_record(struct holder *holder)
{
    size_t room = holder == &holders[ODD] ? RECORD_BYTES + 10 : RECORD_BYTES;
    *holder = (struct holder){
        .record = lend(some_noise(room), room), .room = room, .length = RECORD_BYTES, .usual = whole_cartridge()};
}

/* Makes the odd record anew. The byte that is off is often the position's last, which leaves it well formed. */
static inline void make_odd(void)
{
    struct holder *odd = &holders[ODD];
    const struct holder *like = &holders[draw(drives)];
    note_unloaded(odd);
    odd->as_mounted = 0;
    odd->length = one_in(10) ? draw(odd->room + 1) : RECORD_BYTES;
    odd->usual = like->usual;
    memcpy(odd->record, some_noise(odd->room), odd->room);
    if (one_in(6))
        return;
    memcpy(odd->record, like->record, RECORD_BYTES);
    odd->record[one_in(3) ? STORMTOGGLE_RECORD_POSITION + 3 : draw(RECORD_BYTES)] +=
        (uint8_t)(one_in(2) ? 1 : one_in(2) ? 0xff : draw(256));
}

#endif
