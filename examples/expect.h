/* expect.h: what a call must have left; anything else ends the day with a line that says so. Part of facility.c. */
#ifndef EXPECT_H
#define EXPECT_H

#include "calls.h"
#include "decode.h"
#include "stormtoggle.h"
#include <stdio.h>
#include <stdlib.h>

static inline void must_equal(const struct drive *d, const char *what, long seen, long wanted)
{
    if (seen == wanted)
        return;
    fflush(stdout);
    fprintf(stderr, "facility: %s: %s is %ld (%lxh), and not %ld (%lxh)\n", d->asked, what, seen, (unsigned long)seen,
            wanted, (unsigned long)wanted);
    exit(EXIT_FAILURE);
}

static inline void expect_bytes(const struct drive *d, const uint8_t *seen, const uint8_t *wanted, size_t length)
{
    size_t same = 0;
    while (same < length && seen[same] == wanted[same])
        same++;
    must_equal(d, "the number of bytes as expected", (long)same, (long)length);
}

static inline void expect_refusal(const struct drive *d, unsigned refusal)
{
    must_equal(d, "the refusal", STORMTOGGLE_REFUSAL(d->answer), refusal);
}

static inline void expect_carried(const struct drive *d, uint32_t carried)
{
    must_equal(d, "the number of bytes carried", STORMTOGGLE_CARRIED(d->answer), carried);
}

/* By SPACE; a filemark that stops it is crossed, and is not in its residue. */
static inline void expect_crossed(const struct drive *d, long objects)
{
    must_equal(d, "the number of objects crossed", STORMTOGGLE_CROSSED(d->answer), objects);
}

/* The refusal comes first, for a refused command leaves the sense of the one before. GOOD leaves the empty sense. */
static inline void expect(const struct drive *d, enum condition condition, long residue, int partition, long object)
{
    struct sense sense = sense_in_fixed_form(d->record + STORMTOGGLE_RECORD_SENSE);
    expect_refusal(d, 0);
    must_equal(d, "the status", STORMTOGGLE_STATUS(d->answer),
               condition == GOOD ? STORMTOGGLE_GOOD : STORMTOGGLE_CHECK_CONDITION);
    must_equal(d, "the sense (byte 2, ASC, ASCQ)", condition_of(sense), condition);
    must_equal(d, "the residue", sense.residue, residue);
    must_equal(d, "the partition", d->record[STORMTOGGLE_RECORD_CURRENT], partition);
    must_equal(d, "the object number", number_at(d->record + STORMTOGGLE_RECORD_POSITION), object);
}

static inline void expect_good(const struct drive *d, int partition, long object)
{
    expect(d, GOOD, 0, partition, object);
}

/* By REQUEST SENSE in a form. GOOD clears what is kept: asked for again, nothing is told. */
static inline void expect_told(struct drive *d, enum sense_form form, enum condition condition, long residue)
{
    long object = number_at(d->record + STORMTOGGLE_RECORD_POSITION);
    struct sense told = request_sense(d, form);
    expect_good(d, d->record[STORMTOGGLE_RECORD_CURRENT], object);
    must_equal(d, "what is told", condition_of(told), condition);
    must_equal(d, "the residue told", told.residue, residue);
}

#endif
