/* clock.h: works timed in turns, by this build of the library or by another, and the rows that tell what they took.
 * Part of bench.c. */
#ifndef CLOCK_H
#define CLOCK_H

#include "images.h"
#include <stdio.h>
#include <time.h>

/* What a loop computes goes here, so that no compiler leaves it out. */
static volatile uint64_t sink;

/* ---- builds of the library, and plain C in its place: called through pointers, so that no compiler sees which */

struct build {
    __typeof__(stormtoggle_command) *command;
    __typeof__(stormtoggle_view) *view;
};

static const struct build ours = {stormtoggle_command, stormtoggle_view}, plain = {plain_command, NULL};

#ifdef EARLIER
extern __typeof__(stormtoggle_command) earlier_command;
extern __typeof__(stormtoggle_view) earlier_view;
static const struct build earlier = {earlier_command, earlier_view};
enum { EARLIER_BUILDS = 1 };
#else
static const struct build earlier;
enum { EARLIER_BUILDS = 0 };
#endif

/* The one that serves. */
static const struct build *volatile by = &ours;

static struct image image;
static const struct image none;

static uint64_t command(const uint8_t *block, size_t length, const uint8_t *sent, size_t sent_length,
                        uint8_t *received, size_t received_length)
{
    return by->command(record, RECORD_BYTES, block, length, image.at, image.length, NULL, 0, sent, sent_length,
                       received, received_length);
}

/* The pass that a call makes over a directory, and nothing else. */
static void pass(void) { sink = by->view(image.at, image.length, NULL, 0, 0, UINT64_MAX); }

/* ---- the clock */

enum { ROUNDS = 61 };

static double now(void)
{
    struct timespec t;
    clock_gettime(CLOCK_MONOTONIC, &t);
    return (double)t.tv_sec * 1e9 + (double)t.tv_nsec;
}

struct work {
    void (*once)(void);
    const struct build *by;
};

enum { WORKS = 8 };

static double spent(const struct work *work, int repeat)
{
    double began;
    by = work->by;
    began = now();
    for (int i = 0; i < repeat; i++)
        work->once();
    return now() - began;
}

/* What each of some works took: the shortest of many rounds, each long enough for the clock. Their rounds take turns,
 * so that a busy machine slows all of them or none. */
static void took(int n, const struct work works[], double best[])
{
    int repeat[WORKS];
    for (int i = 0; i < n; i++) {
        best[i] = 1e18;
        for (repeat[i] = 1; spent(works + i, repeat[i]) < 1e6 && repeat[i] < 1 << 20;)
            repeat[i] *= 2;
    }
    for (int round = 0; round < ROUNDS; round++)
        for (int i = 0; i < n; i++) {
            double each = spent(works + i, repeat[i]) / repeat[i];
            best[i] = each < best[i] ? each : best[i];
        }
}

static void row(const char *what, double first, const char *than, double other)
{
    int digits = first < 1000 ? 1 : 0;
    printf("%-52s %10.*f %-36s %10.*f %6.2f\n", what, digits, first, than, digits, other, first / other);
}

/* The same work by the earlier build, if it was timed. */
static void earlier_row(double first, double other)
{
    if (EARLIER_BUILDS > 0)
        row("", first, "the library before", other);
}

static void compare(const char *what, void (*work)(void), const char *than, struct work other)
{
    double best[3];
    took(2 + EARLIER_BUILDS, (const struct work[]){{work, &ours}, other, {work, &earlier}}, best);
    row(what, best[0], than, best[1]);
    earlier_row(best[0], best[2]);
}

/* Work that no earlier build does. */
static void compare_new(const char *what, void (*work)(void), const char *than, struct work other)
{
    double best[2];
    took(2, (const struct work[]){{work, &ours}, other}, best);
    row(what, best[0], than, best[1]);
}

#endif
