/* trips.h: the trips of the pilot's mishap, and what each must come to: all of it is planned before a command is sent.
 * Part of mishap.c. */
#ifndef TRIPS_H
#define TRIPS_H

#include "initiator.h"
#include "run.h"

enum { MOST_TRIPS = 40, CYCLE_WRITTEN_IN_TWO = 45 };

/* The numbers of every run of this program: what it draws is the same each time. */
enum { SEED = 20261117 };

/* A SPACE from somewhere, and how many tiles are then read. */
struct trip {
    const char *why;
    uint32_t from;
    int is_long; /* SPACE (16) */
    enum space_code code;
    int64_t count;
    int goes_on;  /* from where the trip before ended, by the residue that it was told */
    int reads_on; /* to end of data */
    uint32_t end; /* end of data at this time */
    struct move wanted;
    uint32_t tiles;
};

struct plan {
    struct run run;
    struct trip trips[MOST_TRIPS];
    size_t count;
    uint32_t half;       /* the object in the middle of the cycle that is written in two parts */
    size_t trips_half;   /* trips that are made there, */
    size_t trips_in_two; /* and once that cycle has its filemark; the others are made after the whole run */
    uint64_t tiles;      /* how many will be compared */
};

static inline void add_trip(struct plan *plan, struct trip trip)
{
    if (plan->count == MOST_TRIPS)
        give_up("planning", "too many trips");
    trip.wanted = move_in(&plan->run, trip.end, trip.from, trip.code, trip.count);
    trip.tiles = trip.reads_on ? tiles_between(&plan->run, trip.wanted.at, trip.end) : 0;
    plan->tiles += trip.tiles;
    plan->trips[plan->count++] = trip;
}

/* One SPACE, and on to the end of data. */
static inline void add_single(struct plan *plan, const char *why, uint32_t from, int is_long, enum space_code code,
                              int64_t count)
{
    add_trip(plan, (struct trip){.why = why, .from = from, .is_long = is_long, .code = code, .count = count,
                                 .reads_on = 1, .end = plan->run.count});
}

/* SPACE over blocks again and again by what is left, until all are counted: each filemark on the way is told. */
static inline void add_series(struct plan *plan, const char *why, uint32_t from, uint32_t end, int is_long,
                              int64_t count)
{
    struct trip trip = {.why = why, .from = from, .is_long = is_long, .code = BLOCKS, .count = count, .end = end};
    for (;;) {
        struct move move = move_in(&plan->run, end, trip.from, BLOCKS, trip.count);
        trip.reads_on = move.end != AT_A_FILEMARK;
        add_trip(plan, trip);
        if (trip.reads_on)
            return;
        trip.goes_on = 1;
        trip.from = move.at;
        trip.count = move.residue;
    }
}

static inline uint32_t tile_of(const struct plan *plan, int cycle, uint32_t tile)
{
    return plan->run.starts[cycle] + tile;
}

/* From any tile of any cycle but the first, back by more blocks than stand before it in its file. */
static inline void add_drawn(struct plan *plan, const char *why, int is_long)
{
    uint32_t tile = draw(FEWEST_TILES), more = 1 + draw(30);
    add_single(plan, why, tile_of(plan, 1 + (int)draw(CYCLES - 1), tile), is_long, BLOCKS, -(int64_t)(tile + more));
}

static inline void plan_trips_while_writing(struct plan *plan)
{
    uint32_t start = plan->run.starts[CYCLE_WRITTEN_IN_TWO], end = plan->run.starts[CYCLE_WRITTEN_IN_TWO + 1];
    plan->half = start + FEWEST_TILES / 2;
    add_trip(plan, (struct trip){.why = "while writing", .from = plan->half, .code = BLOCKS,
                                 .count = -(FEWEST_TILES / 2) - 5, .reads_on = 1, .end = plan->half});
    plan->trips_half = plan->count;
    add_series(plan, "while writing", end, end, 0, -3);
    plan->trips_in_two = plan->count;
}

static inline void plan_trips(struct plan *plan)
{
    plan_trips_while_writing(plan);
    add_single(plan, "middle of a cycle", tile_of(plan, 60, 5), 0, BLOCKS, -12);
    add_single(plan, "middle of a cycle", tile_of(plan, 60, 5), 1, BLOCKS, -12);
    add_single(plan, "just after a filemark", plan->run.starts[70], 0, BLOCKS, -7);
    add_single(plan, "just after a filemark", plan->run.starts[70], 1, BLOCKS, -7);
    add_single(plan, "one block too many", tile_of(plan, 80, 6), 0, BLOCKS, -7);
    add_single(plan, "just up to a filemark", tile_of(plan, 80, 6), 0, BLOCKS, -6);
    add_series(plan, "over several filemarks", tile_of(plan, 75, 3), plan->run.count, 0, -40);
    add_series(plan, "over several filemarks", tile_of(plan, 52, 7), plan->run.count, 1, -50);
    for (int i = 0; i < 4; i++)
        add_drawn(plan, "drawn", i % 2);
    add_single(plan, "filemarks", tile_of(plan, 77, 4), 0, FILEMARKS, -1);
    add_single(plan, "filemarks", tile_of(plan, 66, 4), 0, FILEMARKS, -6);
    add_single(plan, "filemarks", plan->run.starts[58], 1, FILEMARKS, -9);
    add_single(plan, "filemarks to the beginning", tile_of(plan, 3, 2), 0, FILEMARKS, -10);
    add_single(plan, "blocks to the beginning", tile_of(plan, 0, 5), 0, BLOCKS, -9);
    add_single(plan, "forward over a filemark", tile_of(plan, 64, 3), 0, BLOCKS, 60);
}

/* All tiles once more at the end. */
static inline void make_plan(struct plan *plan)
{
    seed = random_state = SEED;
    plan_run(&plan->run);
    plan_trips(plan);
    plan->tiles += tiles_between(&plan->run, 0, plan->run.count);
}

#endif
