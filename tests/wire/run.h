/* run.h: a run of imaging cycles as the host planned it: which object is which tile or filemark, how long each tile is
 * and which bytes it has, and where a SPACE must end. Nothing here is asked of a drive. */
#ifndef RUN_H
#define RUN_H

#include "draw.h"
#include <stddef.h>
#include <stdint.h>

enum { CYCLES = 90, FEWEST_TILES = 8, MOST_TILES = 16, MOST_OBJECTS = CYCLES * (MOST_TILES + 1) };
enum { SHORTEST_TILE = 16, USUAL_TILE = 65536, CAMERA_TILE = 800000, LARGEST_TILE = 1048576 };

/* Each cycle has a few tiles in a row of the block length after a mount: they are written as one FIXED transfer. */
enum { FIXED_TILE = 32768, FIXED_TILES = 4 };

enum { IS_FILEMARK = -1 };

struct object {
    int cycle;
    int tile; /* in its cycle, or IS_FILEMARK */
    uint32_t length;
    int starts_fixed; /* it and those behind it are the cycle's FIXED_TILES */
};

struct run {
    struct object objects[MOST_OBJECTS];
    uint32_t count;
    uint32_t starts[CYCLES + 1]; /* the object with which a cycle begins */
    uint64_t bytes;
};

/* ---- the plan */

static inline void add_object(struct run *run, int cycle, int tile, uint32_t length)
{
    run->objects[run->count++] = (struct object){.cycle = cycle, .tile = tile, .length = length};
    run->bytes += length;
}

/* The first tile of each third cycle is large: the camera's, the largest, or one between. */
static inline uint32_t draw_length(int cycle, int tile)
{
    if (cycle % 3 != 0 || tile != 0)
        return SHORTEST_TILE + draw(one_in(8) ? 64 : USUAL_TILE - SHORTEST_TILE + 1);
    if (cycle % 9 == 0)
        return LARGEST_TILE;
    return cycle % 9 == 3 ? CAMERA_TILE : USUAL_TILE + draw(LARGEST_TILE - USUAL_TILE);
}

static inline void plan_cycle(struct run *run, int cycle)
{
    int tiles = FEWEST_TILES + (int)draw(MOST_TILES - FEWEST_TILES + 1);
    int first_fixed = 1 + (int)draw((uint64_t)(tiles - FIXED_TILES));
    run->starts[cycle] = run->count;
    for (int tile = 0; tile < tiles; tile++) {
        int is_fixed = tile >= first_fixed && tile < first_fixed + FIXED_TILES;
        add_object(run, cycle, tile, is_fixed ? FIXED_TILE : draw_length(cycle, tile));
    }
    run->objects[run->starts[cycle] + (uint32_t)first_fixed].starts_fixed = 1;
    add_object(run, cycle, IS_FILEMARK, 0);
}

static inline void plan_run(struct run *run)
{
    for (int cycle = 0; cycle < CYCLES; cycle++)
        plan_cycle(run, cycle);
    run->starts[CYCLES] = run->count;
}

static inline int is_filemark(const struct run *run, uint32_t object)
{
    return run->objects[object].tile == IS_FILEMARK;
}

static inline uint32_t tiles_between(const struct run *run, uint32_t first, uint32_t end)
{
    uint32_t tiles = 0;
    for (uint32_t object = first; object < end; object++)
        tiles += !is_filemark(run, object);
    return tiles;
}

/* ---- a tile's bytes: its cycle, its number in it and its length, then what its own seed gives */

static inline void put_number(uint8_t *at, uint32_t number)
{
    for (int i = 0; i < 4; i++)
        at[i] = (uint8_t)(number >> (24 - 8 * i));
}

static inline void make_tile(const struct object *object, uint8_t *bytes)
{
    random_state = seed + (uint64_t)object->cycle * MOST_TILES + (uint64_t)object->tile;
    uint64_t drawn = 0;
    for (uint32_t i = 0; i < object->length; i++) {
        drawn = i % 8 == 0 ? draw_64() : drawn >> 8;
        bytes[i] = (uint8_t)drawn;
    }
    put_number(bytes, (uint32_t)object->cycle);
    put_number(bytes + 4, (uint32_t)object->tile);
    put_number(bytes + 8, object->length);
}

/* ---- where a SPACE must end, object by object, as document 01 has it */

enum space_code { BLOCKS = 0, FILEMARKS = 1 };
enum end_of_move { ALL_COUNTED, AT_A_FILEMARK, AT_THE_BEGINNING_OF_TAPE, AT_THE_END_OF_DATA };

struct move {
    uint32_t at;
    int64_t residue; /* the count without the signed number of what was counted */
    enum end_of_move end;
};

/* The object that a step crosses; the count has the direction. */
static inline uint32_t next_crossed(uint32_t at, int64_t count)
{
    return count < 0 ? at - 1 : at;
}

static inline struct move move_in(const struct run *run, uint32_t end, uint32_t from, enum space_code code,
                                  int64_t count)
{
    struct move move = {.at = from, .residue = count, .end = ALL_COUNTED};
    int64_t step = count < 0 ? -1 : 1;
    while (move.residue != 0) {
        if (move.at == (count < 0 ? 0 : end)) {
            move.end = count < 0 ? AT_THE_BEGINNING_OF_TAPE : AT_THE_END_OF_DATA;
            return move;
        }
        int crosses_filemark = is_filemark(run, next_crossed(move.at, count));
        move.at = (uint32_t)(move.at + step);
        if (crosses_filemark == (code == FILEMARKS))
            move.residue -= step;
        if (crosses_filemark && code == BLOCKS) {
            move.end = AT_A_FILEMARK;
            return move;
        }
    }
    return move;
}

#endif
