/* draw.h: random numbers by a seed, for the tests that play random work. */
#ifndef DRAW_H
#define DRAW_H

#include <stdint.h>

static uint64_t seed, random_state;

static inline uint64_t draw_64(void)
{
    uint64_t mixed = random_state += UINT64_C(0x9e3779b97f4a7c15);
    mixed = (mixed ^ mixed >> 30) * UINT64_C(0xbf58476d1ce4e5b9);
    mixed = (mixed ^ mixed >> 27) * UINT64_C(0x94d049bb133111eb);
    return mixed ^ mixed >> 31;
}

static inline uint32_t draw(uint64_t bound)
{
    return (uint32_t)(draw_64() % bound);
}

static inline int one_in(uint32_t chances)
{
    return draw(chances) == 0;
}

/* The number itself, or one by up to two beside it. */
static inline uint64_t near(uint64_t number)
{
    uint64_t shifted = number + draw(5);
    return shifted < 2 ? 0 : shifted - 2;
}

static inline uint64_t less(uint64_t from, uint64_t number)
{
    return from < number ? 0 : from - number;
}

#endif
