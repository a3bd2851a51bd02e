/* mounted.h: work in the block length that a mount sets: cartridges with room for a few such blocks, under FIXED
 * transfers with no MODE SELECT before them, and under what keeps that length or sets another. */
#ifndef MOUNTED_H
#define MOUNTED_H

#include "state.h"
#include "vast.h"

/* ---- the cartridge */

/* With room for so many blocks and no more, or a byte or two beside that; at times for what is odd between them too. */
static inline size_t length_for(unsigned blocks)
{
    uint64_t length = near(TRAILER + blocks * (uint64_t)(ENTRY + MOUNTED_LENGTH)) + one_in(3) * draw(40000);
    return (size_t)(length < SHORTEST ? SHORTEST : length);
}

/* A record with any block length is mounted with blank partitions, one of which is the work's. */
static inline void mount_blank(enum slice partition, unsigned blocks)
{
    enum slice other = (enum slice)(P0 + P1 - partition);
    vast = partition;
    place(partition, length_for(blocks));
    place(other, partition == P1 || one_in(2) ? length_for(draw(2)) : 0);
    call_blank(P0);
    call_blank(P1);
    lay_record(0);
    call_mount();
}

/* What comes right behind a mount: its attention, and mostly what is told of the length. */
static inline void begin_mounted(void)
{
    send(one_in(2) ? WRITE : READ, FIXED, draw(3));
    if (!one_in(4))
        send(MODE_SENSE, one_in(3) * DBD, one_in(2) ? MODE_BYTES : 255);
    send(LOCATE, CP, 0);
}

/* ---- transfers */

/* With a byte too few, and then with what it takes. */
static inline void send_fixed(uint8_t code, uint64_t blocks)
{
    send_one_byte_short(code, FIXED, blocks);
    send(code, FIXED, blocks);
}

static inline uint64_t odd_length(void)
{
    static const uint32_t lengths_beside[] = {MOUNTED_LENGTH - 1, MOUNTED_LENGTH + 1, LARGEST_BEFORE};
    return one_in(2) ? 1 + draw(9) : lengths_beside[draw(COUNT(lengths_beside))];
}

/* Up to one more than there is room for; between them a filemark, or a block of any length. */
static inline void write_some(unsigned blocks)
{
    send_fixed(WRITE, one_in(6) ? 0 : 1 + draw(blocks + 1));
    switch (draw(4)) {
    case 0: send(WRITE_FILEMARKS, 0, 1); break;
    case 1: send(WRITE, 0, one_in(3) ? MOUNTED_LENGTH : odd_length()); break;
    default: send(LOCATE, CP, draw(blocks + 1)); break;
    }
}

static inline void read_some(unsigned blocks)
{
    send(LOCATE, CP, one_in(2) ? 0 : draw(blocks + 2));
    switch (draw(4)) {
    case 0: send(READ, SILI, one_in(3) ? MOUNTED_LENGTH : odd_length()); break;
    case 1: send(READ, one_in(8) ? FIXED | SILI : 0, odd_length()); break;
    default: send_fixed(READ, one_in(8) ? 0 : 1 + draw(blocks + 1)); break;
    }
}

/* ---- what keeps the length, and what sets another */

static inline void load_and_unload(void)
{
    send(LOAD_UNLOAD, 0, LOAD);
    send(MODE_SENSE, 0, MODE_BYTES);
    send(LOAD_UNLOAD, 0, 0);
    send(READ, FIXED, draw(3));
    send(MODE_SENSE, 0, MODE_BYTES);
    call_mount();
}

static inline void select_another(void)
{
    static const uint32_t selected[] = {0, 0, 1, 512, MOUNTED_LENGTH - 1, LARGEST_BEFORE};
    set_length_of_blocks(selected[draw(COUNT(selected))]);
    send(LOCATE, CP, 0);
    send(READ, SILI, 1 + draw(9));
    send(LOCATE, CP, 0);
    send_fixed(READ, 1);
}

/* ---- the work */

static inline void run_blocks(enum slice partition, unsigned blocks)
{
    mount_blank(partition, blocks);
    begin_mounted();
    for (int i = 0; i < 4; i++)
        write_some(blocks);
    for (int i = 0; i < 5; i++)
        read_some(blocks);
    load_and_unload();
    begin_mounted();
    write_some(blocks);
    select_another();
    load_and_unload();
    begin_mounted();
    read_some(blocks);
}

/* In either partition, with room for none up to four. */
static inline void run_mounted(void)
{
    for (unsigned blocks = 0; blocks <= 4; blocks++)
        run_blocks(either_partition(), blocks);
}

#endif
