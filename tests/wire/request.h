/* request.h: what a host sends, whichever way it goes to the drive. */
#ifndef REQUEST_H
#define REQUEST_H

#include <stdint.h>
#include <stdio.h>
#include <stdlib.h>

/* The status of a command that the wire did not answer: no drive gives it. */
enum { NO_ANSWER = -1 };

/* A command block, and what goes with it in one direction or none. The lengths are what the initiator announces on the
 * wire; the command block may claim others. */
struct request {
    const uint8_t *command;
    size_t command_length;
    const uint8_t *sent;
    size_t sent_length;
    uint8_t *room;
    size_t room_length;
};

static inline size_t at_most(size_t number, size_t bound)
{
    return number < bound ? number : bound;
}

/* Not a check that fails, but a test that cannot go on. */
static inline void give_up(const char *doing, const char *why)
{
    fflush(stdout);
    fprintf(stderr, "%s: %s\n", doing, why);
    exit(EXIT_FAILURE);
}

#endif
