/* check.h: counted checks, answers, big-endian words and random numbers, shared by the host-side tests. */
#ifndef CHECK_H
#define CHECK_H

#include "numbers.h"
#include <inttypes.h>
#include <stdarg.h>
#include <stdint.h>
#include <stdio.h>
#include <stdlib.h>
#include <string.h>
#include <sys/wait.h>
#include <unistd.h>

#define COUNT(array) (sizeof(array) / sizeof *(array))
#define BEYOND_32_BITS (UINT64_C(1) << 32)

/* The whole answer of a house service. */
#define DONE UINT64_C(0)
#define REFUSED(number) ((uint64_t)(number) << ANSWER_REFUSAL)

/* The view of a block. */
#define FOUND(start, length) ((uint64_t)(start) << VIEW_START | (length))

static unsigned long checks_passed, checks_failed;

/* A check that holds prints nothing. Each takes, last, a printf format and its arguments: what is checked. */
#define expect(holds, ...) count_check((holds), __FILE__, __LINE__, __VA_ARGS__)
#define expect_equal(got, want, ...) compare_numbers((got), (want), __FILE__, __LINE__, __VA_ARGS__)
#define expect_bytes(got, want, length, ...) compare_bytes((got), (want), (length), __FILE__, __LINE__, __VA_ARGS__)

/* The condition is evaluated in a child, so that a store to a read-only page fails this check and ends no other. */
#define expect_in_child(holds, ...)                                      \
    do {                                                                 \
        pid_t child = fork();                                            \
        if (child == 0)                                                  \
            _exit(!(holds));                                             \
        count_check(ended_well(child), __FILE__, __LINE__, __VA_ARGS__); \
    } while (0)

/* Ends the line of a failed check, and flushes it so that a crash cannot take it along. */
static inline void say_what(const char *format, va_list arguments)
{
    checks_failed++;
    vprintf(format, arguments);
    printf("\n");
    fflush(stdout);
}

static inline void count_check(int holds, const char *file, int line, const char *format, ...)
{
    va_list arguments;
    if (holds) {
        checks_passed++;
        return;
    }
    printf("%s:%d: does not hold: ", file, line);
    va_start(arguments, format);
    say_what(format, arguments);
    va_end(arguments);
}

static inline void compare_numbers(uint64_t got, uint64_t want, const char *file, int line, const char *format, ...)
{
    va_list arguments;
    if (got == want) {
        checks_passed++;
        return;
    }
    printf("%s:%d: got %016" PRIx64 "h, expected %016" PRIx64 "h: ", file, line, got, want);
    va_start(arguments, format);
    say_what(format, arguments);
    va_end(arguments);
}

static inline void compare_bytes(const uint8_t *got, const uint8_t *want, size_t length, const char *file, int line,
                                 const char *format, ...)
{
    va_list arguments;
    size_t i = 0;
    if (length == 0 || memcmp(got, want, length) == 0) {
        checks_passed++;
        return;
    }
    while (got[i] == want[i])
        i++;
    printf("%s:%d: byte %zu is %02xh, expected %02xh: ", file, line, i, got[i], want[i]);
    va_start(arguments, format);
    say_what(format, arguments);
    va_end(arguments);
}

static inline int ended_well(pid_t child)
{
    int status;
    return child > 0 && waitpid(child, &status, 0) == child && WIFEXITED(status) && WEXITSTATUS(status) == 0;
}

/* The last line of a test program, and its exit status. */
static inline int tally(void)
{
    printf("%lu passed, %lu failed\n", checks_passed, checks_failed);
    return checks_failed > 0;
}

static inline uint32_t get32(const uint8_t *at)
{
    return (uint32_t)at[0] << 24 | (uint32_t)at[1] << 16 | (uint32_t)at[2] << 8 | at[3];
}

static inline void put32(uint8_t *at, uint32_t value)
{
    at[0] = (uint8_t)(value >> 24);
    at[1] = (uint8_t)(value >> 16);
    at[2] = (uint8_t)(value >> 8);
    at[3] = (uint8_t)value;
}

static inline uint64_t get64(const uint8_t *at)
{
    return (uint64_t)get32(at) << 32 | get32(at + 4);
}

static inline void put64(uint8_t *at, uint64_t value)
{
    put32(at, (uint32_t)(value >> 32));
    put32(at + 4, (uint32_t)value);
}

/* The same numbers in every run. */
static inline uint32_t random_below(uint32_t bound)
{
    static uint64_t state = 88172645463325252;
    state ^= state << 13;
    state ^= state >> 7;
    state ^= state << 17;
    return (uint32_t)(state >> 32) % bound;
}

#endif
