/* rule.h: Q-12 of document 02 in plain C, from 01 and 02 alone: what one SPACE by a + b must leave, by what those by a
 * and by b have left from the same state. Two calls are held to a third, and none of them to the model. */
#ifndef RULE_H
#define RULE_H

#include "state.h"

/* ---- two moves, and the one in their place */

enum { KEPT_BYTES = 256 };
enum wrong { LAWFUL, TOO_SHORT, OUTSIDE_ITS_MASK };

/* A SPACE, and what the library left behind it. */
struct move {
    uint8_t code; /* SPACE or SPACE (16) */
    int64_t count;
    enum wrong wrong;
    uint64_t answer;
    uint8_t left[SLICES][KEPT_BYTES];
};

static struct pair {
    uint8_t of; /* blocks or filemarks */
    uint8_t record[RECORD_BYTES];
    struct move first, second, one;
} pair;

static inline int fits_24_bits(int64_t count)
{
    return count >= -COUNT_SIGN && count < COUNT_SIGN;
}

/* Whether a + b is a number of 64 signed bits. */
static inline int sum_fits(int64_t a, int64_t b)
{
    return b >= 0 ? a <= INT64_MAX - b : a >= INT64_MIN - b;
}

/* "both at least 0 or both at most 0" */
static inline int goes_one_way(void)
{
    int64_t a = pair.first.count, b = pair.second.count;
    return (a >= 0 && b >= 0) || (a <= 0 && b <= 0);
}

/* ---- what a move has come to */

static inline int was_refused(const struct move *move)
{
    return STORMTOGGLE_REFUSAL(move->answer) != 0;
}

static inline int was_good(const struct move *move)
{
    return !was_refused(move) && STORMTOGGLE_STATUS(move->answer) == STORMTOGGLE_GOOD;
}

static inline uint32_t told_behind(const struct move *move)
{
    return told_in(move->left[RECORD]);
}

static inline int was_told_attention(const struct move *move)
{
    return !was_refused(move) && TOLD_KEY(told_behind(move)) == KEY_ATTENTION;
}

/* Whether it came to its act: no refusal, and no test that ends it. */
static inline int came_to_act(const struct move *move)
{
    return !was_refused(move) && has_acted(told_behind(move));
}

/* Whether the rule takes it for GOOD; the slips take more. */
static inline int counts_as_good(const struct move *move)
{
    uint32_t told = told_behind(move);
    if (FAULT == 119 && came_to_act(move) && told == TOLD_FILEMARK)
        return 1;
    if (FAULT == 120 && came_to_act(move) && (is_end_of_data(told) || told == TOLD_BEGINNING))
        return 1;
    if (FAULT == 127 && STORMTOGGLE_STATUS(move->answer) == STORMTOGGLE_GOOD)
        return 1;
    return was_good(move);
}

/* "Residue = count - signed movement of what is counted", by the directory between the positions. */
static inline int64_t residue_behind(const struct move *move)
{
    uint64_t from = position_in(pair.record), to = position_in(move->left[RECORD]), low = smaller(from, to);
    uint64_t distance = from + to - 2 * low, marks = filemarks_in(slice_of(pair.record), low, low + distance);
    int64_t counted = (int64_t)(pair.of == BLOCKS ? distance - marks : marks);
    return move->count < 0 ? move->count + counted : move->count - counted;
}

/* ---- the rule */

/* What the one must leave: no word on it; what the second did; what the first did; the same with a longer residue. */
enum verdict { NO_WORD, AS_THE_SECOND, AS_THE_FIRST, STOPPED_AS_THE_FIRST };

/* Over filemarks Q-12 has no word where the signs are mixed. */
static inline int merges_mixed_signs(void)
{
    int is_home = pair.one.count == 0;
    return pair.of == BLOCKS || (FAULT == 117 && !is_home) || (FAULT == 118 && is_home);
}

static inline enum verdict verdict_on_one(void)
{
    const struct move *first = &pair.first, *second = &pair.second;
    int is_slip = FAULT == 127 && was_refused(first) && first->wrong == TOO_SHORT;
    if ((first->wrong != LAWFUL && !is_slip) || second->wrong != LAWFUL || pair.one.wrong != LAWFUL)
        return NO_WORD;
    if (FAULT == 124 && was_told_attention(first))
        return AS_THE_SECOND;
    if (!came_to_act(first) && !is_slip)
        return AS_THE_FIRST;
    if (FAULT == 129 && second->count == 0)
        return AS_THE_SECOND;
    if (goes_one_way())
        return counts_as_good(first) ? AS_THE_SECOND : STOPPED_AS_THE_FIRST;
    return merges_mixed_signs() && counts_as_good(first) && counts_as_good(second) ? AS_THE_SECOND : NO_WORD;
}

/* Going one way the one crosses as many as both, else the difference; what a test ends crosses nothing. */
static inline uint64_t crossed_wanted(enum verdict verdict)
{
    uint64_t a = STORMTOGGLE_CROSSED(pair.first.answer), b = STORMTOGGLE_CROSSED(pair.second.answer);
    if (verdict != AS_THE_SECOND)
        return a;
    return goes_one_way() || FAULT == 121 ? a + b : a + b - 2 * smaller(a, b);
}

/* The second's count is all left over too; a residue that does not fit is not told. */
static inline void lay_longer_residue(uint8_t *sense)
{
    int64_t residue = residue_behind(&pair.first) + (FAULT == 123 ? 0 : pair.second.count);
    int fits = (residue >= INT32_MIN && residue <= INT32_MAX) || FAULT == 128;
    sense[STORMTOGGLE_SENSE_FIRST] = fits ? STORMTOGGLE_VALID : STORMTOGGLE_NOT_VALID;
    put32(sense + STORMTOGGLE_SENSE_INFORMATION, fits ? (uint32_t)residue : 0);
}

static inline struct move wanted_of_one(enum verdict verdict)
{
    struct move want = verdict == AS_THE_SECOND ? pair.second : pair.first;
    uint8_t *sense = want.left[RECORD] + STORMTOGGLE_RECORD_SENSE;
    want.answer &= (UINT64_C(1) << ANSWER_CROSSED) - 1;
    want.answer |= crossed_wanted(verdict) << ANSWER_CROSSED;
    if (verdict == STOPPED_AS_THE_FIRST)
        lay_longer_residue(sense);
    if (FAULT == 125 && verdict == AS_THE_SECOND)
        memcpy(sense, pair.first.left[RECORD] + STORMTOGGLE_RECORD_SENSE, SENSE_BYTES);
    return want;
}

/* ---- a breach of it */

static inline void name_the_pair(void)
{
    const struct move *first = &pair.first, *second = &pair.second, *one = &pair.one;
    name_the_call();
    printf("SPACE of %s by %" PRId64 " (%02xh, answer %016" PRIx64 "h) and by %" PRId64 " (%02xh, answer %016" PRIx64
           "h), in their place by %" PRId64 " (%02xh, answer %016" PRIx64 "h): ",
           pair.of == BLOCKS ? "blocks" : "filemarks", first->count, first->code, first->answer, second->count,
           second->code, second->answer, one->count, one->code, one->answer);
}

static inline int breaks(int holds, const char *what)
{
    if (holds)
        return 0;
    name_the_pair();
    printf("%s\n", what);
    return 1;
}

static inline int leaves_other_bytes(const struct move *want)
{
    int breach = 0;
    for (int slice = 0; slice < SLICES; slice++)
        if (slice != COMMAND && memcmp(want->left[slice], pair.one.left[slice], twins[slice].length) != 0)
            breach |= breaks(0, slice_names[slice]);
    return breach;
}

/* The one that is GOOD was two that are, one way; where they turn it may hide one that was stopped. */
static inline int hides_a_stop(void)
{
    int is_said = goes_one_way() || (FAULT == 126 && pair.of == BLOCKS);
    return is_said && was_good(&pair.one) && !(was_good(&pair.first) && was_good(&pair.second));
}

/* A breach counts as a mismatch, once for a pair. */
static inline void hold_to_the_rule(void)
{
    enum verdict verdict = verdict_on_one();
    struct move want;
    int breach = 0;
    if (pair.first.wrong == LAWFUL && pair.second.wrong == LAWFUL && pair.one.wrong == LAWFUL)
        breach = breaks(!hides_a_stop(), "the one is GOOD, and the two are not");
    if (verdict != NO_WORD) {
        want = wanted_of_one(verdict);
        breach |= breaks(pair.one.answer == want.answer, "its answer is another than they make");
        breach |= leaves_other_bytes(&want);
    }
    reached.mismatches += (unsigned long)breach;
}

#endif
