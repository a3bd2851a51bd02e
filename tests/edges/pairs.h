/* pairs.h: a case of two moves or one: what each of the three calls must leave, and how the one ends beside the two. */
#ifndef EDGES_PAIRS_H
#define EDGES_PAIRS_H

#include "long.h"

/* ---- a row: two moves, and the one in their place */

/* A call, and what it must leave. All else of the drive stays but for an attention, which is told and gone. */
struct move {
    struct bytes command;
    uint32_t to, crossed;
    struct told told;
    unsigned refusal;
    size_t reads;
};

/* How the one ends, beside the two. */
enum relation {
    ONE_WAY,  /* it leaves every byte and the status as they do, and crosses as many as both together */
    TURNED,   /* the same, but it crosses only what one of them has crossed more than the other */
    AS_FIRST, /* it stops where the first does, and tells the same but for the residue, so the second is not done */
    ELSEWHERE /* it leaves another record */
};

struct merged {
    const char *what;
    enum cartridge p0;
    struct drive start;
    struct move first, second, one;
    enum relation relation;
    enum cartridge p1;
    struct move between; /* if it has a command block */
};

/* What a move leaves: the position and how many objects it crosses, and what it tells if it is not GOOD. */
#define GOES(position, objects) .to = position, .crossed = objects
#define TELLS(position, objects, what_is_told) GOES(position, objects), .told = what_is_told
#define STOPS(position, objects, number, residue) TELLS(position, objects, RESIDUE(number, residue))

/* The same by SPACE, by SPACE (16), and with a SPACE (16) behind a SPACE. Last stands the relation, and what there is
 * beside it. */
#define BY_EACH(what, cartridge, start, code, a, first, b, second, sum, one, ...)                             \
    {what, cartridge, start, {SIX(SPACE, code, a), first}, {SIX(SPACE, code, b), second},                     \
     {SIX(SPACE, code, sum), one}, .relation = __VA_ARGS__},                                                  \
    {what ", by SPACE (16)", cartridge, start, {SPACE_16(code, a), first}, {SPACE_16(code, b), second},       \
     {SPACE_16(code, sum), one}, .relation = __VA_ARGS__},                                                    \
    {what ", by one of each", cartridge, start, {SIX(SPACE, code, a), first}, {SPACE_16(code, b), second},    \
     {SIX(SPACE, code, sum), one}, .relation = __VA_ARGS__}

/* With counts that only eight bytes hold. */
#define BY_16(what, cartridge, start, code, a, first, b, second, sum, one, ...)                               \
    {what, cartridge, start, {SPACE_16(code, a), first}, {SPACE_16(code, b), second},                         \
     {SPACE_16(code, sum), one}, .relation = __VA_ARGS__}

/* ---- each call of a row, held whole as any other case is */

static struct edge edge_of(const struct merged *row, const struct drive *before, const struct move *move)
{
    struct edge edge = {.what = row->what, .p0 = row->p0, .p1 = row->p1, .command = move->command, .before = *before,
                        .sent = 5, .room = 9, .refusal = move->refusal, .after = *before, .told = move->told,
                        .crossed = move->crossed, .reads = move->reads};
    edge.after.position = move->to;
    edge.after.attention = ATTENTION_NONE;
    return edge;
}

/* Returns the drive that the move must leave. */
static struct drive run_move(const struct merged *row, const struct drive *before, const struct move *move)
{
    struct edge edge = edge_of(row, before, move);
    uint8_t record[RECORD_BYTES];
    run(&edge, 1);
    if (move->refusal != 0)
        return *before;
    lay_told(record, &edge.after, &edge.told);
    return drive_of(record);
}

static void run_moves(const struct merged *row)
{
    struct drive left = run_move(row, &row->start, &row->first);
    if (row->between.command.length > 0)
        left = run_move(row, &left, &row->between);
    run_move(row, &left, &row->second);
    run_move(row, &row->start, &row->one);
}

/* ---- what the library itself leaves behind the two, against what it leaves behind the one */

/* An answer but for the objects crossed. */
#define BUT_CROSSED(answer) ((answer) & ((UINT64_C(1) << ANSWER_CROSSED) - 1))

/* Makes the call on the slices as the last one left them. */
static uint64_t play(const struct call *drive, const struct move *move)
{
    struct bytes block = move->command;
    uint8_t *lent[SPANS];
    size_t length[SPANS];
    memcpy(lent, drive->before, sizeof lent);
    memcpy(length, drive->length, sizeof length);
    lent[THE_COMMAND] = block.at;
    length[THE_COMMAND] = block.length;
    return answer_of(lent, length);
}

static void hold_equal(const struct call *one, const struct call *two, const char *what)
{
    for (int span = 0; span < SPANS; span++)
        if (span != THE_COMMAND)
            expect_bytes(one->before[span], two->before[span], one->length[span], "%s behind the one and the two, %s",
                         span_names[span], what);
}

/* Of the record that the one left, and the one that the first of the two left. */
static void hold_as_first(const uint8_t *one, const uint8_t *first, const char *what)
{
    expect_bytes(one, first, STORMTOGGLE_RECORD_SENSE, "all but the sense behind the one and the first, %s", what);
    expect_equal(told_by(one + STORMTOGGLE_RECORD_SENSE), told_by(first + STORMTOGGLE_RECORD_SENSE),
                 "what the one and the first tell, %s", what);
}

/* Of the answers: going one way the one crosses as many as both, and where they turn, twice the smaller fewer. */
static void hold_answers(const struct merged *row, uint64_t one, uint64_t first, uint64_t second)
{
    uint32_t a = STORMTOGGLE_CROSSED(first), b = STORMTOGGLE_CROSSED(second), smaller = a < b ? a : b;
    expect_equal(BUT_CROSSED(one), BUT_CROSSED(second), "answers of the one and the second, %s", row->what);
    expect_equal(STORMTOGGLE_CROSSED(one), row->relation == TURNED ? a + b - 2 * smaller : a + b,
                 "objects crossed by the one and the two, %s", row->what);
}

static void hold_relation(const struct merged *row)
{
    struct edge edge = edge_of(row, &row->start, &row->first);
    struct call two = call_of(&edge), one = call_of(&edge);
    uint64_t alone = play(&one, &row->one), first = play(&two, &row->first), second;
    uint8_t behind_first[RECORD_BYTES];
    memcpy(behind_first, two.before[THE_RECORD], RECORD_BYTES);
    if (row->between.command.length > 0)
        play(&two, &row->between);
    second = play(&two, &row->second);
    if (row->relation == ONE_WAY || row->relation == TURNED) {
        hold_equal(&one, &two, row->what);
        hold_answers(row, alone, first, second);
    } else if (row->relation == AS_FIRST) {
        expect_equal(alone, first, "answers of the one and the first, %s", row->what);
        hold_as_first(one.before[THE_RECORD], behind_first, row->what);
    } else {
        expect(memcmp(one.before[THE_RECORD], two.before[THE_RECORD], RECORD_BYTES) != 0, "the one ends elsewhere, %s",
               row->what);
    }
    free_call(&two);
    free_call(&one);
}

static void run_merged(const struct merged *rows, size_t count)
{
    for (const struct merged *row = rows; row < rows + count; row++) {
        run_moves(row);
        for (size_t i = 0; i < lengths_of(&row->start); i++) {
            struct merged named = *row;
            named.start = with_length(row->start, either_length[i]);
            hold_relation(&named);
        }
    }
}

#endif
