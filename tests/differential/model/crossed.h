/* crossed.h: the fourth number of a command's answer in plain C, from document 02 alone, and the slips that tell
 * another one. SPACE tells what it crossed; "every other call, refusals included, answers 0 there". */
#ifndef MODEL_CROSSED_H
#define MODEL_CROSSED_H

#include "moves.h"

enum { CROSSED_BITS = 28 };

static inline int is_space(uint8_t code)
{
    return code == SPACE || code == SPACE_16;
}

/* Whether a test has ended the command before its act: an attention, 5/.. or 2/3A/00. */
static inline int is_stopped(const struct session *s)
{
    uint8_t key = s->sense[STORMTOGGLE_SENSE_KEY];
    return s->check_condition && (key == KEY_ATTENTION || key == KEY_ILLEGAL || key == KEY_NOT_READY);
}

/* ---- slips of a SPACE that acts */

/* Those that count other objects than the ones crossed, or none of them. */
static inline uint64_t miscounted(const struct session *s)
{
    uint8_t code = s->block[1];
    int to_end = code == TO_END_OF_DATA, at_filemark = (s->sense[STORMTOGGLE_SENSE_KEY] & STORMTOGGLE_FILEMARK) != 0;
    const struct tape *tape = &s->tape[s->current];
    switch (FAULT) {
    case 76: return to_end ? s->crossed : s->counted;
    case 77: return s->crossed - (uint64_t)at_filemark;
    case 78: return code == FILEMARKS ? s->filemarks_crossed : s->crossed;
    case 79: return s->crossed - s->filemarks_crossed;
    case 80: return to_end ? 0 : s->crossed;
    case 81: return s->asked == 0 ? 0 : s->crossed;
    case 82: return s->asked == 0 && !to_end && s->position < tape->count ? 1 : s->crossed;
    case 93: return s->crossed - (s->crossed > 0 && s->crossed == tape->count);
    default: return s->crossed;
    }
}

/* Those that tell it in some cases alone, or another number in its place. */
static inline uint64_t mistold(const struct session *s, uint64_t crossed)
{
    uint64_t asked = s->asked < 0 ? -(uint64_t)s->asked : (uint64_t)s->asked;
    uint8_t key = s->sense[STORMTOGGLE_SENSE_KEY];
    int back = s->position < s->began_at, at_edge = s->check_condition && (key & STORMTOGGLE_FILEMARK) == 0;
    switch (FAULT) {
    case 83: return s->block[0] == SPACE_16 ? 0 : crossed;
    case 84: return s->block[0] == SPACE ? 0 : crossed;
    case 85: return s->check_condition ? 0 : crossed;
    case 86: return s->check_condition ? crossed : 0;
    case 87: return back ? 0 : crossed;
    case 88: return back ? -crossed : crossed;
    case 89: return at_edge ? 0 : crossed;
    case 90: return s->check_condition ? (uint64_t)s->residue : 0;
    case 91: return asked;
    case 92: return s->position;
    case 94: return s->current == 1 ? 0 : crossed;
    case 116: return 0;
    default: return cut(cut(cut(crossed, 95, 16), 96, 20), 97, 24);
    }
}

/* ---- slips of other calls, and of a SPACE that crosses nothing */

/* The call before was a SPACE, and this one tells of it. */
static inline uint64_t told_again(const struct session *s)
{
    uint8_t key = s->check_condition ? s->sense[STORMTOGGLE_SENSE_KEY] : 0;
    int is_told = 0, of_space = is_space(s->block[0]);
    switch (FAULT) {
    case 107: is_told = key == KEY_ATTENTION; break;
    case 108: is_told = key == KEY_ILLEGAL && of_space; break;
    case 109: is_told = key == KEY_NOT_READY && of_space; break;
    case 113: is_told = key != KEY_ATTENTION && !of_space; break;
    case 115: is_told = !is_stopped(s) && of_space && s->crossed == 0; break;
    default: break;
    }
    return is_told ? s->crossed_then : 0;
}

/* Other commands that move. */
static inline uint64_t told_by_another(const struct session *s)
{
    static const struct {
        int fault;
        uint8_t code;
    } tellers[] = {{100, LOCATE}, {101, LOCATE_16}, {102, READ}, {103, WRITE}, {104, WRITE_FILEMARKS}, {105, REWIND},
                   {106, LOAD_UNLOAD}};
    for (size_t i = 0; i < COUNT(tellers); i++)
        if (FAULT == tellers[i].fault && s->block[0] == tellers[i].code)
            return distance_gone(s);
    return 0;
}

/* ---- the number */

/* Nothing but SPACE crosses, and a SPACE that a test has ended has crossed nothing. */
static inline uint64_t told_as_crossed(const struct session *s)
{
    if (FAULT == 0)
        return s->crossed;
    if (is_space(s->block[0]) && !is_stopped(s) && FAULT != 115)
        return mistold(s, miscounted(s)) & ((UINT64_C(1) << CROSSED_BITS) - 1);
    return s->crossed + told_again(s) + told_by_another(s);
}

/* Of a command that is refused. The slips tell of the call before, or of what would have been. */
static inline uint64_t refused_command(const struct session *s, unsigned number)
{
    int fault = number == BY_COMMAND ? 110 : 111, is_told = FAULT == fault && s->block != NULL && is_space(s->block[0]);
    return refused(number) | answered(0, 0, is_told ? s->crossed_then : 0);
}

static inline uint64_t refused_after_all(struct session *s, const uint64_t length[2])
{
    struct tape *tape = &s->tape[s->current];
    if (FAULT != 112 || !is_space(s->block[0]) || fields_are_wrong(s, served_as(s->block[0])))
        return refused_command(s, BY_DRIVE);
    if (decode(tape, s->image[s->current], length[s->current]) && s->position <= tape->count)
        space(s, s->block[0] == SPACE ? signed_count_of(s->block) : long_count_of(s->block));
    return refused(BY_DRIVE) | answered(0, 0, s->crossed);
}

#endif
