/* moves.h: SPACE and LOCATE, short and of sixteen bytes, in plain C, from documents 01 and 02 alone. */
#ifndef MODEL_MOVES_H
#define MODEL_MOVES_H

#include "replies.h"

/* ---- over objects */

/* Goes over the next object, on or back. All that SPACE goes over is counted here, be it a block or a filemark, and
 * whether its count has a use for it or not. */
static inline const struct object *cross(struct session *s, int step)
{
    const struct object *object = &s->tape[s->current].objects[step > 0 ? s->position : s->position - 1];
    s->position = step > 0 ? s->position + 1 : s->position - 1;
    s->crossed++;
    s->filemarks_crossed += (uint64_t)object->is_filemark;
    return object;
}

/* Of SPACE and SPACE (16), which have the code in the same place. */
static inline void walk(struct session *s, int64_t count)
{
    const struct tape *tape = &s->tape[s->current];
    int64_t moved = 0;
    int code = s->block[1];
    if (code == TO_END_OF_DATA) {
        while (s->position < tape->count)
            cross(s, 1);
        slip_at_end(s, 72);
        return;
    }
    while (moved != count) {
        int step = count > 0 ? 1 : -1;
        if (step > 0 && s->position == tape->count) {
            tell_end_of_data(s, count - moved);
            return;
        }
        if (step < 0 && s->position == 0) {
            tell(s, TOLD_BEGINNING, count - moved);
            return;
        }
        if (cross(s, step)->is_filemark == (code == FILEMARKS)) {
            moved += step;
            s->counted++;
        } else if (code == BLOCKS) {
            tell(s, TOLD_FILEMARK, count - moved);
            return;
        }
    }
}

static inline uint64_t distance_gone(const struct session *s)
{
    return s->position > s->began_at ? s->position - s->began_at : s->began_at - s->position;
}

/* 02 says of the objects crossed what it "equals", what it "is never above" and where it "is 0": three things that
 * follow from the walk, so a model of which one does not hold is wrong, and ends the run. */
static inline void space(struct session *s, int64_t count)
{
    int is_none = count == 0 && s->block[1] != TO_END_OF_DATA;
    s->asked = count;
    walk(s, count);
    if (s->crossed != distance_gone(s) || s->crossed > s->tape[s->current].count || (is_none && s->crossed != 0))
        abort();
}

/* ---- to an object */

/* In the current partition; as far as there are any. */
static inline void go_to(struct session *s, uint64_t object)
{
    uint64_t count = s->tape[s->current].count;
    if (FAULT == 10)
        count &= 0xffff;
    s->position = smaller(object, count);
    if (object > count)
        tell_end_of_data(s, 0);
    else if (object == count)
        slip_at_end(s, 73);
}

static inline void locate(struct session *s)
{
    if (names_partition(s->block))
        s->current = partition_of(s->block);
    go_to(s, get32(s->block + AT_OBJECT));
}

/* The slips that do not find a file that is there, though it starts at this object. */
static inline int misses_file(const struct tape *tape, uint64_t file, uint64_t object)
{
    switch (FAULT) {
    case 46: return file > 0 && object == tape->count;
    case 47: return file > 0 && file == filemarks_before(tape, tape->count);
    case 55: return file > 0xffff;
    case 56: return file > 0xffffff;
    default: return 0;
    }
}

/* The object just after so many filemarks, 0 being the beginning; one past N if there are fewer. */
static inline uint64_t start_of_file(const struct session *s, uint64_t file)
{
    const struct tape *tape = &s->tape[s->current];
    uint64_t object = FAULT == 45 && file > 0 ? smaller(s->position, tape->count) : 0, rest = file;
    while (rest > 0 && object < tape->count) {
        rest -= (uint64_t)tape->objects[object].is_filemark;
        object++;
    }
    if (rest > 0 || misses_file(tape, file, object))
        return tape->count + 1;
    return FAULT == 39 && file > 0 ? object - 1 : object;
}

static inline void locate_16(struct session *s)
{
    uint64_t identifier = identifier_of(s->block);
    uint8_t from = s->current;
    if (names_partition(s->block))
        s->current = partition_of(s->block);
    switch (s->block[1] & DESTINATION) {
    case TO_OBJECT: go_to(s, identifier); break;
    case TO_END: go_to(s, FAULT == 53 ? identifier : s->tape[s->current].count); break;
    default: go_to(s, start_of_file(s, identifier)); break; /* TO_FILE */
    }
    if (FAULT == 52 && s->check_condition) {
        s->current = from;
        s->position = s->tape[from].count;
    }
}

#endif
