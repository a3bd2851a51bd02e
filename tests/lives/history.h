/* history.h: the list of a partition's puts and cuts, and what stands by the words of demand 3 alone. */
#ifndef HISTORY_H
#define HISTORY_H

#include "../check.h"

enum event_kind { PUT_BLOCK, PUT_FILEMARK, CUT };

struct event {
    enum event_kind kind;
    uint32_t number;      /* of the object that was put, or the one from which on was erased */
    uint32_t length;      /* of a block */
    const uint8_t *bytes; /* of a block: those that were sent, which stay as they are for the whole run */
};

struct list {
    struct event *events;
    size_t count, capacity;
};

/* ---- the rule */

/* Whether, since this event, no command has put an object at a number k or lower, or erased from such a number. */
static inline int undisturbed_since(const struct list *list, size_t event, uint64_t k)
{
    for (size_t later = event + 1; later < list->count; later++)
        if (list->events[later].number <= k)
            return 0;
    return 1;
}

/* The object that stands at number k: some command put it there, and it is undisturbed since. NULL if none does. */
static inline const struct event *standing(const struct list *list, uint64_t k)
{
    for (size_t i = 0; i < list->count; i++)
        if (list->events[i].kind != CUT && list->events[i].number == k && undisturbed_since(list, i, k))
            return &list->events[i];
    return NULL;
}

/* ---- the lists */

/* The whole list of a life, and those of its puts that may still stand, in the same order. */
struct history {
    struct list whole, kept;
};

static inline void append(struct list *list, struct event event)
{
    if (list->count == list->capacity) {
        list->capacity = 2 * list->capacity + 64;
        list->events = realloc(list->events, list->capacity * sizeof *list->events);
        if (list->events == NULL)
            abort();
    }
    list->events[list->count++] = event;
}

/* The puts at this number and above can no longer stand, and a cut says no more than that. Those that are kept rise in
 * number, so they are the last ones. */
static inline void note(struct history *history, struct event event)
{
    struct list *kept = &history->kept;
    append(&history->whole, event);
    while (kept->count > 0 && kept->events[kept->count - 1].number >= event.number)
        kept->count--;
    if (event.kind != CUT)
        append(kept, event);
}

/* One more than the highest number in the list. */
static inline uint32_t extent(const struct list *list)
{
    uint32_t beyond = 0;
    for (size_t i = 0; i < list->count; i++)
        if (list->events[i].number >= beyond)
            beyond = list->events[i].number + 1;
    return beyond;
}

/* Of what is kept: where the next object goes if it stands behind all that stand. */
static inline uint32_t end_of(const struct history *history)
{
    const struct list *kept = &history->kept;
    return kept->count == 0 ? 0 : kept->events[kept->count - 1].number + 1;
}

static inline int same_object(const struct event *one, const struct event *other)
{
    if (one == NULL || other == NULL)
        return one == other;
    return one->kind == other->kind && one->length == other->length && one->bytes == other->bytes;
}

/* The first number at which the whole list says another thing than what is kept of it; -1 if there is none. */
static inline int64_t first_difference(const struct history *history)
{
    uint32_t beyond = extent(&history->whole);
    for (uint32_t k = 0; k <= beyond; k++)
        if (!same_object(standing(&history->whole, k), standing(&history->kept, k)))
            return k;
    return end_of(history) > beyond ? (int64_t)end_of(history) - 1 : -1;
}

static inline void forget(struct history *history)
{
    history->whole.count = history->kept.count = 0;
}

#endif
