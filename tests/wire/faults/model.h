/* model.h: what a cartridge of two partitions must hold, by the commands that were sent to its drive and answered: what
 * stands, and what of it is final. With the two files that carry it from one kill of the daemon to the next: the state,
 * and the journal of what was sent since.
 *
 * What is final is on the file's pages. The daemon changes them only at a final point (WRITE FILEMARKS, ERASE, an
 * unload; it would do so too if more than 64 MiB waited, which these partitions have no room for), partition 0 before
 * 1, and in a partition in an order by which the file always holds one of three tapes:
 *   BEFORE  what was final before,
 *   CUT     of that, the objects below the lowest that was changed since,
 *   NOW     what stands.
 * So after a kill each partition holds its BEFORE, exactly, unless the command that the kill fell into is a final
 * point; and then one of the three, partition 1 not CUT or NOW unless partition 0 is NOW. */
#ifndef MODEL_H
#define MODEL_H

#include <inttypes.h>
#include <stdint.h>
#include <stdio.h>
#include <stdlib.h>
#include <string.h>

enum { PARTITIONS = 2, MOST_OBJECTS = 1 << 16 };

/* A block is known by its number, from which its bytes follow; a filemark has length 0. */
struct object {
    uint64_t number;
    uint32_t length;
};

struct tape {
    uint32_t count;
    struct object objects[MOST_OBJECTS];
};

struct model {
    struct tape before[PARTITIONS], now[PARTITIONS];
    uint32_t lowest[PARTITIONS]; /* no object below it has changed since BEFORE */
    unsigned partition;
    uint32_t position;
    uint64_t next_number;
};

/* One command, as the journal has it: what is done, and with which numbers. */
enum kind { NO_COMMAND = '-', PUT = 'W', MARK = 'F', WIPE = 'E', GO = 'L', UNLOAD = 'U', LOAD = 'M' };
struct act {
    char kind;
    uint64_t first;  /* PUT: the block's number; MARK: how many; WIPE: whether long; GO: the partition */
    uint32_t second; /* PUT: the block's length; GO: the object */
};

/* How it was answered: GOOD; by the transport, that it had no daemon to hand it to; not at all. */
enum { ANSWERED = 'a', NOT_BEGUN = 'n', FELL = 'x' };

static inline const char *kind_in_words(char kind)
{
    switch (kind) {
    case PUT: return "WRITE";
    case MARK: return "WRITE-FILEMARKS";
    case WIPE: return "ERASE";
    case GO: return "LOCATE";
    case UNLOAD: return "UNLOAD";
    case LOAD: return "LOAD";
    default: return "none";
    }
}

static inline int is_final_point(char kind)
{
    return kind == MARK || kind == WIPE || kind == UNLOAD;
}

/* ---- what a command does */

static inline void cut_tape(struct model *m)
{
    unsigned p = m->partition;
    m->now[p].count = m->position;
    m->lowest[p] = m->position < m->lowest[p] ? m->position : m->lowest[p];
}

static inline void put_object(struct model *m, struct object object)
{
    struct tape *t = &m->now[m->partition];
    cut_tape(m);
    if (t->count >= MOST_OBJECTS) {
        fprintf(stderr, "more objects than the model has room for\n");
        exit(EXIT_FAILURE);
    }
    t->objects[t->count++] = object;
    m->position++;
}

static inline void go_to(struct model *m, unsigned partition, uint32_t object)
{
    m->partition = partition % PARTITIONS;
    m->position = object;
}

static inline void carry_out(struct model *m, struct act a)
{
    if (a.kind == PUT)
        put_object(m, (struct object){a.first, a.second});
    for (uint64_t i = 0; a.kind == MARK && i < a.first; i++)
        put_object(m, (struct object){0, 0});
    if (a.kind == WIPE)
        cut_tape(m);
    if (a.kind == GO)
        go_to(m, (unsigned)a.first, a.second);
    if (a.kind == UNLOAD || a.kind == LOAD)
        go_to(m, 0, 0);
    if (a.kind == PUT)
        m->next_number = a.first + 1;
}

static inline void copy_tape(struct tape *to, const struct tape *from)
{
    to->count = from->count;
    memcpy(to->objects, from->objects, from->count * sizeof *from->objects);
}

static inline void make_model_final(struct model *m)
{
    for (int p = 0; p < PARTITIONS; p++) {
        copy_tape(&m->before[p], &m->now[p]);
        m->lowest[p] = UINT32_MAX;
    }
}

/* A command that was answered GOOD. */
static inline void take(struct model *m, struct act a)
{
    carry_out(m, a);
    if (is_final_point(a.kind))
        make_model_final(m);
}

/* ---- the state: for each partition how many objects, then the number and length of each */

static inline int read_tape(FILE *from, struct tape *t)
{
    if (fscanf(from, "%" SCNu32, &t->count) != 1 || t->count > MOST_OBJECTS)
        return 0;
    for (uint32_t i = 0; i < t->count; i++)
        if (fscanf(from, "%" SCNu64 " %" SCNu32, &t->objects[i].number, &t->objects[i].length) != 2)
            return 0;
    return 1;
}

/* A drive that has just mounted what the state tells. */
static inline int read_state(struct model *m, const char *name)
{
    FILE *from = fopen(name, "r");
    int is_read = from != NULL && fscanf(from, "%" SCNu64, &m->next_number) == 1 && read_tape(from, &m->now[0]) &&
                  read_tape(from, &m->now[1]);
    if (from != NULL)
        fclose(from);
    if (!is_read)
        return 0;
    go_to(m, 0, 0);
    make_model_final(m);
    return 1;
}

static inline void write_tape(FILE *to, const struct tape *t)
{
    fprintf(to, "%" PRIu32 "\n", t->count);
    for (uint32_t i = 0; i < t->count; i++)
        fprintf(to, "%" PRIu64 " %" PRIu32 "\n", t->objects[i].number, t->objects[i].length);
}

static inline int write_state(const char *name, uint64_t next_number, const struct tape *const tapes[PARTITIONS])
{
    FILE *to = fopen(name, "w");
    if (to == NULL)
        return 0;
    fprintf(to, "%" PRIu64 "\n", next_number);
    for (int p = 0; p < PARTITIONS; p++)
        write_tape(to, tapes[p]);
    return fclose(to) == 0;
}

/* ---- the journal: a line for each command before it is sent, one letter behind it when its answer came */

static inline int write_act(char *line, size_t room, struct act a)
{
    return snprintf(line, room, "\n%c %" PRIu64 " %" PRIu32 " ", a.kind, a.first, a.second);
}

/* False at the journal's end. A command that no letter follows was sent and not answered. */
static inline int read_act(FILE *journal, struct act *a, char *answer)
{
    if (fscanf(journal, " %c %" SCNu64 " %" SCNu32, &a->kind, &a->first, &a->second) != 3)
        return 0;
    *answer = FELL;
    int next = fgetc(journal);
    if (next == ' ')
        next = fgetc(journal);
    if (next == ANSWERED || next == NOT_BEGUN)
        *answer = (char)next;
    return 1;
}

#endif
