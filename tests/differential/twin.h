/* twin.h: one call on both sides, the model's and the library's, and all that it leaves compared. */
#ifndef TWIN_H
#define TWIN_H

#include "heard.h"
#include <signal.h>

/* Enough to see what is wrong; more would only repeat it. */
enum { MISMATCHES_SHOWN = FAULT == 0 ? 20 : 1 };

static inline int is_over(void)
{
    return reached.calls >= reached.wanted || reached.mismatches >= MISMATCHES_SHOWN;
}

/* ---- a call */

static inline uint64_t invoke(enum side side, const struct call *call)
{
    uint8_t *at[SLICES];
    size_t n[SLICES];
    int by_model = side == MODEL;
    for (int i = 0; i < SLICES; i++) {
        n[i] = twins[i].length;
        at[i] = n[i] == 0 && call->empty_is_null ? NULL : bytes_of((enum slice)i, side);
    }
    switch (call->service) {
    case FRESH: return (by_model ? model_fresh : stormtoggle_fresh)(at[RECORD], n[RECORD]);
    case BLANK: return (by_model ? model_blank : stormtoggle_blank)(at[call->image], n[call->image]);
    case MOUNT:
        return (by_model ? model_mount : stormtoggle_mount)(at[RECORD], n[RECORD], at[P0], n[P0], at[P1], n[P1]);
    case PROTECT:
        return (by_model ? model_protect : stormtoggle_protect)(at[call->image], n[call->image], call->number_1);
    case VIEW:
        return (by_model ? model_view : stormtoggle_view)(at[P0], n[P0], at[P1], n[P1], call->number_1, call->number_2);
    default:
        return (by_model ? model_command : stormtoggle_command)(
            at[RECORD], n[RECORD], at[COMMAND], n[COMMAND], at[P0], n[P0], at[P1], n[P1], at[SENT], n[SENT],
            at[RECEIVED], n[RECEIVED]);
    }
}

/* ---- what is said of a call that fails */

static enum { IN_MODEL = MODEL, IN_LIBRARY = LIBRARY, IN_NEITHER } running = IN_NEITHER;

static inline void name_the_call(void)
{
    printf("seed %" PRIu64 ", call %lu, %s (%d, %" PRIx64 "h, %" PRIx64 "h), block", seed, reached.calls,
           service_names[latest.service], (int)latest.image, latest.number_1, latest.number_2);
    for (size_t i = 0; i < twins[COMMAND].length && i < 16; i++)
        printf(" %02x", bytes_of(COMMAND, MODEL)[i]);
    printf(", record was");
    for (size_t i = 0; i < twins[RECORD].length && i < sizeof record_before; i++)
        printf(" %02x", record_before[i]);
    printf(", lengths");
    for (int i = 0; i < SLICES; i++)
        printf(" %zu", twins[i].length);
    printf(": ");
}

/* The line that a run ends with, but for its end. */
static inline void print_totals(void)
{
    printf("seed %" PRIu64 ", %lu calls, %lu mismatches", seed, reached.calls, reached.mismatches);
}

/* Ends the run with the mismatch that was just told of. */
static inline void cut_short(void)
{
    reached.mismatches++;
    print_totals();
    printf(", cut short by the last\n");
    fflush(stdout);
    _exit(1);
}

/* Whether the fault is a first store to a piece of a sparse room, by the side whose room it is. */
static inline int may_store(const uint8_t *address)
{
    enum side side;
    struct twin *twin = room_with(address, &side);
    if (twin == NULL || (running != IN_NEITHER && (int)running != (int)side))
        return 0;
    return !(running == IN_LIBRARY && sealed[twin - twins]) && open_piece(twin, side, address);
}

/* Not safe in a handler in general; here nothing that is interrupted prints. */
static inline void on_fault(int signal_number, siginfo_t *fault, void *context)
{
    static const char *const names[] = {"model", "library", "work between the calls"};
    (void)context;
    if (signal_number == SIGSEGV && may_store(fault->si_addr))
        return;
    name_the_call();
    printf("signal %d in the %s\n", signal_number, names[running]);
    for (int i = 0; i < SLICES; i++)
        if (sealed[i])
            printf("%s is lent on read-only pages\n", slice_names[i]);
    cut_short();
}

static inline void catch_faults(void (*handler)(int, siginfo_t *, void *))
{
    struct sigaction action;
    memset(&action, 0, sizeof action);
    action.sa_sigaction = handler;
    action.sa_flags = SA_SIGINFO;
    sigaction(SIGSEGV, &action, NULL);
    sigaction(SIGBUS, &action, NULL);
    sigaction(SIGILL, &action, NULL);
    sigaction(SIGABRT, &action, NULL);
}

/* ---- the comparison */

static inline int answer_differs(uint64_t by_library, uint64_t by_model)
{
    if (by_library == by_model)
        return 0;
    name_the_call();
    printf("answer %016" PRIx64 "h, the model has %016" PRIx64 "h\n", by_library, by_model);
    return 1;
}

/* The first byte of a room's part that differs, or its end. */
static inline size_t difference_in(const struct twin *twin, size_t from, size_t to)
{
    const uint8_t *model = twin->room[MODEL], *library = twin->room[LIBRARY];
    if (memcmp(model + from, library + from, to - from) == 0)
        return to;
    while (model[from] == library[from])
        from++;
    return from;
}

/* Of a sparse room all that either side has stored to, of another the slice and what lies around it. */
static inline size_t first_difference(const struct twin *twin)
{
    size_t from = twin->at < MARGIN ? 0 : twin->at - MARGIN, to = twin->at + twin->length + MARGIN, at;
    if (!is_sparse(twin)) {
        to = smaller(to, twin->room_length);
        at = difference_in(twin, from, to);
        return at < to ? at : twin->room_length;
    }
    for (size_t piece = 0; piece < pieces_of(twin); piece++)
        if (twin->open[MODEL][piece] || twin->open[LIBRARY][piece]) {
            to = (piece + 1) * PIECE;
            at = difference_in(twin, piece * PIECE, to);
            if (at < to)
                return at;
        }
    return twin->room_length;
}

/* The library's side then takes the model's bytes, so that one mismatch is counted once. Not in a sparse room, of which
 * there is too much: a run that differs there shows what follows from it too. */
static inline int slice_differs(enum slice slice)
{
    const struct twin *twin = &twins[slice];
    size_t at = first_difference(twin);
    if (at == twin->room_length)
        return 0;
    name_the_call();
    printf("%s, byte %lld of %zu is %02xh, the model has %02xh\n", slice_names[slice],
           (long long)at - (long long)twin->at, twin->length, twin->room[LIBRARY][at], twin->room[MODEL][at]);
    if (!is_sparse(twin))
        memcpy(twin->room[LIBRARY], twin->room[MODEL], twin->room_length);
    return 1;
}

/* Whether the call has just left something to tell: CHECK CONDITION, or the attention of a fresh record or a mount. */
static inline int leaves_to_tell(uint64_t answer)
{
    switch (latest.service) {
    case A_COMMAND: return STORMTOGGLE_STATUS(answer) != STORMTOGGLE_GOOD;
    case FRESH: case MOUNT: return STORMTOGGLE_REFUSAL(answer) == 0;
    default: return 0;
    }
}

/* Whether a host hears one thing of it by one form, and another by the other. */
static inline int forms_differ(uint64_t answer)
{
    const char *otherwise;
    if (!leaves_to_tell(answer))
        return 0;
    count_heard(bytes_of(RECORD, LIBRARY));
    otherwise = heard_otherwise();
    if (otherwise == NULL)
        return 0;
    name_the_call();
    printf("its sense in both forms: %s\n", otherwise);
    return 1;
}

/* ---- read-only pages */

/* Whether the call lays bytes on this partition, even if they stood there already: an object again, or zeros. */
static inline int lays_bytes(enum slice slice, uint64_t answer)
{
    const uint8_t *block = bytes_of(COMMAND, MODEL);
    enum slice current = record_before[STORMTOGGLE_RECORD_CURRENT] == 0 ? P0 : P1;
    uint32_t from = get32(record_before + STORMTOGGLE_RECORD_POSITION);
    if (latest.service != A_COMMAND || STORMTOGGLE_REFUSAL(answer) != 0 || slice != current)
        return 0;
    if (block[0] == ERASE)
        return STORMTOGGLE_STATUS(answer) == STORMTOGGLE_GOOD && block[1] & LONG;
    return (block[0] == WRITE || block[0] == WRITE_FILEMARKS) &&
           get32(bytes_of(RECORD, MODEL) + STORMTOGGLE_RECORD_POSITION) != from;
}

/* Whether the command has handed bytes over; those that a WRITE or a MODE SELECT carries go the other way. */
static inline int is_received(uint64_t answer)
{
    const uint8_t *block = bytes_of(COMMAND, MODEL);
    return latest.service == A_COMMAND && STORMTOGGLE_CARRIED(answer) > 0 && block[0] != WRITE &&
           block[0] != MODE_SELECT;
}

/* Whether no store may go there: the constant slices, a partition that the model left as it was, a buffer to which
 * nothing is carried, the record of a refused call. The library has not been called yet, so its side still tells. */
static inline int is_left(enum slice slice, uint64_t answer)
{
    switch (slice) {
    case RECORD: return latest.service == VIEW || STORMTOGGLE_REFUSAL(answer) != 0;
    case P0: case P1: return !lays_bytes(slice, answer) && first_difference(&twins[slice]) == twins[slice].room_length;
    case RECEIVED: return !is_received(answer);
    default: return 1;
    }
}

/* Of the pages that hold the slice; the pieces of a sparse room stay closed by themselves. */
static inline void set_access(const struct twin *twin, int access)
{
    size_t from = twin->at / PAGE_BYTES * PAGE_BYTES;
    if (!is_sparse(twin) && mprotect(twin->room[LIBRARY] + from, twin->at + twin->length - from, access) != 0)
        abort();
}

/* Seals for this call what it may not store to. */
static inline void seal(uint64_t answer)
{
    for (int slice = 0; slice < SLICES; slice++) {
        sealed[slice] = twins[slice].length > 0 && is_left((enum slice)slice, answer);
        if (sealed[slice])
            set_access(&twins[slice], PROT_READ);
    }
}

static inline void unseal(void)
{
    for (int slice = 0; slice < SLICES; slice++)
        if (sealed[slice]) {
            sealed[slice] = 0;
            set_access(&twins[slice], PROT_READ | PROT_WRITE);
        }
}

static inline int any_is_sparse(void)
{
    int sparse = 0;
    for (int slice = 0; slice < SLICES; slice++)
        sparse |= is_sparse(&twins[slice]);
    return sparse;
}

/* ---- slips of the library's side, so that faults.sh can show that a store where none may go is found */

static inline void store_again(enum slice slice)
{
    volatile uint8_t *byte = bytes_of(slice, LIBRARY);
    if (twins[slice].length > 0)
        *byte = *byte;
}

static inline void slip_a_store(uint64_t answer)
{
    const uint8_t *block = bytes_of(COMMAND, MODEL);
    int refused = STORMTOGGLE_REFUSAL(answer) != 0, loaded = record_before[STORMTOGGLE_RECORD_LOADED] == 1;
    enum slice current = record_before[STORMTOGGLE_RECORD_CURRENT] == 0 ? P0 : P1;
    if (latest.service != A_COMMAND || twins[COMMAND].length == 0)
        return;
    if (FAULT == 25 && !refused && loaded && block[0] == SPACE)
        store_again(current);
    if (FAULT == 26 && !refused && loaded && block[0] == WRITE && answer == answered(0, 0, 0))
        store_again(current);
    if (FAULT == 27 && !refused && loaded && block[0] == WRITE)
        store_again((enum slice)(P0 + P1 - current));
    if (FAULT == 28 && !refused && block[0] == LOCATE)
        store_again(RECEIVED);
    if (FAULT == 29 && refused)
        store_again(RECORD);
}

/* ---- the call on both sides */

/* Counts the call, and keeps what will be said of it if it fails. */
static inline void begin_call(const struct call *call)
{
    reached.calls++;
    latest = *call;
    memcpy(record_before, bytes_of(RECORD, MODEL), smaller(twins[RECORD].length, sizeof record_before));
}

/* What the library answered last, for those who compare calls with each other. */
static uint64_t answered_last;

/* Makes the call on both sides, and compares all that a caller can see. Returns the model's answer. */
static inline uint64_t make_call(struct call call)
{
    uint64_t by_model, by_library;
    int differs;
    if (is_over())
        return 0;
    call.empty_is_null = (int)draw(2);
    begin_call(&call);
    close_rooms();
    running = IN_MODEL;
    by_model = invoke(MODEL, &call);
    running = IN_LIBRARY;
    /* Among the many calls on small rooms one in eight, as it takes time; every one on sparse rooms. */
    if (one_in(8) || any_is_sparse())
        seal(by_model);
    by_library = answered_last = invoke(LIBRARY, &call);
    if (FAULT != 0)
        slip_a_store(by_model);
    running = IN_NEITHER;
    count_reached(by_model);
    unseal();
    differs = answer_differs(by_library, by_model);
    for (int i = 0; i < SLICES; i++)
        differs |= slice_differs((enum slice)i);
    differs |= forms_differ(by_library);
    reached.mismatches += (unsigned long)differs;
    return by_model;
}

#endif
