/* report.h: what a run reached, in lines, and whether anything that the work is for was never reached. */
#ifndef REPORT_H
#define REPORT_H

#include "merged.h"

static unsigned never_reached;

static inline unsigned long shown(unsigned long count)
{
    never_reached += count == 0;
    return count;
}

static inline unsigned long times_above(enum width width, unsigned power)
{
    unsigned long times = 0;
    for (unsigned bits = power + 1; bits < WIDEST; bits++)
        times += reached.widths[width][bits];
    return times;
}

static inline void report_services(void)
{
    /* The refusals that each service has; 0 is the call done. */
    static const uint8_t possible[SERVICES][BY_MOST + 1] = {
        [FRESH] = {[0] = 1, [BY_DRIVE] = 1},
        [BLANK] = {[0] = 1, [BY_LENGTH] = 1},
        [MOUNT] = {[0] = 1, [BY_DRIVE] = 1, [BY_LOADED] = 1, [BY_UNSOUND] = 1, [BY_LENGTH] = 1},
        [PROTECT] = {[0] = 1, [BY_UNSOUND] = 1, [BY_LENGTH] = 1},
        [VIEW] = {[0] = 1},
        [A_COMMAND] = {[0] = 1, [BY_COMMAND] = 1, [BY_SENT] = 1, [BY_RECEIVED] = 1, [BY_DRIVE] = 1},
    };
    for (int i = 0; i < SERVICES; i++) {
        printf("%-8s %9lu calls, done %lu", service_names[i], shown(reached.services[i]), reached.refusals[i][0]);
        for (int number = 1; number <= BY_MOST; number++)
            if (possible[i][number])
                printf(", refused by %d %lu", number, shown(reached.refusals[i][number]));
        printf("\n");
    }
    printf("views that found a block %lu\n", shown(reached.views_found));
}

static inline void report_commands(void)
{
    unsigned long others = 0;
    for (int code = 0; code < 256; code++)
        if (served_as((uint8_t)code) == NULL)
            others += reached.check[code] + reached.refused[code];
    printf("%-18s %9s %9s %9s %9s\n", "command", "good", "check", "refused", "read-only");
    for (size_t i = 0; i < COUNT(all_served); i++) {
        uint8_t code = all_served[i].code;
        printf("%-18s %9lu %9lu %9lu %9lu\n", all_served[i].name, shown(reached.good[code]),
               shown(reached.check[code]), shown(reached.refused[code]), shown(reached.read_only[code]));
    }
    printf("codes not served %lu; codes run bit by bit %lu\n", shown(others), reached.codes_run);
    never_reached += reached.codes_run < 256;
}

static inline void report_senses(void)
{
    static const enum told_number senses[] = {
        TOLD_LENGTH, TOLD_FILEMARK, TOLD_ZONE, TOLD_BEGINNING, TOLD_NOT_LOADED, TOLD_LIST_LENGTH, TOLD_NOT_SERVED,
        TOLD_FIELD, TOLD_LIST, TOLD_MOUNTED, TOLD_FRESH, TOLD_PROTECTED, TOLD_END_OF_DATA, TOLD_OVERFLOW,
    };
    printf("sense");
    for (size_t i = 0; i < COUNT(senses); i++) {
        unsigned key = TOLD_KEY(senses[i]), asc = TOLD_ASC(senses[i]), ascq = TOLD_ASCQ(senses[i]);
        printf("%s%X/%02X/%02X %lu", i == 0 ? " " : ", ", key, asc, ascq, shown(reached.sense[key][asc][ascq]));
    }
    printf("\n");
}

/* The powers of two above which each number has been; those behind the bar only where the largest work is asked for. */
static inline void report_widths(void)
{
    static const struct {
        const char *name;
        uint8_t powers[5], largest;
    } widths[WIDTHS] = {
        [WIDE_N] = {"N", {16, 17, 20, 24}, 0},
        [WIDE_POSITION] = {"the position", {16, 17, 20, 24}, 0},
        [WIDE_FILEMARKS] = {"filemarks before it", {16, 17, 20, 24}, 0},
        [WIDE_FIXED] = {"a count of FIXED", {16, 17}, 0},
        [WIDE_BLOCK] = {"a command block's length", {8, 16, 17, 24, 32}, 0},
        [WIDE_CARRIED] = {"bytes carried", {16, 20, 24, 28}, 29},
        [WIDE_ZEROED] = {"bytes zeroed by LONG", {16, 24, 28}, 29},
        [WIDE_ROOM] = {"room x 16", {16, 24, 32, 33}, 0},
        [WIDE_START] = {"the start of a view", {16, 24, 28, 29}, 0},
        [WIDE_OBJECT] = {"an object of LOCATE (16)", {16, 17, 20, 24}, 0},
        [WIDE_FILE] = {"a file of LOCATE (16)", {16, 17, 20, 24}, 0},
        [WIDE_SPACE] = {"a count of SPACE (16)", {16, 17, 20, 24}, 0},
        [WIDE_END_ROOM] = {"room x 16 at end of data", {16, 24, 32}, 0},
        [WIDE_CROSSED] = {"objects crossed by SPACE", {16, 17, 20, 24}, 0},
        [WIDE_CROSSED_16] = {"objects crossed by SPACE (16)", {16, 17, 20, 24}, 0},
    };
    for (int i = 0; i < WIDTHS; i++) {
        printf("%s above", widths[i].name);
        for (int j = 0; j < 5 && widths[i].powers[j] > 0; j++)
            printf(" 2^%d %lu", widths[i].powers[j], shown(times_above((enum width)i, widths[i].powers[j])));
        if (reached.with_largest && widths[i].largest > 0)
            printf(" | 2^%d %lu", widths[i].largest, shown(times_above((enum width)i, widths[i].largest)));
        printf("\n");
    }
}

/* The outcomes that each destination has. */
static inline void report_destinations(void)
{
    static const uint8_t served[OUTCOMES] = {
        [GOES_THERE] = 1, [GOES_TO_N] = 1, [HAS_NO_PARTITION] = 1, [IS_NOT_READY] = 1};
    static const uint8_t not_served[OUTCOMES] = {[IS_WRONG_LOADED] = 1, [IS_WRONG_UNLOADED] = 1};
    for (int i = 0; i < DESTINATIONS; i++) {
        int is_end = DESTINED(i) == TO_END, is_served = is_end || DESTINED(i) == TO_OBJECT || DESTINED(i) == TO_FILE;
        printf("LOCATE (16), destination %d", i);
        for (int outcome = 0; outcome < OUTCOMES; outcome++)
            if ((is_served ? served : not_served)[outcome] && !(is_end && outcome == GOES_TO_N))
                printf(", %s %lu", outcome_names[outcome], shown(long_moves.ended[i][outcome]));
        printf("\n");
    }
}

static inline void report_moves(void)
{
    report_destinations();
    for (int kind = 0; kind < MOVE_KINDS; kind++)
        printf("%-66s %9lu\n", move_names[kind], shown(long_moves.kinds[kind]));
    for (int stop = 0; stop < STOPS; stop++) {
        printf("SPACE (16) of %s, the residue", stop_names[stop]);
        for (int residue = 0; residue < RESIDUES; residue++)
            printf("%s %s %lu", residue == 0 ? "" : ",", residue_names[residue],
                   shown(long_moves.stopped[stop][residue]));
        printf("\n");
    }
}

/* A variable READ meets end of data only where it begins. */
static inline void report_ends(void)
{
    for (int ending = 0; ending < ENDINGS; ending++) {
        printf("end of data by %s,", ending_names[ending]);
        for (int place = 0; place < PLACES; place++)
            printf("%s %s %lu", place == 0 ? "" : ",", place_names[place], shown(ends.met[ending][place]));
        printf("; in it beside one that is not %lu, before it beside one that is in it %lu",
               shown(ends.beside[ending][1]), shown(ends.beside[ending][0]));
        if (is_locating((enum ending)ending))
            printf("; come from there %lu, %lu", shown(ends.changed[ending][1]), shown(ends.changed[ending][0]));
        if (ending != BY_READ)
            printf("; begun before the zone %lu", shown(ends.begun_before[ending]));
        printf("\n");
    }
    for (int arrival = 0; arrival < ARRIVALS; arrival++)
        printf("GOOD at N by %s, before the zone %lu, in it %lu\n", arrival_names[arrival],
               shown(ends.good[arrival][0]), shown(ends.good[arrival][1]));
    printf("in the zone of SPACE (16), a residue that does not fit, of blocks %lu, of filemarks %lu\n",
           shown(ends.without_residue[BLOCKS]), shown(ends.without_residue[FILEMARKS]));
}

/* All kinds by SPACE, and by SPACE (16). A refused house service is not counted behind one. */
static inline void report_crossings(void)
{
    unsigned long commands = 0;
    for (int kind = 0; kind < CROSSINGS; kind++)
        printf("crossed: %-47s SPACE %7lu, SPACE (16) %7lu\n", crossing_names[kind], shown(crossings.kinds[0][kind]),
               shown(crossings.kinds[1][kind]));
    for (int length = 0; length < 2; length++) {
        printf("right after a SPACE that crossed some, %s", length == 0 ? "SPACE" : "SPACE (16)");
        for (int i = 0; i < AFTERMATHS; i++)
            printf("%s %s %lu", i == 0 ? "" : ",", aftermath_names[i], shown(crossings.after[length][i]));
        printf("\n");
    }
    for (size_t i = 0; i < COUNT(all_served); i++)
        if (!is_space(all_served[i].code))
            commands += shown(crossings.command_after[all_served[i].code]);
    printf("right after one, another command %lu, refused %lu", commands, shown(crossings.refused_after));
    for (int i = 0; i < A_COMMAND; i++)
        printf(", %s %lu", service_names[i], shown(reached.after_space[i]));
    printf("\n");
}

/* A mount that 4 refuses may have no block length at all, so that one is not among them. */
static inline void report_lengths(void)
{
    static const unsigned numbers[] = {BY_LOADED, BY_UNSOUND, BY_LENGTH};
    for (int over = 0; over < LENGTHS_BEFORE; over++) {
        printf("mount over block length %s, one partition %lu, two %lu", length_names[over],
               shown(mounts.mounted[0][over]), shown(mounts.mounted[1][over]));
        for (size_t i = 0; i < COUNT(numbers); i++)
            printf(", refused by %u %lu", numbers[i], shown(mounts.refused[numbers[i]][over]));
        printf("\n");
    }
    for (int kind = 0; kind < LENGTH_KINDS; kind++)
        printf("as mounted: %-54s %9lu\n", length_kind_names[kind], shown(mounts.kinds[kind]));
}

static inline void report_pairs(void)
{
    printf("two moves or one: %lu pairs\n", shown(pairs.made));
    for (int kind = 0; kind < PAIR_KINDS; kind++)
        printf("two moves: %-55s %9lu\n", pair_names[kind], shown(pairs.kinds[kind]));
}

static inline unsigned long least_of(const unsigned long *counts, size_t count)
{
    unsigned long least = counts[0];
    for (size_t i = 1; i < count; i++)
        least = counts[i] < least ? counts[i] : least;
    return least;
}

/* Each allocation up to 30 at least so often, and then those above it. */
static inline void report_allocations(enum form form, enum answering answering)
{
    const unsigned long *times = senses.allocations[form][answering];
    unsigned long others = 0;
    for (int i = EACH_UP_TO + 1; i < ALLOCATION_MOST; i++)
        others += times[i];
    printf("REQUEST SENSE in %s, %s: each allocation up to %d at least %lu, 255 %lu, others %lu", form_names[form],
           answering_names[answering], EACH_UP_TO, shown(least_of(times, EACH_UP_TO + 1)),
           shown(times[ALLOCATION_MOST]), shown(others));
    for (int is_cut = 0; is_cut < 2; is_cut++) {
        printf("; %s, a buffer", is_cut ? "cut" : "whole");
        for (int buffer = 0; buffer < BUFFERS; buffer++)
            printf("%s %s %lu", buffer == 0 ? "" : ",", buffer_names[buffer],
                   shown(senses.buffers[form][answering][is_cut][buffer]));
    }
    printf("\n");
}

static inline void report_asking(enum form form)
{
    for (int answering = 0; answering < ANSWERINGS; answering++)
        report_allocations(form, (enum answering)answering);
    printf("REQUEST SENSE in %s, loaded %lu, right behind one in fixed form %lu, in descriptor form %lu, another bit "
           "of byte 1 %lu, under an attention %lu\n",
           form_names[form], shown(senses.loaded[form]), shown(senses.behind[form][FIXED_FORM]),
           shown(senses.behind[form][DESC_FORM]), shown(senses.wrong[form][0]), shown(senses.wrong[form][1]));
    for (int is_fresh = 0; is_fresh < 2; is_fresh++)
        printf("REQUEST SENSE in %s, %s waits over a kept sense that is VALID %lu, not VALID %lu\n", form_names[form],
               is_fresh ? "29h" : "28h", shown(senses.attentions[form][is_fresh][1]),
               shown(senses.attentions[form][is_fresh][0]));
}

/* What was kept, and told whole; nothing is told by a command that is GOOD, so no host asks for it. */
static inline void report_kept(void)
{
    for (unsigned i = 0; i < TELLINGS; i++)
        printf("kept: %-50s fixed %6lu, descriptors %6lu, heard in both %7lu\n", tellings[i].name,
               shown(senses.tellings[FIXED_FORM][i]), shown(senses.tellings[DESC_FORM][i]),
               tellings[i].told == TOLD_GOOD ? 0 : shown(senses.heard[i]));
    printf("heard in both while it waits: 28h %lu, 29h %lu\n", shown(senses.heard_waiting[0]),
           shown(senses.heard_waiting[1]));
    for (int i = 0; i < STRANGERS; i++)
        printf("kept: %-50s fixed %6lu, descriptors %6lu\n", stranger_names[i], shown(senses.strangers[FIXED_FORM][i]),
               shown(senses.strangers[DESC_FORM][i]));
}

/* A kind with each of its sizes. */
static inline void report_sizes(void)
{
    for (int kind = 0; kind < SIZE_KINDS; kind++) {
        printf("%-44s", size_kinds[kind].name);
        for (int size = size_kinds[kind].first; size <= size_kinds[kind].last; size++)
            printf("%s %s %lu", size == size_kinds[kind].first ? "" : ",", size_names[size],
                   shown(sized.kinds[kind][size]));
        printf("\n");
    }
    printf("FIXED in blocks of 1,048,576, refused by 2 and by 3");
    for (int i = 0; i < PRODUCTS; i++)
        printf("%s %s of them %lu, %lu", i == 0 ? "" : ";", product_names[i], shown(sized.products[i][0]),
               shown(sized.products[i][1]));
    printf("; 2^32 bytes and more lent, some put %lu, some got %lu\n", shown(sized.lent_in_full[0]),
           shown(sized.lent_in_full[1]));
    printf("a block of 65,537 added to an older image %lu; READ BLOCK LIMITS, nothing loaded %lu, loaded %lu\n",
           shown(sized.added), shown(sized.limits[0]), shown(sized.limits[1]));
}

static inline void report_read_only(void)
{
    printf("read-only: a WRITE that puts nothing %lu, the partition beside %lu, a buffer that receives nothing %lu, "
           "the record of a refused call %lu\n",
           shown(reached.puts_nothing), shown(reached.beside), shown(reached.receives_nothing),
           shown(reached.refused_records));
}

/* The exit status: 0 only without a mismatch, and if the run was long enough to reach everything. */
static inline int report(void)
{
    report_services();
    report_commands();
    report_senses();
    report_widths();
    report_moves();
    report_ends();
    report_crossings();
    report_lengths();
    report_pairs();
    report_asking(FIXED_FORM);
    report_asking(DESC_FORM);
    report_kept();
    report_sizes();
    report_read_only();
    printf("empty slices as NULL %lu, 2^32 bytes and more asked %lu, and lent %lu, 1,048,576 put %lu\n",
           shown(reached.null_slices), shown(reached.wide_products), shown(reached.wide_done),
           shown(reached.largest_blocks));
    print_totals();
    printf(", %u kinds never reached\n", never_reached);
    return reached.mismatches > 0 || never_reached > 0;
}

#endif
