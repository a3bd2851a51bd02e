/* coverage.h: what a run of lives reached, counted and told, and whether anything that it is for was never reached. */
#ifndef COVERAGE_H
#define COVERAGE_H

#include "../blocks.h"
#include "../check.h"

enum happening {
    LIVES_OF_ONE, LIVES_OF_TWO, LONG_LIVES, VAST_LIVES,
    BLOCKS_PUT, FORMER_PUT, LARGER_PUT, LARGEST_PUT, LARGER_FIXED, FIXED_PUT, PUT_AS_MOUNTED, PARTLY_AS_MOUNTED,
    FILEMARKS_PUT, ALL_IN_THE_ZONE, PARTLY_PUT, NONE_FITTED, NONE_ASKED, OVERWRITES, CUTS, LONG_CUTS, CUTS_OF_NOTHING,
    STOPPED_BY_PROTECTION,
    MOUNTS, REMOUNTS, MOUNTS_OVER_ANOTHER, PROTECTION_SET, PROTECTION_CLEARED, ATTENTIONS_TOLD, CODES_NOT_SERVED,
    BAD_FIELDS, ABOVE_N, UNDER_ODD_RECORDS, CHANGED_BY_ODD_RECORDS,
    LONE_FIRST, LONE_SECOND, LONE_BESIDE_ANOTHER, LONE_CHANGED, ANOTHER_CHANGED,
    VIEWS, READS, BLOCKS_MET, LARGER_MET, LARGEST_MET, FIXED_MET, ODD_MET, FILEMARKS_MET, ENDS_MET, ENDS_MET_IN_ZONE,
    FILES_LOCATED, FILES_SPACED, PAST_FILES_READ, PAST_FILES_IN_ZONE, OWN_READINGS, OWN_ABOVE_N, NEVER_BY_4,
    LISTS_READ_WHOLE,
    CROSSED_SOME, CROSSED_TO_FILEMARK, CROSSINGS_ADDED, CROSSED_ON, CROSSED_BACK, SENSE_DESCRIBED, HAPPENINGS
};

static const char *const happening_names[HAPPENINGS] = {
    [LIVES_OF_ONE] = "lives of one partition",
    [LIVES_OF_TWO] = "lives of two partitions",
    [LONG_LIVES] = "lives with a long partition",
    [VAST_LIVES] = "such with room for the largest block",
    [BLOCKS_PUT] = "variable writes that put a block",
    [FORMER_PUT] = "writes that put 65,536 bytes a block",
    [LARGER_PUT] = "writes that put more bytes a block",
    [LARGEST_PUT] = "such that put 1,048,576 bytes a block",
    [LARGER_FIXED] = "FIXED writes of more than 65,536 each",
    [FIXED_PUT] = "FIXED writes that put several",
    [PUT_AS_MOUNTED] = "such with the length of a mount",
    [PARTLY_AS_MOUNTED] = "the same, some put and not all",
    [FILEMARKS_PUT] = "writes that put filemarks",
    [ALL_IN_THE_ZONE] = "all put, with early warning",
    [PARTLY_PUT] = "some put and not all",
    [NONE_FITTED] = "none put, for want of room",
    [NONE_ASKED] = "none asked for, GOOD",
    [OVERWRITES] = "puts in the middle, over objects",
    [CUTS] = "erases that cut objects",
    [LONG_CUTS] = "LONG erases that cut objects",
    [CUTS_OF_NOTHING] = "erases at the end of data",
    [STOPPED_BY_PROTECTION] = "stopped by protection",
    [MOUNTS] = "mounts done",
    [REMOUNTS] = "mounts done after an unload",
    [MOUNTS_OVER_ANOTHER] = "mounts done over another length",
    [PROTECTION_SET] = "protection set",
    [PROTECTION_CLEARED] = "protection cleared",
    [ATTENTIONS_TOLD] = "attentions told",
    [CODES_NOT_SERVED] = "codes not served",
    [BAD_FIELDS] = "bad fields",
    [ABOVE_N] = "refused for a position above N",
    [UNDER_ODD_RECORDS] = "under foreign or broken records",
    [CHANGED_BY_ODD_RECORDS] = "puts and erases under such records",
    [LONE_FIRST] = "a partition alone, in the first place",
    [LONE_SECOND] = "a partition alone, in the second",
    [LONE_BESIDE_ANOTHER] = "a partition beside a foreign slice",
    [LONE_CHANGED] = "puts and erases on a lone partition",
    [ANOTHER_CHANGED] = "puts and erases on a slice beside it",
    [VIEWS] = "views compared",
    [READS] = "reads compared",
    [BLOCKS_MET] = "blocks met",
    [LARGER_MET] = "such of more than 65,536 bytes",
    [LARGEST_MET] = "such of 1,048,576 bytes",
    [FIXED_MET] = "blocks of 32,768 by FIXED READ",
    [ODD_MET] = "blocks of other lengths by FIXED READ",
    [FILEMARKS_MET] = "filemarks met",
    [ENDS_MET] = "ends of data met before the zone",
    [ENDS_MET_IN_ZONE] = "ends of data met in the zone",
    [FILES_LOCATED] = "readings of a file by LOCATE (16)",
    [FILES_SPACED] = "readings of a file by SPACE (16)",
    [PAST_FILES_READ] = "readings past the last file",
    [PAST_FILES_IN_ZONE] = "such readings that end in the zone",
    [OWN_READINGS] = "readings under a life's own record",
    [OWN_ABOVE_N] = "such readings refused above N",
    [NEVER_BY_4] = "calls that 4 may never refuse",
    [LISTS_READ_WHOLE] = "lists read whole",
    [CROSSED_SOME] = "SPACEs that crossed objects",
    [CROSSED_TO_FILEMARK] = "such over blocks, to a filemark",
    [CROSSINGS_ADDED] = "readings where SPACEs add up to",
    [CROSSED_ON] = "SPACEs on, on the way there",
    [CROSSED_BACK] = "SPACEs back, on the way there",
    [SENSE_DESCRIBED] = "senses told in descriptor form",
};

/* The house services stand behind the 256 operation codes. */
enum { FRESH = 256, MOUNT, PROTECT, BLANK, CALL_KINDS };

#define NAMED(code, name, ...) {code, name},
static const struct {
    unsigned kind;
    const char *name;
} calls_named[] = {
    SERVED(NAMED) {FRESH, "fresh"}, {MOUNT, "mount"}, {PROTECT, "protect"},
};

static struct {
    unsigned long lives, calls, wanted, mismatches;
    unsigned long acted[CALL_KINDS], stopped[CALL_KINDS], refused[CALL_KINDS], refusals[BY_MOST + 1];
    unsigned long times[HAPPENINGS];
} reached;

static inline const char *name_of_call(unsigned kind)
{
    for (size_t i = 0; i < COUNT(calls_named); i++)
        if (calls_named[i].kind == kind)
            return calls_named[i].name;
    return kind == BLANK ? "blank" : "a code not served";
}

static inline void happens(enum happening happening, int holds)
{
    reached.times[happening] += holds != 0;
}

/* ---- the report */

/* Only so many calls must reach everything. */
enum { ENOUGH_CALLS = 100000 };

static unsigned never_reached;

static inline unsigned long shown(unsigned long count)
{
    never_reached += count == 0;
    return count;
}

/* A house service is not stopped by a command's tests. */
static inline void report_calls(void)
{
    printf("%-18s %9s %9s %9s\n", "call", "acted", "stopped", "refused");
    for (size_t i = 0; i < COUNT(calls_named); i++) {
        unsigned kind = calls_named[i].kind;
        printf("%-18s %9lu %9lu %9lu\n", calls_named[i].name, shown(reached.acted[kind]),
               kind < FRESH ? shown(reached.stopped[kind]) : 0, shown(reached.refused[kind]));
    }
    printf("refused by number");
    for (int number = 1; number <= BY_MOST; number++)
        printf("%s %d %lu", number == 1 ? "" : ",", number, shown(reached.refusals[number]));
    printf("\n");
}

/* The exit status: 0 only without a mismatch, and if a run that is long enough reached everything. */
static inline int report(void)
{
    int failed;
    report_calls();
    for (int i = 0; i < HAPPENINGS; i++)
        printf("%-37s %9lu%s", happening_names[i], shown(reached.times[i]),
               i % 2 == 0 && i < HAPPENINGS - 1 ? "    " : "\n");
    reached.mismatches += checks_failed;
    failed = reached.mismatches > 0 || (reached.wanted >= ENOUGH_CALLS && never_reached > 0);
    printf("%u kinds never reached%s\n", never_reached, reached.wanted < ENOUGH_CALLS ? ", in a short run" : "");
    printf("lives: %lu lives, %lu calls, %.1f million reads, %lu mismatches\n", reached.lives, reached.calls,
           (double)reached.times[READS] / 1e6, reached.mismatches);
    return failed;
}

#endif
