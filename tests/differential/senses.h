/* senses.h: what REQUEST SENSE has told, in the fixed form and in descriptors, kind by kind, counted by the model's
 * answers and the records before. */
#ifndef SENSES_H
#define SENSES_H

#include "lengths.h"

enum form { FIXED_FORM, DESC_FORM, FORMS };
static const char *const form_names[FORMS] = {"fixed form", "descriptor form"};

/* ---- kept senses */

/* Those that a drive tells: what, with VALID or without, and the sign of the residue. */
enum sign { BELOW_0, JUST_0, ABOVE_0 };
static const struct telling {
    const char *name;
    uint32_t told;
    uint8_t first;
    enum sign sign;
} tellings[] = {
    {"nothing", TOLD_GOOD, STORMTOGGLE_NOT_VALID, JUST_0},
    {"6/28/00 told to another command", TOLD_MOUNTED, STORMTOGGLE_NOT_VALID, JUST_0},
    {"6/29/00 told to another command", TOLD_FRESH, STORMTOGGLE_NOT_VALID, JUST_0},
    {"5/20/00", TOLD_NOT_SERVED, STORMTOGGLE_NOT_VALID, JUST_0},
    {"5/24/00", TOLD_FIELD, STORMTOGGLE_NOT_VALID, JUST_0},
    {"5/1A/00", TOLD_LIST_LENGTH, STORMTOGGLE_NOT_VALID, JUST_0},
    {"5/26/00", TOLD_LIST, STORMTOGGLE_NOT_VALID, JUST_0},
    {"2/3A/00", TOLD_NOT_LOADED, STORMTOGGLE_NOT_VALID, JUST_0},
    {"7/27/00", TOLD_PROTECTED, STORMTOGGLE_NOT_VALID, JUST_0},
    {"0/00/00 ILI, a shorter block, or blocks not read", TOLD_LENGTH, STORMTOGGLE_VALID, ABOVE_0},
    {"0/00/00 ILI, a longer block", TOLD_LENGTH, STORMTOGGLE_VALID, BELOW_0},
    {"0/00/01 FILEMARK, going on", TOLD_FILEMARK, STORMTOGGLE_VALID, ABOVE_0},
    {"0/00/01 FILEMARK, going back", TOLD_FILEMARK, STORMTOGGLE_VALID, BELOW_0},
    {"0/00/01 FILEMARK, a residue that does not fit", TOLD_FILEMARK, STORMTOGGLE_NOT_VALID, JUST_0},
    {"0/00/02 EOM", TOLD_ZONE, STORMTOGGLE_VALID, JUST_0},
    {"D/00/02 EOM", TOLD_OVERFLOW, STORMTOGGLE_VALID, ABOVE_0},
    {"0/00/04 EOM", TOLD_BEGINNING, STORMTOGGLE_VALID, BELOW_0},
    {"0/00/04 EOM, a residue that does not fit", TOLD_BEGINNING, STORMTOGGLE_NOT_VALID, JUST_0},
    {"8/00/05", TOLD_END_OF_DATA, STORMTOGGLE_VALID, ABOVE_0},
    {"8/00/05 without a residue", TOLD_END_OF_DATA, STORMTOGGLE_NOT_VALID, JUST_0},
    {"8/00/05 EOM", TOLD_END_IN_ZONE, STORMTOGGLE_VALID, ABOVE_0},
    {"8/00/05 EOM without a residue", TOLD_END_IN_ZONE, STORMTOGGLE_NOT_VALID, JUST_0},
};
enum { TELLINGS = COUNT(tellings) };

/* Those that no drive tells, and only a record lent with them has. */
enum stranger {
    ALL_BITS_SET, NO_BIT_SET, VALUE_BELOW_0, VALUE_ABOVE_0, VALUE_WITHOUT_VALID, BIT_4_SET, ANOTHER_FIRST, STRANGERS
};
static const char *const stranger_names[STRANGERS] = {
    [ALL_BITS_SET] = "all FFh",
    [NO_BIT_SET] = "all 00h",
    [VALUE_BELOW_0] = "any, VALID, bit 7 of byte 3 set",
    [VALUE_ABOVE_0] = "any, VALID, bit 7 of byte 3 clear",
    [VALUE_WITHOUT_VALID] = "any, not VALID, bytes 3-6 not 0",
    [BIT_4_SET] = "any, bit 4 of byte 2 set",
    [ANOTHER_FIRST] = "any, VALID, and byte 0 not F0h",
};

static inline int has_sign(uint32_t information, enum sign sign)
{
    switch (sign) {
    case BELOW_0: return information > INT32_MAX;
    case ABOVE_0: return information > 0 && information <= INT32_MAX;
    default: return information == 0;
    }
}

static inline uint32_t told_in_sense(const uint8_t *sense)
{
    return TOLD((uint32_t)sense[STORMTOGGLE_SENSE_KEY], sense[STORMTOGGLE_SENSE_ASC], sense[STORMTOGGLE_SENSE_ASCQ]);
}

/* Which of those that a drive tells; TELLINGS if none, as where any other byte is not as a drive has it. */
static inline unsigned telling_of(const uint8_t *sense)
{
    uint32_t information = get32(sense + STORMTOGGLE_SENSE_INFORMATION), told = told_in_sense(sense);
    uint8_t bare[SENSE_BYTES] = {0};
    bare[STORMTOGGLE_SENSE_FIRST] = sense[STORMTOGGLE_SENSE_FIRST];
    bare[STORMTOGGLE_SENSE_KEY] = sense[STORMTOGGLE_SENSE_KEY];
    put32(bare + STORMTOGGLE_SENSE_INFORMATION, information);
    bare[STORMTOGGLE_SENSE_REST] = SENSE_REST;
    bare[STORMTOGGLE_SENSE_ASC] = sense[STORMTOGGLE_SENSE_ASC];
    bare[STORMTOGGLE_SENSE_ASCQ] = sense[STORMTOGGLE_SENSE_ASCQ];
    for (unsigned i = 0; i < TELLINGS && memcmp(bare, sense, SENSE_BYTES) == 0; i++)
        if (tellings[i].told == told && tellings[i].first == bare[0] && has_sign(information, tellings[i].sign))
            return i;
    return TELLINGS;
}

/* ---- the calls */

/* What is told: a value, none, or an attention; and how long the buffer is. */
enum answering { WITH_VALUE, WITHOUT_VALUE, WITH_ATTENTION, ANSWERINGS };
static const char *const answering_names[ANSWERINGS] = {"VALID", "not VALID", "an attention"};
enum buffer { JUST_ENOUGH, ONE_SHORT, MORE_THAN_ENOUGH, BUFFERS };
static const char *const buffer_names[BUFFERS] = {"just enough", "a byte short", "longer"};

/* Every allocation up to the first, and the last of all; the others count together. */
enum { EACH_UP_TO = 30, ALLOCATION_MOST = 255 };

static struct {
    unsigned long tellings[FORMS][COUNT(tellings)], strangers[FORMS][STRANGERS];
    unsigned long allocations[FORMS][ANSWERINGS][ALLOCATION_MOST + 1];
    unsigned long buffers[FORMS][ANSWERINGS][2][BUFFERS]; /* of a whole reply, and of one that the allocation cuts */
    unsigned long attentions[FORMS][2][2]; /* 28h and 29h; over a kept sense without VALID, and with it */
    unsigned long wrong[FORMS][2];         /* another bit of byte 1, 5/24/00: with no attention, and with one */
    unsigned long behind[FORMS][FORMS];    /* right behind one that was GOOD, by its form */
    unsigned long loaded[FORMS];
    unsigned long heard[COUNT(tellings)], heard_waiting[2]; /* by both readers; 28h and 29h while they wait */
    enum form form_behind;                                  /* FORMS if the call before was another */
} senses = {.form_behind = FORMS};

static inline enum answering answering_of(const uint8_t *before)
{
    if (before[STORMTOGGLE_RECORD_ATTENTION] != ATTENTION_NONE)
        return WITH_ATTENTION;
    return before[STORMTOGGLE_RECORD_SENSE] & VALID_BIT ? WITH_VALUE : WITHOUT_VALUE;
}

/* How long the reply is that no allocation cuts. */
static inline uint64_t whole_reply(enum form form, enum answering answering)
{
    if (form == FIXED_FORM)
        return SENSE_BYTES;
    return answering == WITH_VALUE ? STORMTOGGLE_DESCRIPTORS_BOTH : STORMTOGGLE_DESCRIPTORS_STREAM;
}

static inline void count_stranger(unsigned long *strangers, const uint8_t *sense)
{
    uint8_t first = sense[STORMTOGGLE_SENSE_FIRST], key = sense[STORMTOGGLE_SENSE_KEY];
    uint32_t information = get32(sense + STORMTOGGLE_SENSE_INFORMATION);
    int set = 0, clear = 0, valid = (first & VALID_BIT) != 0;
    for (unsigned i = 0; i < SENSE_BYTES; i++) {
        set += sense[i] == 0xff;
        clear += sense[i] == 0x00;
    }
    strangers[ALL_BITS_SET] += set == SENSE_BYTES;
    strangers[NO_BIT_SET] += clear == SENSE_BYTES;
    strangers[VALUE_BELOW_0] += valid && information > INT32_MAX && set < SENSE_BYTES;
    strangers[VALUE_ABOVE_0] += valid && information <= INT32_MAX;
    strangers[VALUE_WITHOUT_VALID] += !valid && information != 0;
    strangers[BIT_4_SET] += (key & ~(ALL_FLAGS | STORMTOGGLE_KEY)) != 0 && set < SENSE_BYTES;
    strangers[ANOTHER_FIRST] += valid && first != STORMTOGGLE_VALID && set < SENSE_BYTES;
}

static inline void count_reply(enum form form, const uint8_t *block, const uint8_t *before)
{
    const uint8_t *sense = before + STORMTOGGLE_RECORD_SENSE;
    enum answering answering = answering_of(before);
    unsigned telling = telling_of(sense);
    senses.allocations[form][answering][block[AT_ALLOCATION]]++;
    senses.loaded[form] += before[STORMTOGGLE_RECORD_LOADED];
    if (senses.form_behind != FORMS)
        senses.behind[form][senses.form_behind]++;
    if (answering == WITH_ATTENTION)
        senses.attentions[form][before[STORMTOGGLE_RECORD_ATTENTION] == ATTENTION_FRESH][sense[0] >> 7]++;
    else if (block[AT_ALLOCATION] < whole_reply(form, answering))
        return;
    else if (telling < TELLINGS)
        senses.tellings[form][telling]++;
    else
        count_stranger(senses.strangers[form], sense);
}

/* Of a REQUEST SENSE that was GOOD, or that number 3 refused. */
static inline void count_buffer(enum form form, const uint8_t *block, unsigned refusal, const uint8_t *before)
{
    enum answering answering = answering_of(before);
    uint64_t whole = whole_reply(form, answering), need = smaller(block[AT_ALLOCATION], whole);
    unsigned long *buffers = senses.buffers[form][answering][need < whole];
    uint64_t length = twins[RECEIVED].length;
    buffers[JUST_ENOUGH] += refusal == 0 && need > 0 && length == need;
    buffers[ONE_SHORT] += refusal == BY_RECEIVED && length + 1 == need;
    buffers[MORE_THAN_ENOUGH] += refusal == 0 && length > need;
}

/* Of any command: by what it was refused, or what it told, and the record before. One that another number refuses may
 * have no byte 1. */
static inline void count_asking(const uint8_t *block, unsigned refusal, uint32_t told, const uint8_t *before)
{
    int is_asking = block[0] == REQUEST_SENSE && (refusal == 0 || refusal == BY_RECEIVED);
    int is_good = is_asking && refusal == 0 && told == TOLD_GOOD;
    enum form form = is_asking && block[1] & DESC ? DESC_FORM : FIXED_FORM;
    if (is_asking && refusal == 0 && !is_good)
        senses.wrong[form][before[STORMTOGGLE_RECORD_ATTENTION] != ATTENTION_NONE] += (block[1] & ~DESC) != 0;
    else if (is_asking)
        count_buffer(form, block, refusal, before);
    if (is_good)
        count_reply(form, block, before);
    senses.form_behind = is_good ? form : FORMS;
}

#endif
