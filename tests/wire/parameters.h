/* parameters.h: the commands that give or take parameter data, over the wire: limits, modes, positions, sense in both
 * forms; and the fields that are errors. Part of raw.c. */
#ifndef PARAMETERS_H
#define PARAMETERS_H

#include "edges.h"

#define MODES_ARE(block_length) "0B 00 00 08 0000000000 " block_length
#define ASK_MODES "1A 00 00 00 0C 00"
#define SELECT_TWELVE "15 10 00 00 0C 00"

static const struct step limits_and_modes[] = {
    {"READ BLOCK LIMITS", EXAMPLE_E, MOUNTED, 1, "05 00 00 00 00 00", NULL, 6, NULL, "00 10 00 00 00 01",
     AT("00", "00000001")},
    {"MODE SENSE page 00h", AS_IT_STANDS, 0, 0, ASK_MODES, NULL, 12, NULL, MODES_ARE("008000"), NULL},
    {"MODE SENSE page 3Fh, allocation 255", AS_IT_STANDS, 0, 0, "1A 00 3F 00 FF 00", NULL, 255, NULL,
     MODES_ARE("008000"), NULL},
    {"MODE SENSE cut at 5", AS_IT_STANDS, 0, 0, "1A 00 00 00 05 00", NULL, 5, NULL, "0B 00 00 08 00", NULL},
    {"MODE SENSE with DBD", AS_IT_STANDS, 0, 0, "1A 08 00 00 0C 00", NULL, 12, NULL, "03 00 00 00", NULL},
    {"MODE SENSE, allocation 0", AS_IT_STANDS, 0, 0, "1A 00 00 00 00 00", NULL, 0, NULL, NULL, NULL},
    {"MODE SELECT block length 3", AS_IT_STANDS, 0, 0, SELECT_TWELVE, "00 00 00 08 00000000 00 000003", 0, NULL, NULL,
     AT("00", "00000001")},
    {"MODE SENSE tells 3", AS_IT_STANDS, 0, 0, ASK_MODES, NULL, 12, NULL, MODES_ARE("000003"), NULL},
    {"MODE SELECT with the bytes that are ignored", AS_IT_STANDS, 0, 0, SELECT_TWELVE,
     "FF 00 00 08 00000000 FF 000004", 0, NULL, NULL, NULL},
    {"MODE SENSE tells 4", AS_IT_STANDS, 0, 0, ASK_MODES, NULL, 12, NULL, MODES_ARE("000004"), NULL},
    {"MODE SELECT with the header alone", AS_IT_STANDS, 0, 0, "15 10 00 00 04 00", "00 00 00 00", 0, NULL, NULL, NULL},
    {"MODE SELECT with nothing", AS_IT_STANDS, 0, 0, "15 10 00 00 00 00", NULL, 0, NULL, NULL, NULL},
    {"MODE SELECT block length 1,048,577", AS_IT_STANDS, 0, 0, SELECT_TWELVE, "00 00 00 08 00000000 00 100001", 0,
     LIST_FIELD, NULL, NULL},
    {"MODE SELECT with a density", AS_IT_STANDS, 0, 0, SELECT_TWELVE, "00 00 00 08 7F000000 00 000005", 0, LIST_FIELD,
     NULL, NULL},
    {"MODE SELECT with buffered mode", AS_IT_STANDS, 0, 0, SELECT_TWELVE, "00 00 10 08 00000000 00 000005", 0,
     LIST_FIELD, NULL, NULL},
    {"MODE SELECT with a false descriptor length", AS_IT_STANDS, 0, 0, SELECT_TWELVE,
     "00 00 00 00 00000000 00 000005", 0, LIST_FIELD, NULL, NULL},
    {"MODE SELECT of 8 bytes", AS_IT_STANDS, 0, 0, "15 10 00 00 08 00", "00 00 00 00 00000000", 0, LIST_LENGTH, NULL,
     NULL},
    {"MODE SELECT of 13 bytes", AS_IT_STANDS, 0, 0, "15 10 00 00 0D 00", "00 00 00 08 00000000 00 000005 00", 0,
     LIST_LENGTH, NULL, NULL},
    {"MODE SELECT without PF", AS_IT_STANDS, 0, 0, "15 00 00 00 0C 00", "00 00 00 08 00000000 00 000005", 0, FIELD,
     NULL, NULL},
    {"MODE SENSE still tells 4", AS_IT_STANDS, 0, 0, ASK_MODES, NULL, 12, NULL, MODES_ARE("000004"), NULL},
    {"MODE SELECT block length 1,048,576", AS_IT_STANDS, 0, 0, SELECT_TWELVE, "00 00 00 08 00000000 00 100000", 0,
     NULL, NULL, NULL},
    {"MODE SENSE tells 1,048,576", AS_IT_STANDS, 0, 0, ASK_MODES, NULL, 12, NULL, MODES_ARE("100000"), NULL},
    {"READ POSITION, form 00h, at 0 of E", EXAMPLE_E, MOUNTED, 0, "34 00 00 00 00 00 00 00 00 00", NULL, 20, NULL,
     "80 00 0000 00000000 00000000 0000000000000000", NULL},
    {"READ POSITION, form 06h, at 0 of E", EXAMPLE_E, MOUNTED, 0, "34 06 00 00 00 00 00 00 00 00", NULL, 32, NULL,
     "80 000000 00000000 0000000000000000 0000000000000000 0000000000000000", NULL},
    {"READ POSITION, form 06h, at 2 of E", EXAMPLE_E, MOUNTED, 2, "34 06 00 00 00 00 00 00 00 00", NULL, 32, NULL,
     "00 000000 00000000 0000000000000002 0000000000000001 0000000000000000", NULL},
    {"READ POSITION, form 06h, at 5 of five", FIVE, MOUNTED, 5, "34 06 00 00 00 00 00 00 00 00", NULL, 32, NULL,
     "00 000000 00000000 0000000000000005 0000000000000002 0000000000000000", NULL},
};

/* All of these are field errors with any drive, and none moves the tape. */
static const struct {
    const char *subject, *command;
    size_t room;
} field_errors[] = {
    {"TEST UNIT READY with a control byte", "00 00 00 00 00 01", 0},
    {"REWIND with a reserved bit", "01 02 00 00 00 00", 0},
    {"REQUEST SENSE with byte 2 set", "03 00 01 00 12 00", 18},
    {"READ BLOCK LIMITS with MLOI", "05 01 00 00 00 00", 20},
    {"READ with FIXED and SILI", "08 03 000001 00", 32768},
    {"READ with a reserved bit", "08 04 000005 00", 5},
    {"WRITE with SILI's bit", "0A 02 000003 00", 0},
    {"WRITE 1,048,577, variable", "0A 00 100001 00", 0},
    {"SPACE sequential filemarks", "11 02 000001 00", 0},
    {"SPACE code 4", "11 04 000001 00", 0},
    {"SPACE with a reserved bit", "11 10 000001 00", 0},
    {"ERASE with METHOD", "19 00 10 00 00 00", 0},
    {"MODE SENSE page 0Fh", "1A 00 0F 00 FF 00", 255},
    {"MODE SENSE of saved values", "1A 00 C0 00 0C 00", 12},
    {"MODE SENSE with a subpage", "1A 00 00 01 0C 00", 12},
    {"LOAD with HOLD", "1B 00 00 00 09 00", 0},
    {"LOCATE with CP, partition 1 of 1", "2B 02 00 00000000 00 01 00", 0},
    {"LOCATE with byte 7 set", "2B 00 00 00000000 01 00 00", 0},
    {"READ POSITION, form 08h", "34 08 00 00 00 00 00 00 1C 00", 28},
    {"READ POSITION, form 00h with an allocation", "34 00 00 00 00 00 00 00 14 00", 20},
    {"READ POSITION, form 07h", "34 07 00 00 00 00 00 00 00 00", 32},
    {"SPACE (16) with a parameter length", "91 00 0000 0000000000000001 0010 00 00", 0},
    {"SPACE (16) sequential filemarks", "91 02 0000 0000000000000001 0000 00 00", 0},
    {"LOCATE (16) destination 2", "92 10 00 00 0000000000000000 000000 00", 0},
    {"LOCATE (16) destination 4", "92 20 00 00 0000000000000000 000000 00", 0},
    {"LOCATE (16) destination 7", "92 38 00 00 0000000000000000 000000 00", 0},
    {"LOCATE (16) with BAM", "92 00 01 00 0000000000000000 000000 00", 0},
    {"LOCATE (16) with CP, partition 1 of 1", "92 02 00 01 0000000000000000 000000 00", 0},
};

static inline void try_field_errors(struct wire *wire)
{
    make_tape(wire, EXAMPLE_E, MOUNTED, 1);
    for (size_t i = 0; i < COUNT(field_errors); i++) {
        struct step step = {.subject = field_errors[i].subject, .command = field_errors[i].command,
                            .room = field_errors[i].room, .sense = FIELD, .received = "",
                            .position = AT("00", "00000001")};
        try_step(wire, &step);
    }
}

/* FIXED is an error while the block length is 0. Bytes behind a command's length are no fields of it. */
static const struct step more_fields[] = {
    {"READ with FIXED, block length 0", EXAMPLE_E, 0, 0, "08 01 000001 00", NULL, 5, FIELD, "", AT_THE_BEGINNING},
    {"WRITE with FIXED, block length 0", AS_IT_STANDS, 0, 0, "0A 01 000001 00", "010203", 0, FIELD, NULL,
     AT_THE_BEGINNING},
    {"READ 0 with FIXED, block length 0", AS_IT_STANDS, 0, 0, "08 01 000000 00", NULL, 0, FIELD, NULL,
     AT_THE_BEGINNING},
    {"TEST UNIT READY with ten bytes behind it", AS_IT_STANDS, 0, 0, "00 00 00 00 00 00 FFFFFFFFFFFFFFFFFFFF", NULL, 0,
     NULL, NULL, AT_THE_BEGINNING},
    {"LOCATE with six bytes behind it", AS_IT_STANDS, 0, 0, "2B 00 00 00000001 00 00 00 FFFFFFFFFFFF", NULL, 0, NULL,
     NULL, AT("00", "00000001")},
};

/* ---- sense, asked for */

#define ASK_SENSE "03 00 00 00 12 00"
#define ASK_DESCRIPTORS "03 01 00 00 FC 00"
#define NO_DESCRIPTORS_BUT_STREAM "72 00 0000 000000 04 04020000"

/* The kept sense is told once. Then it is empty, in either form. */
static const struct step sense_forms[] = {
    {"before REQUEST SENSE: SPACE blocks -5 at 2", EXAMPLE_E, MOUNTED, 2, "11 00 FFFFFB 00", NULL, 0,
     SENSE("F0", "80", "FFFFFFFB", "0001"), NULL, NULL},
    {"REQUEST SENSE after a filemark", AS_IT_STANDS, 0, 0, ASK_SENSE, NULL, 18, NULL,
     SENSE("F0", "80", "FFFFFFFB", "0001"), NULL},
    {"REQUEST SENSE again", AS_IT_STANDS, 0, 0, ASK_SENSE, NULL, 18, NULL, EMPTY_SENSE, AT("00", "00000001")},
    {"before descriptors: SPACE blocks -5 at 2", EXAMPLE_E, MOUNTED, 2, "11 00 FFFFFB 00", NULL, 0,
     SENSE("F0", "80", "FFFFFFFB", "0001"), NULL, NULL},
    {"REQUEST SENSE in descriptors after a filemark", AS_IT_STANDS, 0, 0, "03 01 00 00 18 00", NULL, 24, NULL,
     "72 00 0001 000000 10 00 0A 80 00 FFFFFFFFFFFFFFFB 04 02 00 80", NULL},
    {"REQUEST SENSE in descriptors again", AS_IT_STANDS, 0, 0, "03 01 00 00 18 00", NULL, 24, NULL,
     NO_DESCRIPTORS_BUT_STREAM, NULL},
    {"before descriptors: READ 5 at 0", EXAMPLE_E, MOUNTED, 0, READ_FIVE, NULL, 5,
     SENSE("F0", "20", "00000002", "0000"), "01 02 03", NULL},
    {"REQUEST SENSE in descriptors after ILI, allocation 252", AS_IT_STANDS, 0, 0, ASK_DESCRIPTORS, NULL, 252, NULL,
     "72 00 0000 000000 10 00 0A 80 00 0000000000000002 04 02 00 20", NULL},
    {"REQUEST SENSE in fixed form after it was told in descriptors", AS_IT_STANDS, 0, 0, ASK_SENSE, NULL, 18, NULL,
     EMPTY_SENSE, NULL},
    {"before descriptors: READ 5 at 2", EXAMPLE_E, MOUNTED, 2, READ_FIVE, NULL, 5,
     SENSE("F0", "08", "00000005", "0005"), "", NULL},
    {"REQUEST SENSE in descriptors at end of data", AS_IT_STANDS, 0, 0, ASK_DESCRIPTORS, NULL, 252, NULL,
     "72 08 0005 000000 10 00 0A 80 00 0000000000000005 04 02 00 00", NULL},
    {"before descriptors: LOCATE 3", EXAMPLE_E, MOUNTED, 0, "2B 00 00 00000003 00 00 00", NULL, 0,
     SENSE("70", "08", NO_INFORMATION, "0005"), NULL, NULL},
    {"REQUEST SENSE in descriptors without information", AS_IT_STANDS, 0, 0, ASK_DESCRIPTORS, NULL, 252, NULL,
     "72 08 0005 000000 04 04 02 00 00", NULL},
    {"before descriptors: WRITE 45", BLANK, MOUNTED, 0, "0A 00 00002D 00", FORTY "5051525354", 0,
     SENSE("F0", "4D", "0000002D", "0002"), NULL, NULL},
    {"REQUEST SENSE in descriptors after an overflow, cut at 10", AS_IT_STANDS, 0, 0, "03 01 00 00 0A 00", NULL, 10,
     NULL, "72 0D 0002 000000 10 00 0A", NULL},
    {"REQUEST SENSE after it was cut", AS_IT_STANDS, 0, 0, ASK_SENSE, NULL, 18, NULL, EMPTY_SENSE, NULL},
    {"before REQUEST SENSE: SPACE code 2", AS_IT_STANDS, 0, 0, "11 02 000001 00", NULL, 0, FIELD, NULL, NULL},
    {"REQUEST SENSE after a field error, cut at 8", AS_IT_STANDS, 0, 0, "03 00 00 00 08 00", NULL, 8, NULL,
     "70 00 05 00000000 0A", NULL},
    {"before REQUEST SENSE: SPACE code 2 again", AS_IT_STANDS, 0, 0, "11 02 000001 00", NULL, 0, FIELD, NULL, NULL},
    {"REQUEST SENSE in descriptors after a field error", AS_IT_STANDS, 0, 0, ASK_DESCRIPTORS, NULL, 252, NULL,
     "72 05 2400 000000 04 04 02 00 00", NULL},
    {"before REQUEST SENSE: READ POSITION, form 08h", AS_IT_STANDS, 0, 0, "34 08 00 00 00 00 00 00 00 00", NULL, 20,
     FIELD, "", NULL},
    {"REQUEST SENSE, allocation 0", AS_IT_STANDS, 0, 0, "03 00 00 00 00 00", NULL, 0, NULL, NULL, NULL},
    {"REQUEST SENSE after allocation 0, allocation 252", AS_IT_STANDS, 0, 0, "03 00 00 00 FC 00", NULL, 252, NULL,
     EMPTY_SENSE, NULL},
    {"before REQUEST SENSE: SPACE code 2 once more", AS_IT_STANDS, 0, 0, "11 02 000001 00", NULL, 0, FIELD, NULL,
     NULL},
    {"TEST UNIT READY between", AS_IT_STANDS, 0, 0, "00 00 00 00 00 00", NULL, 0, NULL, NULL, NULL},
    {"REQUEST SENSE after a command that was GOOD", AS_IT_STANDS, 0, 0, ASK_SENSE, NULL, 18, NULL, EMPTY_SENSE, NULL},
};

static inline void try_parameters(struct wire *wire)
{
    try_steps(wire, limits_and_modes, COUNT(limits_and_modes));
    try_field_errors(wire);
    try_steps(wire, more_fields, COUNT(more_fields));
    try_steps(wire, sense_forms, COUNT(sense_forms));
}

#endif
