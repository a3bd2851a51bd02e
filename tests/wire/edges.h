/* edges.h: cases at the edges, over the wire: P1 to P12 of document 01 as document 02 amends them, and others of READ,
 * WRITE and movement. Part of raw.c. Each line: subject, tape, block length and start (of a tape made anew), command,
 * sent, room, sense, received, position afterwards. */
#ifndef EDGES_H
#define EDGES_H

#include "tapes.h"

enum { MOUNTED = 32768 };
#define REWIND "01 00 00 00 00 00"
#define READ_FIVE "08 00 000005 00"

/* The room on a blank is 48 bytes; the zone begins where less than 3 are left. */
static const struct step full_tape[] = {
    {"P1: WRITE 44 on the blank", BLANK, MOUNTED, 0, "0A 00 00002C 00", FORTY "50515253", 0,
     SENSE("F0", "40", "00000000", "0002"), NULL, AT("40", "00000001")},
    {"P1: REWIND", AS_IT_STANDS, 0, 0, REWIND, NULL, 0, NULL, NULL, AT_THE_BEGINNING},
    {"P1: READ 44 finds the block", AS_IT_STANDS, 0, 0, "08 00 00002C 00", NULL, 44, NULL, FORTY "50515253",
     AT("40", "00000001")},
    {"the tape is full: WRITE 1", AS_IT_STANDS, 0, 0, "0A 00 000001 00", "77", 0,
     SENSE("F0", "4D", "00000001", "0002"), NULL, AT("40", "00000001")},
    {"the tape is full: REWIND with IMMED", AS_IT_STANDS, 0, 0, "01 01 00 00 00 00", NULL, 0, NULL, NULL,
     AT_THE_BEGINNING},
    {"the tape is full: WRITE 1 at the beginning is put", AS_IT_STANDS, 0, 0, "0A 00 000001 00", "77", 0, NULL, NULL,
     AT("00", "00000001")},
    {"what stood behind it is gone: READ 5", AS_IT_STANDS, 0, 0, READ_FIVE, NULL, 5,
     SENSE("F0", "08", "00000005", "0005"), "", AT("00", "00000001")},
    {"P2: WRITE 45 on the blank", BLANK, MOUNTED, 0, "0A 00 00002D 00", FORTY "5051525354", 0,
     SENSE("F0", "4D", "0000002D", "0002"), NULL, AT_THE_BEGINNING},
    {"P2: N is 0: SPACE to end of data", AS_IT_STANDS, 0, 0, "11 03 000000 00", NULL, 0, NULL, NULL,
     AT_THE_BEGINNING},
    {"P2 on E: WRITE 45 at 0", EXAMPLE_E, MOUNTED, 0, "0A 00 00002D 00", FORTY "5051525354", 0,
     SENSE("F0", "4D", "0000002D", "0002"), NULL, AT_THE_BEGINNING},
    {"P2 on E: N is still 2: SPACE to end of data", AS_IT_STANDS, 0, 0, "11 03 FFFFFF 00", NULL, 0, NULL, NULL,
     AT("00", "00000002")},
    {"P3: 7 filemarks after 10 bytes", TEN_BYTES, MOUNTED, 1, "10 00 000007 00", NULL, 0, NULL, NULL,
     AT("00", "00000008")},
    {"P4: 8 filemarks after 10 bytes", TEN_BYTES, MOUNTED, 1, "10 00 000008 00", NULL, 0,
     SENSE("F0", "40", "00000000", "0002"), NULL, AT("40", "00000009")},
    {"P5: 9 filemarks after 10 bytes", TEN_BYTES, MOUNTED, 1, "10 00 000009 00", NULL, 0,
     SENSE("F0", "4D", "00000001", "0002"), NULL, AT("40", "00000009")},
    {"P5: SPACE to end of data, in the zone", AS_IT_STANDS, 0, 0, "11 03 000000 00", NULL, 0, NULL, NULL,
     AT("40", "00000009")},
    {"WRITE FILEMARKS 0 in the zone", AS_IT_STANDS, 0, 0, "10 00 000000 00", NULL, 0, NULL, NULL,
     AT("40", "00000009")},
    {"WRITE 0 in the zone", AS_IT_STANDS, 0, 0, "0A 00 000000 00", NULL, 0, NULL, NULL, AT("40", "00000009")},
    {"P5: 8 of them are there: SPACE filemarks -9", AS_IT_STANDS, 0, 0, "11 01 FFFFF7 00", NULL, 0,
     SENSE("F0", "40", "FFFFFFFF", "0004"), NULL, AT_THE_BEGINNING},
    {"FIXED WRITE of 2 blocks of 3", BLANK, 3, 0, "0A 01 000002 00", "010203 040506", 0, NULL, NULL,
     AT("00", "00000002")},
    {"FIXED WRITE of 2 blocks of 3: REWIND", AS_IT_STANDS, 0, 0, REWIND, NULL, 0, NULL, NULL, AT_THE_BEGINNING},
    {"FIXED READ of 2 blocks of 3", AS_IT_STANDS, 0, 0, "08 01 000002 00", NULL, 6, NULL, "010203 040506",
     AT("00", "00000002")},
    {"FIXED WRITE of 4 blocks of 10, of which 3 fit", BLANK, 10, 0, "0A 01 000004 00", FORTY, 0,
     SENSE("F0", "4D", "00000001", "0002"), NULL, AT("00", "00000003")},
    {"FIXED READ of 4, of which 3 stand: REWIND", AS_IT_STANDS, 0, 0, REWIND, NULL, 0, NULL, NULL, AT_THE_BEGINNING},
    {"FIXED READ of 4, of which 3 stand", AS_IT_STANDS, 0, 0, "08 01 000004 00", NULL, 40,
     SENSE("F0", "08", "00000001", "0005"), TEN("1") TEN("2") TEN("3"), AT("00", "00000003")},
};

static const struct step on_example_e[] = {
    {"P6: READ 5 at 0", EXAMPLE_E, MOUNTED, 0, READ_FIVE, NULL, 5, SENSE("F0", "20", "00000002", "0000"), "01 02 03",
     AT("00", "00000001")},
    {"P7: READ 2 at 0", EXAMPLE_E, MOUNTED, 0, "08 00 000002 00", NULL, 2, SENSE("F0", "20", "FFFFFFFF", "0000"),
     "01 02", AT("00", "00000001")},
    {"P7: READ 2 with SILI at 0, block length 0", EXAMPLE_E, 0, 0, "08 02 000002 00", NULL, 2, NULL, "01 02",
     AT("00", "00000001")},
    {"P7: READ 2 with SILI at 0, block length 32,768", EXAMPLE_E, MOUNTED, 0, "08 02 000002 00", NULL, 2,
     SENSE("F0", "20", "FFFFFFFF", "0000"), "01 02", AT("00", "00000001")},
    {"READ 5 with SILI at 0", EXAMPLE_E, MOUNTED, 0, "08 02 000005 00", NULL, 5, NULL, "01 02 03",
     AT("00", "00000001")},
    {"READ 3 at 0", EXAMPLE_E, MOUNTED, 0, "08 00 000003 00", NULL, 3, NULL, "01 02 03", AT("00", "00000001")},
    {"READ 0 at 0", EXAMPLE_E, MOUNTED, 0, "08 00 000000 00", NULL, 0, NULL, NULL, AT_THE_BEGINNING},
    {"P8: block length 3, FIXED 2 at 0", EXAMPLE_E, 3, 0, "08 01 000002 00", NULL, 6,
     SENSE("F0", "80", "00000001", "0001"), "01 02 03", AT("00", "00000002")},
    {"P9: block length 4, FIXED 2 at 0", EXAMPLE_E, 4, 0, "08 01 000002 00", NULL, 8,
     SENSE("F0", "20", "00000002", "0000"), "", AT("00", "00000001")},
    {"block length after mount, FIXED 2 at 0", EXAMPLE_E, MOUNTED, 0, "08 01 000002 00", NULL, 65536,
     SENSE("F0", "20", "00000002", "0000"), "", AT("00", "00000001")},
    {"P10: SPACE blocks -5 at 2", EXAMPLE_E, MOUNTED, 2, "11 00 FFFFFB 00", NULL, 0,
     "F0 00 80 FF FF FF FB 0A 00 00 00 00 00 01 00 00 00 00", NULL, AT("00", "00000001")},
    {"P11: SPACE blocks -5 at 1", EXAMPLE_E, MOUNTED, 1, "11 00 FFFFFB 00", NULL, 0,
     SENSE("F0", "40", "FFFFFFFC", "0004"), NULL, AT_THE_BEGINNING},
    {"P12: LOCATE 2", EXAMPLE_E, MOUNTED, 0, "2B 00 00 00000002 00 00 00", NULL, 0, NULL, NULL, AT("00", "00000002")},
    {"P12: LOCATE 3", EXAMPLE_E, MOUNTED, 0, "2B 00 00 00000003 00 00 00", NULL, 0,
     SENSE("70", "08", NO_INFORMATION, "0005"), NULL, AT("00", "00000002")},
    {"READ 5 at 1", EXAMPLE_E, MOUNTED, 1, READ_FIVE, NULL, 5, SENSE("F0", "80", "00000005", "0001"), "",
     AT("00", "00000002")},
    {"READ 5 at 2", EXAMPLE_E, MOUNTED, 2, READ_FIVE, NULL, 5, SENSE("F0", "08", "00000005", "0005"), "",
     AT("00", "00000002")},
    {"ERASE at 1", EXAMPLE_E, MOUNTED, 1, "19 00 00 00 00 00", NULL, 0, NULL, NULL, AT("00", "00000001")},
    {"the filemark is erased: READ 5 at 1", AS_IT_STANDS, 0, 0, READ_FIVE, NULL, 5,
     SENSE("F0", "08", "00000005", "0005"), "", AT("00", "00000001")},
    {"ERASE LONG with IMMED at 0", EXAMPLE_E, MOUNTED, 0, "19 03 00 00 00 00", NULL, 0, NULL, NULL, AT_THE_BEGINNING},
    {"all is erased: READ 5 at 0", AS_IT_STANDS, 0, 0, READ_FIVE, NULL, 5, SENSE("F0", "08", "00000005", "0005"), "",
     AT_THE_BEGINNING},
};

/* Every command that meets end of data at 1, by the key with or without EOM, and byte 0 of READ POSITION. */
#define MEETING_END_OF_DATA(where, key, place) \
    {where ": READ 5", AS_IT_STANDS, 0, 0, READ_FIVE, NULL, 5, SENSE("F0", key, "00000005", "0005"), "", \
     AT(place, "00000001")}, \
    {where ": FIXED READ 1", AS_IT_STANDS, 0, 0, "08 01 000001 00", NULL, 32768, \
     SENSE("F0", key, "00000001", "0005"), "", AT(place, "00000001")}, \
    {where ": SPACE blocks 1", AS_IT_STANDS, 0, 0, "11 00 000001 00", NULL, 0, \
     SENSE("F0", key, "00000001", "0005"), NULL, AT(place, "00000001")}, \
    {where ": SPACE filemarks 2", AS_IT_STANDS, 0, 0, "11 01 000002 00", NULL, 0, \
     SENSE("F0", key, "00000002", "0005"), NULL, AT(place, "00000001")}, \
    {where ": SPACE (16) blocks 3", AS_IT_STANDS, 0, 0, "91 00 0000 0000000000000003 0000 00 00", NULL, 0, \
     SENSE("F0", key, "00000003", "0005"), NULL, AT(place, "00000001")}, \
    {where ": LOCATE 2", AS_IT_STANDS, 0, 0, "2B 00 00 00000002 00 00 00", NULL, 0, \
     SENSE("70", key, NO_INFORMATION, "0005"), NULL, AT(place, "00000001")}, \
    {where ": LOCATE (16) 2", AS_IT_STANDS, 0, 0, "92 00 00 00 0000000000000002 000000 00", NULL, 0, \
     SENSE("70", key, NO_INFORMATION, "0005"), NULL, AT(place, "00000001")}, \
    {where ": LOCATE (16) file 1", AS_IT_STANDS, 0, 0, "92 08 00 00 0000000000000001 000000 00", NULL, 0, \
     SENSE("70", key, NO_INFORMATION, "0005"), NULL, AT(place, "00000001")}

static const struct step at_end_of_data[] = {
    {"WRITE 41 on the blank", BLANK, MOUNTED, 0, "0A 00 000029 00", FORTY "50", 0, NULL, NULL, AT("00", "00000001")},
    MEETING_END_OF_DATA("end of data before the zone", "08", "00"),
    {"WRITE 42 on the blank", BLANK, MOUNTED, 0, "0A 00 00002A 00", FORTY "5051", 0,
     SENSE("F0", "40", "00000000", "0002"), NULL, AT("40", "00000001")},
    MEETING_END_OF_DATA("end of data in the zone", "48", "40"),
};

static const struct step moving[] = {
    {"SPACE blocks -3 at 4 of five", FIVE, MOUNTED, 4, "11 00 FFFFFD 00", NULL, 0,
     SENSE("F0", "80", "FFFFFFFE", "0001"), NULL, AT("00", "00000002")},
    {"SPACE filemarks -3 at 5 of five", FIVE, MOUNTED, 5, "11 01 FFFFFD 00", NULL, 0,
     SENSE("F0", "40", "FFFFFFFF", "0004"), NULL, AT_THE_BEGINNING},
    {"SPACE filemarks -2 at 5 of five", FIVE, MOUNTED, 5, "11 01 FFFFFE 00", NULL, 0, NULL, NULL,
     AT("00", "00000002")},
    {"SPACE filemarks 3 at 0 of five", FIVE, MOUNTED, 0, "11 01 000003 00", NULL, 0,
     SENSE("F0", "08", "00000001", "0005"), NULL, AT("00", "00000005")},
    {"SPACE filemarks 8,388,607 at 0 of five", FIVE, MOUNTED, 0, "11 01 7FFFFF 00", NULL, 0,
     SENSE("F0", "08", "007FFFFD", "0005"), NULL, AT("00", "00000005")},
    {"SPACE filemarks -8,388,608 at 5 of five", AS_IT_STANDS, 0, 0, "11 01 800000 00", NULL, 0,
     SENSE("F0", "40", "FF800002", "0004"), NULL, AT_THE_BEGINNING},
    {"SPACE blocks 5 at 0 of five", FIVE, MOUNTED, 0, "11 00 000005 00", NULL, 0,
     SENSE("F0", "80", "00000003", "0001"), NULL, AT("00", "00000003")},
    {"SPACE blocks 0 at 3", AS_IT_STANDS, 0, 0, "11 00 000000 00", NULL, 0, NULL, NULL, AT("00", "00000003")},
    {"SPACE filemarks 0 at 3", AS_IT_STANDS, 0, 0, "11 01 000000 00", NULL, 0, NULL, NULL, AT("00", "00000003")},
    {"SPACE to end of data, any count", AS_IT_STANDS, 0, 0, "11 03 FFFFFE 00", NULL, 0, NULL, NULL,
     AT("00", "00000005")},
    {"WRITE 1 at 1 of five", FIVE, MOUNTED, 1, "0A 00 000001 00", "21", 0, NULL, NULL, AT("00", "00000002")},
    {"what stood behind it is gone: READ 5", AS_IT_STANDS, 0, 0, READ_FIVE, NULL, 5,
     SENSE("F0", "08", "00000005", "0005"), "", AT("00", "00000002")},
    {"SPACE (16) blocks -5 at 2 of E", EXAMPLE_E, MOUNTED, 2, "91 00 0000 FFFFFFFFFFFFFFFB 0000 00 00", NULL, 0,
     SENSE("F0", "80", "FFFFFFFB", "0001"), NULL, AT("00", "00000001")},
    {"SPACE (16) filemarks 1 at 0 of E", EXAMPLE_E, MOUNTED, 0, "91 01 0000 0000000000000001 0000 00 00", NULL, 0,
     NULL, NULL, AT("00", "00000002")},
    {"SPACE (16) to end of data", EXAMPLE_E, MOUNTED, 0, "91 03 0000 0000000000000000 0000 00 00", NULL, 0, NULL, NULL,
     AT("00", "00000002")},
    {"SPACE (16) blocks 2^31 + 1 at 0 of five: the residue fits", FIVE, MOUNTED, 0,
     "91 00 0000 0000000080000001 0000 00 00", NULL, 0, SENSE("F0", "80", "7FFFFFFF", "0001"), NULL,
     AT("00", "00000003")},
    {"SPACE (16) blocks 2^31 + 2 at 0 of five: the residue does not fit", FIVE, MOUNTED, 0,
     "91 00 0000 0000000080000002 0000 00 00", NULL, 0, SENSE("70", "80", NO_INFORMATION, "0001"), NULL,
     AT("00", "00000003")},
    {"SPACE (16) blocks -2^31 - 2 at 2 of five: the residue fits", FIVE, MOUNTED, 2,
     "91 00 0000 FFFFFFFF7FFFFFFE 0000 00 00", NULL, 0, SENSE("F0", "40", "80000000", "0004"), NULL,
     AT_THE_BEGINNING},
    {"SPACE (16) blocks -2^31 - 3 at 2 of five: the residue does not fit", FIVE, MOUNTED, 2,
     "91 00 0000 FFFFFFFF7FFFFFFD 0000 00 00", NULL, 0, SENSE("70", "40", NO_INFORMATION, "0004"), NULL,
     AT_THE_BEGINNING},
    {"LOCATE (16) object 2 of E", EXAMPLE_E, MOUNTED, 0, "92 00 00 00 0000000000000002 000000 00", NULL, 0, NULL, NULL,
     AT("00", "00000002")},
    {"LOCATE (16) object 3 of E", EXAMPLE_E, MOUNTED, 0, "92 00 00 00 0000000000000003 000000 00", NULL, 0,
     SENSE("70", "08", NO_INFORMATION, "0005"), NULL, AT("00", "00000002")},
    {"LOCATE (16) object 2^32 of E", EXAMPLE_E, MOUNTED, 1, "92 00 00 00 0000000100000000 000000 00", NULL, 0,
     SENSE("70", "08", NO_INFORMATION, "0005"), NULL, AT("00", "00000002")},
    {"LOCATE (16) file 0 of E", AS_IT_STANDS, 0, 0, "92 08 00 00 0000000000000000 000000 00", NULL, 0, NULL, NULL,
     AT_THE_BEGINNING},
    {"LOCATE (16) file 1 of E", AS_IT_STANDS, 0, 0, "92 08 00 00 0000000000000001 000000 00", NULL, 0, NULL, NULL,
     AT("00", "00000002")},
    {"LOCATE (16) file 2 of E", EXAMPLE_E, MOUNTED, 0, "92 08 00 00 0000000000000002 000000 00", NULL, 0,
     SENSE("70", "08", NO_INFORMATION, "0005"), NULL, AT("00", "00000002")},
    {"LOCATE (16) to end of data, any identifier, IMMED", EXAMPLE_E, MOUNTED, 0,
     "92 19 00 00 FFFFFFFFFFFFFFFF 000000 00", NULL, 0, NULL, NULL, AT("00", "00000002")},
    {"LOCATE (16) with CP, partition 0", AS_IT_STANDS, 0, 0, "92 02 00 00 0000000000000001 000000 00", NULL, 0, NULL,
     NULL, AT("00", "00000001")},
    {"LOCATE without CP, any partition byte", AS_IT_STANDS, 0, 0, "2B 00 00 00000000 00 FF 00", NULL, 0, NULL, NULL,
     AT_THE_BEGINNING},
    {"LOCATE with CP, partition 0, IMMED", AS_IT_STANDS, 0, 0, "2B 03 00 00000002 00 00 00", NULL, 0, NULL, NULL,
     AT("00", "00000002")},
};

static inline void try_edges(struct wire *wire)
{
    try_steps(wire, full_tape, COUNT(full_tape));
    try_steps(wire, on_example_e, COUNT(on_example_e));
    try_steps(wire, at_end_of_data, COUNT(at_end_of_data));
    try_steps(wire, moving, COUNT(moving));
}

#endif
