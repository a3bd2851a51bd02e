#!/usr/bin/env bash
# faults.sh: shows that tests/lives/lives.c can fail: the run of check finds each of twenty-four faults seeded in the
# services.
# LIBRARY names another archive than the one that is built here from the sources.
set -u
cd "$(dirname "$0")/../.." || exit 2
. tests/library.sh

faults=(
    "none"
    "a put leaves the objects behind it standing"
    "ERASE cuts one object later"
    "WRITE FIXED and WRITE FILEMARKS put one object fewer than they say"
    "protection drops the last object"
    "LOCATE of object 0 in the other partition keeps the old position"
    "the last byte of a block is another"
    "a write that does not fit cuts the partition"
    "ERASE leaves the position one beyond N"
    "READ passes the object behind a filemark"
    "LONG zeroes the last byte before the position"
    "LOCATE (16) to a file stops before its filemark"
    "SPACE (16) over filemarks stops before the last of them"
    "READ at end of data tells no EOM in the zone"
    "LOCATE (16) and SPACE (16) tell EOM at end of data before the zone too"
    "SPACE over blocks does not tell the filemark that ends it as crossed"
    "LOCATE (16) tells how far it went as crossed"
    "a mount leaves block length 0"
    "a mount keeps the block length that was selected before it"
    "an unload leaves block length 0"
    "LOAD sets the block length of a mount"
    "FIXED READ counts a block of another length as read"
    "a block above 65,536 bytes is put with its first 65,536 alone"
    "READ carries 65,536 bytes of a block at most"
    "the view of a block above 65,536 bytes is empty"
)
run_with_slips tests/lives/lives.c 200000 "${faults[@]}"
