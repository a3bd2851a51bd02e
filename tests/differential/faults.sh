#!/usr/bin/env bash
# faults.sh: shows that tests/differential/differential.c can fail: the run of check finds each slip that is seeded in
# the model, or, where a store may not go, behind the library; those marked so, the run with the largest work. The slips
# of the directory's check are shown to tests/differential/damage.c too, and some to it alone; those of the movement by
# sixteen bytes come next, then those of end of data, those of the objects crossed, those of two moves or one, which are
# seeded in the rule that holds the calls to each other, those of the block length that a mount sets, those of sense in
# descriptor form, of which the last are seeded in the readers that hold both forms to each other, and last those of the
# largest block, of which the first are the directory's too.
# LIBRARY names another archive than the one that is built here from the sources.
set -u
cd "$(dirname "$0")/../.." || exit 2
. tests/library.sh
calls=550000 # as in check
failed=0

# Shows the slips from a number on, one after the other, to the run of check.
show_from() { # NUMBER WHAT
    local fault
    echo "$2"
    for fault in $(seq "$1" $((${#slips[@]} - 1))); do
        run_with_slip "$fault" "${slips[fault]}" tests/differential/differential.c 1 "$calls" || failed=1
    done
}

slips=(
    "none"
    "a residue of filemarks off by one"
    "the wrong sign in a variable READ's information"
    "the partition cut before the first object is known to fit"
    "the zone at most, and not below, a sixteenth"
    "the odd block counted as read in a FIXED residue"
    "the operation code told before the attention"
    "the write protection of the other partition in MODE SENSE"
    "LONG zeroes only up to the old directory"
    "SILI hides overlength with a nonzero block length"
    "N cut to 16 bits"
    "N cut to 20 bits"
    "N cut to 24 bits"
    "the position cut to 16 bits"
    "the position cut to 17 bits"
    "the filemarks before the position cut to 16 bits"
    "a count of FIXED cut to 16 bits"
    "a count of FIXED cut to 17 bits"
    "a command block's length compared in 8 bits"
    "a command block's length compared in 16 bits"
    "bytes carried cut to 24 bits"
    "bytes carried cut to 28 bits"
    "LONG zeroes at most 2^24 bytes"
    "LONG zeroes at most 2^28 bytes"
    "room x 16 in 32 bits"
    "SPACE stores to the partition"
    "a WRITE that puts nothing stores to the partition"
    "a WRITE stores to the partition that is not current"
    "a command that hands nothing over stores to the receiving buffer"
    "a refused command stores to the record"
    "a command block's length compared in 32 bits"
    "largest: bytes carried cut to 29 bits"
    "largest: LONG zeroes at most 2^29 bytes"
)
# Slips of the check of a directory.
directory=${#slips[@]}
slips+=(
    "the end carried over a filemark is 0"
    "an entry judged by the end of the entry after it"
    "the first object judged by end(1)"
)
run_with_slips tests/differential/differential.c "$calls" "${slips[@]}" || failed=1

# The random work damages no directory that is long enough for these.
slips+=(
    "the first of every 32 entries not judged, but for the very first"
    "the entries behind the last whole 32 not judged"
)
echo "on damaged directories"
for fault in 0 $(seq "$directory" $((${#slips[@]} - 1))); do
    run_with_slip "$fault" "${slips[fault]}" tests/differential/damage.c 1 || failed=1
done

# Slips of LOCATE (16) and SPACE (16), each with the wrong answer that it gives.
moves=${#slips[@]}
slips+=(
    "an identifier cut to 32 bits, 2^32 goes to 0"
    "LOCATE (16) to a file stops before its filemark, not just after it"
    "a residue of 2^31 fits, it is told as 80000000h with VALID"
    "a count of -2^63 taken as 0, GOOD where it is"
    "destination 2 served as a file, no 5/24/00"
    "the partition of LOCATE (16) taken from byte 8, which is the identifier's"
    "a residue of -2^31 does not fit, it is told as 0 without VALID"
    "files counted from the position and not from the beginning"
    "a file without objects is past the end, 8/00/05"
    "the file behind the last filemark is past the end, 8/00/05"
    "a count of SPACE (16) cut to 32 bits, 2^32 is GOOD where it is"
    "a residue that does not fit told by its low 32 bits, without VALID"
    "destinations judged after the cartridge, 2/3A/00 and no 5/24/00"
    "byte 3 of LOCATE (16) names a partition without CP too"
    "past the end of the other partition LOCATE (16) stays on this one"
    "end of data judged by the identifier, 8/00/05 where it is past N"
    "FILEMARK and EOM are left out with a residue that does not fit"
    "no file above 65,535 is found, 8/00/05"
    "no file above 16,777,215 is found, 8/00/05"
)
show_from "$moves" "on movement by sixteen bytes"

# Slips of EOM at end of data, each with the wrong answer that it gives.
ends=${#slips[@]}
slips+=(
    "EOM never told at end of data, as 01 had it, 08h in the zone"
    "EOM always told at end of data, 48h before the zone"
    "EOM told by the position at which the command began, not by N"
    "EOM told by the partition at which LOCATE began, not by its target"
    "EOM told by partition 0, also where end of data is met in partition 1"
    "at end of data the zone at most, and not below, a sixteenth, 48h on its bound"
    "at end of data room x 16 in 32 bits, 48h where much is left"
    "EOM told where no entry fits any more, and not by the zone"
    "EOM told with READ alone, 08h with SPACE and LOCATE in the zone"
    "EOM told with READ and SPACE alone, as 002 has it, 08h with LOCATE in the zone"
    "EOM told with the short forms alone, 08h with those of sixteen bytes in the zone"
    "EOM not told with FIXED READ, 08h in the zone"
    "EOM not told with LOCATE (16) to a file, 08h in the zone"
    "key 0 with EOM, as at the beginning, 40h in the zone"
    "no residue with EOM, 70h first and information 0 in the zone"
    "SPACE to end of data, code 3, tells end of data in the zone and is not GOOD"
    "LOCATE to N, or to end of data, tells end of data in the zone and is not GOOD"
    "EOM told with a filemark too that READ meets in the zone, C0h"
    "EOM told by the target's room and the length of the partition at which LOCATE began"
)
show_from "$ends" "on end of data"

# Slips of the number of objects that SPACE crossed, each with the wrong answer that it gives. SPACE is of either length
# where nothing else is said, and the number of the SPACE before is told by the call right after it alone.
crossed=${#slips[@]}
slips+=(
    "those counted told in place of those crossed, 2 for two blocks and the filemark that ends them"
    "the filemark that ends a SPACE over blocks not crossed, 0 where it is the only object met"
    "blocks not crossed on the way to a filemark, 1 behind any number of them"
    "filemarks left out, 2 for two blocks and a filemark to end of data too"
    "0 to end of data, code 3, from wherever"
    "0 by a count of 0, to end of data too, where the count is ignored"
    "1 by a count of 0 where an object follows"
    "0 by SPACE (16), told by SPACE of six bytes alone"
    "0 by SPACE of six bytes, told by SPACE (16) alone"
    "told only where GOOD, 0 with CHECK CONDITION"
    "told only with CHECK CONDITION, 0 where GOOD"
    "0 where it goes back, told where it goes on"
    "less than 0 where it goes back, FFFFFFFh for 1"
    "0 at end of data and at the beginning, told at a filemark and where GOOD"
    "the residue told in place of those crossed, 0 where GOOD"
    "the count told in place of those crossed, 5 where a filemark ends it as the third"
    "the new position told in place of the distance, N to end of data from wherever"
    "all N of them told as N - 1"
    "0 in partition 1, told in partition 0 alone"
    "those crossed cut to 16 bits, 0 for 65,536"
    "those crossed cut to 20 bits, 0 for 1,048,576"
    "those crossed cut to 24 bits, 0 for 16,777,216"
    "a bit too low, CHECK CONDITION for 1 and GOOD"
    "a bit too high, 2 for 1"
    "LOCATE tells its distance, and not 0"
    "LOCATE (16) tells its distance, and not 0"
    "READ tells how many objects it passed, and not 0"
    "WRITE tells how many blocks it put, and not 0"
    "WRITE FILEMARKS tells how many it put, and not 0"
    "REWIND tells its distance, and not 0"
    "LOAD UNLOAD tells how far it went back, and not 0"
    "an attention told with the number of the SPACE before"
    "5/24/00 of a SPACE told with the number of the SPACE before"
    "2/3A/00 of a SPACE told with the number of the SPACE before"
    "a SPACE refused by 1 with the number of the SPACE before"
    "a SPACE refused by 4 with the number of the SPACE before"
    "a SPACE refused by 4 with the number that it would have had"
    "another command answers with the number of the SPACE before"
    "a house service answers with the number of the SPACE before"
    "a SPACE that crosses nothing answers with the number of the SPACE before"
    "0 always, as before there was a fourth number"
)
show_from "$crossed" "on how far a SPACE went"

# Slips of the rule for two moves or one, each with the pair that shows it. It holds the library's calls to each other,
# so each of these is a claim that Q-12 does not make.
merged=${#slips[@]}
slips+=(
    "mixed signs over filemarks merge too, 2 and -1 end where 1 does"
    "filemarks by a and then by -a come home"
    "a first that stops at a filemark counts as GOOD, the one goes on where the second does"
    "a first that stops at end of data or at the beginning counts as GOOD"
    "the objects crossed add up for all signs, 4 for blocks 3 and then -1"
    "a sum that 24 bits do not hold sent by its low 24 bits, back for 2^23"
    "the residue of the one is the first's, not longer by the second's count"
    "an attention told to the first, and the one moves all the same"
    "the one keeps the sense that the first left, where the second is stopped"
    "the one that is GOOD was two that are, for blocks that turn too"
    "a first that is refused counts as GOOD, as its status is 00h"
    "a residue of the one that no longer fits told by its low 32 bits"
    "a second by 0 changes nothing, the one ends as it does though the first was stopped"
)
show_from "$merged" "on two moves or one"

# Slips of the block length that a mount sets and the other calls keep, each with the length that it leaves or takes.
mounted=${#slips[@]}
slips+=(
    "fresh sets 32,768 too, and not 0"
    "LOAD sets 32,768, whatever is selected"
    "LOAD sets 0, also right behind the mount"
    "an unload sets 0, also right behind the mount"
    "an unload sets 32,768, whatever is selected"
    "a mount sets 0, as 01 had it"
    "a mount keeps what is set, 0 behind fresh and what was selected behind an unload"
    "a mount sets 32,768 only where it was 0, and keeps what was selected"
    "a mount of two partitions sets 0"
    "a mount of one partition sets 0"
    "a mount sets 1,048,576, the largest there is"
    "a mount sets 512"
    "a mount sets 32,767"
    "a mount refused by 5 sets 32,768 on the loaded drive"
    "a mount refused by 6 sets 32,768"
    "a mount refused by 7 sets 32,768"
    "MODE SELECT of 0 sets 32,768, as if 0 were no length"
    "MODE SENSE tells 0 where 32,768 is set"
    "SILI hides overlength with 32,768 as it does with 0, GOOD and no ILI"
    "FIXED is a field error with 32,768, as if only MODE SELECT set one"
    "a block of 32,768 fits by its data alone, without the four bytes of its entry"
)
show_from "$mounted" "on the block length of a mount"

# Slips of REQUEST SENSE with the bit that asks for descriptors, each with the wrong answer that it gives.
described=${#slips[@]}
slips+=(
    "the value not sign-extended, 00000000FFFFFFFBh for -5"
    "byte 7 counts itself, 11h with a value and 05h without"
    "the stream descriptor before the information descriptor"
    "the form decided by the REQUEST SENSE before, not by the call's own bit"
    "bit 4 of byte 2 passed through to the flags, F0h for all bits"
    "number 3 asks for eighteen bytes in descriptor form too, where twelve are enough"
    "an information descriptor without VALID too, 24 bytes always"
    "no stream descriptor where no flag is set, 8 bytes for nothing told"
    "an attention told in fixed form, though the bit is set"
    "72h first in the kept sense behind a REQUEST SENSE in descriptor form"
    "the kept sense stays behind a REQUEST SENSE in descriptor form, and is told again"
    "the attention waits on behind a REQUEST SENSE in descriptor form, and is told again"
    "bit 1 of byte 1 accepted as well, no 5/24/00"
    "the descriptor form cut at eighteen bytes"
    "the key with its high nibble, 80h in byte 1 at a filemark"
    "the bit a field error, 5/24/00 as 01 had it"
    "the bit accepted and not heeded, eighteen bytes for either"
    "number 3 asks for 24 bytes in descriptor form always, where twelve are enough"
    "byte 7 told by what the allocation leaves, 04h for 24 bytes cut at 12"
    "the information descriptor's length told with its head, 0Ch"
    "the value in bytes 4-7 of its descriptor, and zeros behind it"
    "80h left out of the information descriptor, 00 0A 00 00"
    "the flags in byte 2 of the stream descriptor"
    "VALID left in the response code, F2h"
    "VALID told by F0h in byte 0, and not by its bit 7 alone"
    "allocation 0 clears nothing in descriptor form"
    "the kept sense told in descriptor form while an attention waits"
    "an attention told with a value of 0, where the kept sense is VALID"
    "the fixed form made again of what it says, other bytes as a drive has them"
    "number 3 asks for 24 bytes in fixed form too, where eighteen are enough"
    "a residue that 32 signed bits do not hold told in eight bytes, and not left out"
    "a REQUEST SENSE in descriptor form that number 3 refuses clears the kept sense"
    "5/24/00 of a REQUEST SENSE with the bit clears the attention"
    "a host that reads the value without a sign"
    "a host that reads the flags in byte 2 of the stream descriptor"
    "a host that takes byte 7 for the number of all bytes"
)
show_from "$described" "on sense in descriptor form"

# Slips of the largest block, each with the wrong answer that it gives. Those of the directory's check come first, and
# of these the last is protection's, by which no damaged directory is judged.
large=${#slips[@]}
slips+=(
    "the image rule left at 65,536, a block of 65,537 is unsound"
    "the image rule one too high, a block of 1,048,577 is sound"
    "a block's length in an entry compared in 20 bits, 1,048,576 is none and 1,048,577 is 1"
    "the image rule left at 65,536 for the mount alone, 6"
    "the image rule left at 65,536 for the view alone, the empty part"
    "the image rule left at 65,536 for commands alone, 4"
    "the image rule left at 65,536 for partition 1 alone, 6 by a mount and 4 by a command"
    "the image rule left at 65,536 for protection alone, 6"
)
protection=$((${#slips[@]} - 1))
slips+=(
    "the record's rule left at 65,536, 4 for 65,537"
    "the record's rule one too high, 1,048,577 is well formed"
    "the record's rule left at 65,536 for the mount alone, 4 and no 5 while loaded"
    "MODE SELECT left at 65,536, 5/26/00 for 65,537"
    "MODE SELECT of 1,048,577 accepted, no 5/26/00"
    "MODE SELECT sets the low 16 bits, 1 for 65,537"
    "MODE SELECT sets the low 20 bits, 0 for 1,048,576"
    "MODE SENSE tells the low 16 bits, 00 00 01 for 65,537"
    "a variable WRITE's field error left at 65,536, 5/24/00 for 65,537"
    "a variable WRITE of 1,048,577 accepted, no 5/24/00"
    "a variable WRITE's length judged after the cartridge, 2/3A/00 and no 5/24/00 for 1,048,577"
    "READ BLOCK LIMITS as 01 had it, 00 01 00 00 00 01"
    "READ BLOCK LIMITS with two bytes exchanged, 00 00 10 00 00 01"
    "a mount sets 65,536, the largest there was"
    "length x block length in 32 bits, nothing is needed for 4,096 x 1,048,576"
    "length x block length in 40 bits, nothing is needed for 1,048,576 x 1,048,576"
    "bytes carried cut to 16 bits, 0 for 65,536"
    "bytes carried cut to 20 bits, 0 for 1,048,576"
    "of a larger block 65,536 bytes are laid, and all of them told as carried"
    "a variable READ above 1,048,576 a field error, 5/24/00"
    "number 3 asks a variable READ for 1,048,576 bytes at most, however many it may need"
    "a shorter block's information cut to 20 bits, 0 for 1,048,577 of a block of 1"
    "the residue of a variable WRITE cut to 20 bits, 0 for 1,048,576"
    "the length of a view cut to 20 bits, 0 for 1,048,576"
    "FIXED under a block length above 65,536 a field error, 5/24/00"
    "where FIXED WRITE takes a block from cut to 20 bits, the second of 1,048,576 is the first again"
    "where FIXED READ lays a block cut to 20 bits, the second of 1,048,576 over the first"
    "FIXED READ compares lengths in 16 bits, a block of 1 is one of 65,537"
)
show_from "$large" "on the largest block"
echo "on damaged directories"
for fault in $(seq "$large" $((protection - 1))); do
    run_with_slip "$fault" "${slips[fault]}" tests/differential/damage.c 1 || failed=1
done
exit "$failed"
