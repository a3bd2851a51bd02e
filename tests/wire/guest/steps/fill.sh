# fill.sh: blocks of a length until the cartridge takes no more, and all of them read back and compared. Its first
# argument is the number of lengths. Behind each length stand three words that follow from the partition's length by
# document 01's rule of room: the block with which early warning comes, how many blocks fit, and whether a filemark then
# still does (none) or does not (EIO, at close). After early warning the tape driver refuses every second write with
# ENOSPC and tries the others; a block that does not fit is one refusal more. Needs a cartridge of one partition. With
# end of data in the zone a READ there says EOM (02, Q-2), which the driver gives to a program as the end, where it
# would otherwise give EIO.
# shellcheck shell=sh disable=SC1091,SC2154
. /stage/must.sh

lengths=$1
shift
while [ $# -ge 4 ]; do
    length=$1 warned=$2 fitting=$3 at_close=$4
    shift 4
    must 'the status of mt setblk 0' 0 "$(status_of mt setblk 0)"
    must 'the status of mt rewind' 0 "$(status_of mt rewind)"
    must "writing blocks of $length bytes" \
        "warned $warned written $fitting refused $((fitting - warned + 2)) other none close $at_close" \
        "$(timeout 300 numbered fill "$tape" "$length")"
    at_end=$fitting
    [ "$at_close" != none ] || at_end=$((fitting + 1))
    must 'the object after it' "$at_end" "$(object)"
    must 'the status of mt rewind' 0 "$(status_of mt rewind)"
    must 'reading them' "equal $fitting then end" "$(timeout 300 numbered compare "$tape" "$length")"
    must 'the status of mt eod' 0 "$(status_of mt eod)"
    must 'the object at the end of data' "$at_end" "$(object)"
done

all_made $((lengths * 8))
