# two_partitions.sh: a cartridge of two partitions by the tape driver's partition commands: each holds its own data, the
# driver comes back to where it was in the other, and numbers count in each from 0. Needs a blank cartridge of two.
# mt's manual has the words of partseek the other way round: the program takes the partition, then the block.
# shellcheck shell=sh disable=SC1091,SC2154
. /stage/must.sh

partition() { mt status | sed -n 's/.*, partition=\(.*\)\.$/\1/p'; }
there() { echo "partition $(partition), object $(object)"; }

# What the drive itself says: byte 1 of its position is the partition, bytes 4 to 7 the object.
drive_there() {
    timeout 60 sg_raw -r 20 /dev/sg0 34 00 00 00 00 00 00 00 00 00 2>&1 |
        awk '$1 == "00" && NF > 16 { print "partition " 0 + $3 ", object " 0 + ("0x" $9) }'
}

must 'the status of mt setpartition 1 without the option' 2 "$(status_of mt setpartition 1)"
must 'the status of mt stsetoptions' 0 "$(status_of mt stsetoptions can-partitions scsi2logical)"
step 0 'file 0 block 0 of 0, object 0' rewind
step 0 'file 0 block 0 of 0, object 0' setblk 0

# ---- each partition has data of its own
must 'the status of dd in partition 0' 0 "$(status_of put 1000 0 3)"
must 'the place after it' 'partition 0, object 4' "$(there)"
must 'the status of mt setpartition 1' 0 "$(status_of mt setpartition 1)"
must 'the place after mt setpartition 1' 'partition 1, object 0' "$(there)"
must 'the place by the drive' 'partition 1, object 0' "$(drive_there)"
must 'the status of dd in partition 1' 0 "$(status_of put 700 100 5)"
must 'the place after it' 'partition 1, object 6' "$(there)"

# ---- back to where it was
must 'the status of mt setpartition 0' 0 "$(status_of mt setpartition 0)"
must 'the place after mt setpartition 0' 'partition 0, object 4' "$(there)"
must 'the place by the drive' 'partition 0, object 4' "$(drive_there)"
must 'the status of dd behind the first file' 0 "$(status_of put 1000 3 2)"
must 'the place after it' 'partition 0, object 7' "$(there)"
must 'the status of mt setpartition 1' 0 "$(status_of mt setpartition 1)"
must 'the place after it' 'partition 1, object 6' "$(there)"
must 'the status of mt setpartition 2' 2 "$(status_of mt setpartition 2)"

# ---- both read back
must 'the status of mt rewind in partition 1' 0 "$(status_of mt rewind)"
must 'the place after it' 'partition 1, object 0' "$(there)"
must 'the five blocks of partition 1' equal "$(same 700 100 5)"
must 'the place behind them' 'partition 1, object 5' "$(there)"
must 'the status of mt eod in partition 1' 0 "$(status_of mt eod)"
must 'the place after it' 'partition 1, object 6' "$(there)"
must 'the status of mt partseek 0 0' 0 "$(status_of mt partseek 0 0)"
must 'the place after it' 'partition 0, object 0' "$(there)"
must 'the three blocks of partition 0' equal "$(same 1000 0 3)"
must 'the status of mt fsf in partition 0' 0 "$(status_of mt fsf 1)"
must 'the two blocks of its second file' equal "$(same 1000 3 2)"
must 'the place behind them' 'partition 0, object 6' "$(there)"

# ---- to a block of the other partition, and past its end
must 'the status of mt partseek 1 3' 0 "$(status_of mt partseek 1 3)"
must 'the place after it' 'partition 1, object 3' "$(there)"
must 'blocks 3 and 4 of partition 1' equal "$(same 700 103 2)"
must 'the status of mt partseek 0 8' 2 "$(status_of mt partseek 0 8)"
must 'the place by the drive' 'partition 0, object 7' "$(drive_there)"

# ---- erasing one leaves the other; the drive makes no partitions
must 'the status of mt partseek 0 1' 0 "$(status_of mt partseek 0 1)"
must 'the status of mt erase in partition 0' 0 "$(status_of mt erase)"
must 'the status of mt eod in partition 0' 0 "$(status_of mt eod)"
must 'the place after it' 'partition 0, object 1' "$(there)"
must 'the status of mt partseek 1 0' 0 "$(status_of mt partseek 1 0)"
must 'the five blocks of partition 1 after that' equal "$(same 700 100 5)"
must 'the status of mt partseek 0 0' 0 "$(status_of mt partseek 0 0)"
must 'the status of mt mkpartition 1' 2 "$(status_of mt mkpartition 1)"
must 'the status of mt partseek 1 0 after it' 0 "$(status_of mt partseek 1 0)"
must 'the five blocks of partition 1 after it' equal "$(same 700 100 5)"

all_made 48
