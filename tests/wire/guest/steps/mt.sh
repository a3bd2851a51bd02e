# mt.sh: every motion of mt on a tape of three files: where the tape stands after each, in the driver's reckoning and
# in the drive's own, and with which status mt ends at a filemark, at the beginning and at the end of data. Then block
# lengths, the door, load and unload, erase, and what the drive does not serve. Needs a blank cartridge of one
# partition.
#
# The objects: blocks 0 1 2, filemark 3, blocks 4 5, filemark 6, blocks 7 8 9 10, filemark 11; end of data is 12.
# mt's status: 0 done, 1 the device could not be opened, 2 the operation failed. What the driver reckons is its own:
# after a motion backwards over a filemark, and to any block but 0, it says -1 for what it cannot know.
# shellcheck shell=sh disable=SC1091,SC2154
. /stage/must.sh

# ---- after a mount (02, Q-3)
step 0 'file 0 block 0 of 0, object 0' rewind
must 'the block length after a mount' 32768 "$(block_size)"
must 'the status bits at the beginning' 'BOT ONLINE IM_REP_EN' "$(bits)"
step 0 'file 0 block 0 of 0, object 0' setblk 0
must 'the block length after mt setblk 0' 0 "$(block_size)"

# ---- three files; the driver puts a filemark behind each
must 'the status of dd, file 0' 0 "$(status_of put 100 0 3)"
must 'the place after file 0' 'file 1 block 0 of 0, object 4' "$(place)"
must 'the status of dd, file 1' 0 "$(status_of put 200 3 2)"
must 'the place after file 1' 'file 2 block 0 of 0, object 7' "$(place)"
must 'the status of dd, file 2' 0 "$(status_of put 300 5 4)"
must 'the place after file 2' 'file 3 block 0 of 0, object 12' "$(place)"

# ---- blocks and filemarks, forwards and back
step 0 'file 0 block 0 of 0, object 0' rewind
step 0 'file 0 block 2 of 0, object 2' fsr 2
step 0 'file 0 block 1 of 0, object 1' bsr 1
step 0 'file 1 block 0 of 0, object 4' fsf 1
must 'the status bits behind a filemark' 'EOF ONLINE IM_REP_EN' "$(bits)"
step 0 'file 1 block 1 of 0, object 5' fsr 1
step 2 'file 2 block 0 of 0, object 7' fsr 5
step 2 'file 1 block -1 of 0, object 6' bsr 1
step 0 'file 0 block -1 of 0, object 3' bsf 1
step 0 'file 2 block 0 of 0, object 7' asf 2
step 0 'file 2 block 0 of 0, object 7' bsfm 1
step 0 'file 2 block -1 of 0, object 11' fsfm 1
step 0 'file 0 block -1 of 0, object 3' bsf 2
step 0 'file 3 block 0 of 0, object 12' fsf 3

# ---- at the beginning
step 0 'file 0 block 0 of 0, object 0' rewind
step 2 'file 0 block 0 of 0, object 0' bsr 1
step 2 'file 0 block 0 of 0, object 0' bsf 1
step 0 'file 0 block 2 of 0, object 2' fsr 2
step 2 'file 0 block 0 of 0, object 0' bsr 3
step 0 'file 1 block 0 of 0, object 4' fsf 1
step 2 'file 0 block 0 of 0, object 0' bsf 2

# ---- at the end of data
step 0 'file 3 block -1 of 0, object 12' eod
must 'the status bits at the end of data' 'EOD ONLINE IM_REP_EN' "$(bits)"
step 2 'file 3 block -1 of 0, object 12' fsf 1
step 2 'file 3 block -1 of 0, object 12' fsr 1
step 0 'file 0 block 0 of 0, object 0' rewind
step 2 'file 3 block -1 of 0, object 12' fsf 4

# ---- by number, in both of the driver's ways
step 0 'file -1 block -1 of 0, object 5' seek 5
must 'block 5' equal "$(same 200 4 1)"
step 0 'file -1 block -1 of 0, object 12' seek 12
step 2 'file -1 block -1 of 0, object 12' seek 13
step 0 'file 0 block 0 of 0, object 0' seek 0
step 0 'file 0 block 0 of 0, object 0' stsetoptions scsi2logical
must 'the option scsi2logical' 1 "$(mt stshowoptions | grep -c ' scsi2logical')"
step 0 'file -1 block -1 of 0, object 8' seek 8
must 'block 8' equal "$(same 300 6 1)"
step 2 'file -1 block -1 of 0, object 12' seek 13
step 0 'file 0 block 0 of 0, object 0' seek 0

# ---- without waiting (IMMED), which changes nothing; and in one command to the end of data: the driver has no number
must 'the status of mt stsetoptions no-wait' 0 "$(status_of mt stsetoptions no-wait)"
step 0 'file 1 block 0 of 0, object 4' fsf 1
step 0 'file 0 block 0 of 0, object 0' rewind
step 0 'file -1 block -1 of 0, object 5' seek 5
step 0 'file 0 block 0 of 0, object 0' retension
must 'the status of mt stclearoptions no-wait' 0 "$(status_of mt stclearoptions no-wait)"
must 'the status of mt stsetoptions fast-eod' 0 "$(status_of mt stsetoptions fast-eod)"
step 0 'file -1 block -1 of 0, object 12' eod
must 'the status of mt stclearoptions fast-eod' 0 "$(status_of mt stclearoptions fast-eod)"
step 0 'file 0 block 0 of 0, object 0' rewind

# ---- filemarks, and the data in front of them
step 0 'file 3 block -1 of 0, object 12' eod
step 0 'file 5 block 0 of 0, object 14' weof 2
step 0 'file 4 block -1 of 0, object 13' bsf 1
step 0 'file 2 block -1 of 0, object 11' bsf 2
step 0 'file 2 block 0 of 0, object 7' bsfm 1
must 'file 2' equal "$(same 300 5 4)"
must 'the place behind the last block of file 2' 'file 2 block 4 of 0, object 11' "$(place)"

# ---- what the drive does not serve changes nothing
step 0 'file 0 block 0 of 0, object 0' rewind
step 2 'file 0 block 0 of 0, object 0' fss 1
step 2 'file 0 block 0 of 0, object 0' wset 1
step 2 'file 0 block 0 of 0, object 0' setdensity 64
step 2 'file 0 block 0 of 0, object 0' drvbuffer 1
step 2 'file 0 block 0 of 0, object 0' compression 1
must 'the status bits after that' 'BOT ONLINE IM_REP_EN' "$(bits)"
step 0 'file 5 block -1 of 0, object 14' eod

# ---- block lengths: 1 to 1,048,576 and 0
step 0 'file 5 block -1 of 0, object 14' setblk 1048576
must 'the block length after mt setblk 1048576' 1048576 "$(block_size)"
step 2 'file 5 block -1 of 0, object 14' setblk 1048577
must 'the block length after mt setblk 1048577' 1048576 "$(block_size)"
step 0 'file 5 block -1 of 0, object 14' setblk 1
must 'the block length after mt setblk 1' 1 "$(block_size)"
step 0 'file 5 block -1 of 0, object 14' setblk 0

# ---- the door: locked, the drive refuses an unload; mt offline unlocks it first
step 0 'file 0 block 0 of 0, object 0' rewind
step 0 'file 0 block 0 of 0, object 0' lock
must 'a raw unload while locked' 'Illegal Request/Medium removal prevented' "$(sense_of /dev/sg0 1b 00 00 00 00 00)"
must 'the place after it' 'file 0 block 0 of 0, object 0' "$(place)"
step 0 'file 0 block 0 of 0, object 0' unlock

# ---- retension is a rewind
step 0 'file 1 block 0 of 0, object 4' fsf 1
step 0 'file 0 block 0 of 0, object 0' retension

# ---- unload and load. Without a tape the driver waits two minutes for one, so that wait is cut short (143).
step 0 'file 1 block 0 of 0, object 4' fsf 1
must 'the status of mt offline' 0 "$(status_of mt offline)"
must 'the status bits after mt offline' 'DR_OPEN IM_REP_EN' "$(bits)"
must 'the status of mt rewind without a tape' 143 "$(status_of timeout 3 mt-st -f "$tape" rewind)"
must 'the status of mt load' 0 "$(status_of mt load)"
must 'the place after mt load' 'file 0 block 0 of 0, object 0' "$(place)"
must 'the status bits after mt load' 'BOT ONLINE IM_REP_EN' "$(bits)"
must 'the block length after mt load, a mount' 32768 "$(block_size)"
step 0 'file 0 block 0 of 0, object 0' setblk 0
must 'file 0 after mt load' equal "$(same 100 0 3)"
step 0 'file 5 block -1 of 0, object 14' eod
must 'the status of mt load with a tape loaded' 0 "$(status_of mt load)"
must 'the object after it' 0 "$(object)"

# ---- erase from a place on: the drive does not move
step 0 'file -1 block -1 of 0, object 9' seek 9
must 'the status of mt erase' 0 "$(status_of mt erase)"
must 'the object after mt erase' 9 "$(object)"
must 'the status of mt fsr at the new end of data' 2 "$(status_of mt fsr 1)"
step 0 'file 0 block 0 of 0, object 0' rewind
step 0 'file 2 block -1 of 0, object 9' eod
step 0 'file 0 block 0 of 0, object 0' rewind
must 'the status of a short mt erase' 0 "$(status_of mt erase 0)"
step 0 'file 0 block -1 of 0, object 0' eod

# ---- two filemarks behind a file, and back over one
must 'the status of mt stsetoptions two-fms' 0 "$(status_of mt stsetoptions two-fms)"
step 0 'file 0 block 0 of 0, object 0' rewind
must 'the status of dd' 0 "$(status_of put 100 0 2)"
must 'the place after it' 'file 1 block 0 of 0, object 3' "$(place)"
step 0 'file 2 block -1 of 0, object 4' eod

all_made 187
