# protected.sh: a protected cartridge. In the first run, with the argument `before`, four numbered blocks are written to
# a cartridge of one partition, not yet protected; in the second, with `after`, it is: writing, erasing and filemarks
# are refused, by the tape driver to a program and by the drive to a raw command block, and the blocks stand.
# shellcheck shell=sh disable=SC1091,SC2154
. /stage/must.sh

# EROFS: a protected tape cannot be opened for writing. The drive's own answer is 7/27/00, at any count.
refused='Data Protect/Write protected'

before() {
    must 'the status of mt setblk 0' 0 "$(status_of mt setblk 0)"
    must 'the status of mt rewind' 0 "$(status_of mt rewind)"
    must 'the status of dd' 0 "$(status_of put 5000 0 4)"
    must 'the place after it' 'file 1 block 0 of 0, object 5' "$(place)"
    must 'the status bits' 'EOF ONLINE IM_REP_EN' "$(bits)"
    all_made 5
}

after() {
    step 0 'file 0 block 0 of 0, object 0' setblk 0
    step 0 'file 0 block 0 of 0, object 0' rewind
    must 'the status bits' 'BOT WR_PROT ONLINE IM_REP_EN' "$(bits)"
    must 'the status of dd' 1 "$(status_of put 5000 0 4)"
    must 'what dd says' 1 "$(grep -c "failed to open '$tape': Read-only file system" /tmp/dd)"
    step 1 'file 0 block 0 of 0, object 0' weof 1
    must 'what mt weof says' 1 "$(mt weof 1 2>&1 | grep -c 'Read-only file system')"
    step 1 'file 0 block 0 of 0, object 0' erase
    must 'what mt erase says' 1 "$(mt erase 2>&1 | grep -c 'Read-only file system')"
    echo bytes >/tmp/sent
    must 'a raw WRITE' "$refused" "$(sense_of -s 5 -i /tmp/sent /dev/sg0 0a 00 00 00 05 00)"
    must 'a raw WRITE of nothing' "$refused" "$(sense_of /dev/sg0 0a 00 00 00 00 00)"
    must 'a raw WRITE FILEMARKS' "$refused" "$(sense_of /dev/sg0 10 00 00 00 01 00)"
    must 'a raw WRITE FILEMARKS of none' "$refused" "$(sense_of /dev/sg0 10 00 00 00 00 00)"
    must 'a raw ERASE' "$refused" "$(sense_of /dev/sg0 19 00 00 00 00 00)"
    must 'a raw long ERASE' "$refused" "$(sense_of /dev/sg0 19 01 00 00 00 00)"
    must 'the place after all' 'file 0 block 0 of 0, object 0' "$(place)"
    must 'the four blocks' equal "$(same 5000 0 4)"
    must 'the place behind them' 'file 0 block 4 of 0, object 4' "$(place)"
    step 0 'file 1 block -1 of 0, object 5' eod
    all_made 24
}

"$1"
