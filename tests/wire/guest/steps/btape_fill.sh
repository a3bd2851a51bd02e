# btape_fill.sh: Bacula's btape fill, with one tape: it writes a volume in blocks of 64,512 bytes until the drive warns
# of the end, re-reads the last block, then the first 10,000 records, and goes to the last block once more. Needs a
# blank cartridge of 400 MiB. The argument is the number of blocks behind the label's filemark with which early warning
# comes, by document 01's rule of room.
# shellcheck shell=sh disable=SC1091,SC2154
. /stage/must.sh

must 'the status of mt setblk 0' 0 "$(status_of mt setblk 0)"
must 'the status of mt rewind' 0 "$(status_of mt rewind)"
answer_btape /stage/bacula-sd.conf fill s '' quit
must 'the status of btape fill' 0 "$(cat /tmp/status)"

says 1 'Wrote Volume label for volume "TestVolume1".'
says 1 'Wrote Start of Session label.'
place="\"TestVolume1\" at 1:$1 on device \"Tape\" ($tape)"
says 1 "btape JobId 0: [SI0202] End of Volume $place. Write of 64512 bytes got -1."
says 1 'btape JobId 0: Re-read of last block succeeded.'
says 1 "Reading block $(($1 - 1))."
says 1 'The last block on the tape matches. Test succeeded.'
says_no_failure

all_made 10
