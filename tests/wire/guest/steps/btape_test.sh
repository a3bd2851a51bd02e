# btape_test.sh: Bacula's own test of a tape drive, btape test, with the words that it must say, and the lines whole: it
# writes and re-reads 20,000 blocks in two files, goes to single blocks, appends at the end of data, goes back over a
# filemark and a block, and forwards over files. Needs a blank cartridge of 256 MiB: in Bacula's usual blocks of 64,512
# bytes it would write more than the largest cartridge holds, so they are shorter here.
# shellcheck shell=sh disable=SC1091,SC2154
. /stage/must.sh

sed 's/^  Archive Device.*/&\n  Maximum Block Size = 8192/' /stage/bacula-sd.conf >/tmp/bacula-sd.conf
must 'the status of mt setblk 0' 0 "$(status_of mt setblk 0)"
must 'the status of mt rewind' 0 "$(status_of mt rewind)"
answer_btape /tmp/bacula-sd.conf test quit
must 'the status of btape test' 0 "$(cat /tmp/status)"

says 2 '10000 blocks re-read correctly.'
for number in 5 201 10000 10001 10601 20000; do says 1 "Block $number re-read correctly."; done
says 2 '=== Test Succeeded. End Write, rewind, and re-read test ==='
says 1 '1 block of 8128 bytes in file 1'
says 1 '2 blocks of 8128 bytes in file 2'
says 1 '3 blocks of 8128 bytes in file 3'
says 1 '1 block of 8128 bytes in file 4'
says 1 'Total files=4, blocks=7, bytes = 56,896'
says 1 'Block re-read correct. Test succeeded!'
says 1 '=== End Write, backup, and re-read test ==='
says 1 'We should be in file 1. I am at file 1. This is correct!'
says 2 'We should be in file 3. I am at file 3. This is correct!'
says 2 'We should be in file 4. I am at file 4. This is correct!'
says 1 'We should be in file 5. I am at file 5. This is correct!'
says 1 '=== End Forward space files test ==='
says_no_failure

all_made 24
