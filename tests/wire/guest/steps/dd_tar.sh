# dd_tar.sh: dd in fixed and in variable blocks of several lengths up to the drive's largest, blocks read with another
# length than they have, filemarks and the end of data met by dd; and GNU tar: four archives one after the other, the
# middle one read after going back over two filemarks, one extended in place. Needs a blank cartridge of 32 MiB.
# shellcheck shell=sh disable=SC1091,SC2154
. /stage/must.sh

records() { sed -n 's/^\([0-9+]*\) records in$/\1/p' /tmp/dd; }
reason() { sed -n "s/.*error \(reading\|writing\) '[^']*': //p" /tmp/dd; }

# Reads what stands up to a filemark, or one record of it.
read_all() { dd if="$tape" of=/tmp/read bs="$1"; }
read_one() { dd if="$tape" of=/tmp/read bs="$1" count=1; }

# ---- fixed blocks of 32,768, as after a mount
step 0 'file 0 block 0 of 0, object 0' rewind
must 'the block length after a mount' 32768 "$(block_size)"
must 'the status of dd, ten blocks of 32,768' 0 "$(status_of put 32768 0 10)"
must 'the place after it' 'file 1 block 0 of 0, object 11' "$(place)"
must 'the status of dd with half a block' 1 "$(status_of put 16384 0 1)"
must 'what it says' 'Invalid argument' "$(reason)"
must "the status of tar with records of 10,240 bytes" 2 "$(status_of tar -cf "$tape" /etc)"
must 'the place after both' 'file 1 block 0 of 0, object 11' "$(place)"
step 0 'file 0 block 0 of 0, object 0' rewind
must 'the ten blocks' equal "$(same 32768 0 10)"
step 0 'file 0 block 0 of 0, object 0' rewind
must 'the status of dd, four blocks at a time' 0 "$(status_of read_all 131072)"
must 'its records: two whole, and two blocks up to the filemark' 2+1 "$(records)"
must 'the place after it' 'file 1 block 0 of 0, object 11' "$(place)"
must 'the bytes of it' "$(numbered print 32768 0 10 | md5sum)" "$(md5sum </tmp/read)"

# ---- fixed blocks of 512, a hundred in one command
step 0 'file 0 block 0 of 0, object 0' rewind
step 0 'file 0 block 0 of 0, object 0' setblk 512
must 'the status of dd, a hundred blocks of 512' 0 "$(status_of put 51200 0 1)"
must 'the place after it' 'file 1 block 0 of 0, object 101' "$(place)"
step 0 'file 0 block 0 of 0, object 0' rewind
must 'the status of dd, thirty at a time' 0 "$(status_of read_all 15360)"
must 'its records' 3+1 "$(records)"
must 'the bytes of it' "$(numbered print 51200 0 1 | md5sum)" "$(md5sum </tmp/read)"
step 0 'file 0 block 0 of 0, object 0' rewind
step 0 'file 0 block 0 of 0, object 0' setblk 1024
must 'the status of dd in fixed blocks of 1,024' 1 "$(status_of read_one 1024)"
must 'what it says' 'Input/output error' "$(reason)"
must 'the object after it, since the driver goes back over a block of another length' 0 "$(object)"

# ---- variable blocks
step 0 'file 0 block 0 of 0, object 0' rewind
step 0 'file 0 block 0 of 0, object 0' setblk 0
must 'the status of dd, a block of 1 byte' 0 "$(status_of put 1 7 1)"
must 'the place after it' 'file 1 block 0 of 0, object 2' "$(place)"
must 'the status of dd, blocks of 512' 0 "$(status_of put 512 20 40)"
must 'the place after it' 'file 2 block 0 of 0, object 43' "$(place)"
must 'the status of dd, blocks of 32,768' 0 "$(status_of put 32768 60 5)"
must 'the place after it' 'file 3 block 0 of 0, object 49' "$(place)"
must 'the status of dd, blocks of 1,048,576' 0 "$(status_of put 1048576 80 6)"
must 'the place after it' 'file 4 block 0 of 0, object 56' "$(place)"
must 'the status of dd, a block of 1,048,577' 1 "$(status_of put 1048577 90 1)"
must 'the object after it' 56 "$(object)"
step 0 'file 0 block 0 of 0, object 0' rewind
must 'the block of 1 byte' equal "$(same 1 7 1)"
step 0 'file 1 block 0 of 0, object 2' fsf 1
must 'the blocks of 512' equal "$(same 512 20 40)"
step 0 'file 2 block 0 of 0, object 43' fsf 1
must 'the blocks of 32,768' equal "$(same 32768 60 5)"
step 0 'file 3 block 0 of 0, object 49' fsf 1
must 'the blocks of 1,048,576' equal "$(same 1048576 80 6)"
must 'the place behind them' 'file 3 block 6 of 0, object 55' "$(place)"

# ---- a read longer than the block gives the block; a shorter one fails (ENOMEM), and the block is passed
step 0 'file 2 block 0 of 0, object 43' asf 2
must 'the status of dd with 65,536 for a block of 32,768' 0 "$(status_of read_one 65536)"
must 'its records' 0+1 "$(records)"
must 'the bytes of it' "$(numbered print 32768 60 1 | md5sum)" "$(md5sum </tmp/read)"
must 'the place after it' 'file 2 block 1 of 0, object 44' "$(place)"
must 'the status of dd with 32,767 for a block of 32,768' 1 "$(status_of read_one 32767)"
must 'what it says' 'Cannot allocate memory' "$(reason)"
must 'the place after it' 'file 2 block 2 of 0, object 45' "$(place)"
must 'the status of dd up to the filemark' 0 "$(status_of read_all 32768)"
must 'its records' 3+0 "$(records)"
must 'the place after it' 'file 3 block 0 of 0, object 49' "$(place)"

# ---- with SILI a longer block is cut, and no more is said. (Of a shorter one the driver would learn by the transport's
# residual, which QEMU does not hand on from iSCSI.)
step 0 'file 2 block 0 of 0, object 43' asf 2
step 0 'file 2 block 1 of 0, object 44' fsr 1
must 'the status of mt stsetoptions sili' 0 "$(status_of mt stsetoptions sili)"
must 'the status of dd with 32,767 for a block of 32,768' 0 "$(status_of read_one 32767)"
must 'its records' 1+0 "$(records)"
must 'the bytes of it' "$(numbered print 32768 61 1 | head -c 32767 | md5sum)" "$(md5sum </tmp/read)"
must 'the place after it' 'file 2 block 2 of 0, object 45' "$(place)"
must 'the status of mt stclearoptions sili' 0 "$(status_of mt stclearoptions sili)"
step 0 'file 3 block 0 of 0, object 49' fsf 1

# ---- end of data: behind a filemark the first read gives nothing and no error, the next one EIO
step 0 'file 4 block 0 of 0, object 56' fsf 1
must 'the status of dd at the end of data' 0 "$(status_of read_one 512)"
must 'its records' 0+0 "$(records)"
must 'the status of dd there again' 1 "$(status_of read_one 512)"
must 'what it says' 'Input/output error' "$(reason)"
must 'the object after it' 56 "$(object)"

# ---- GNU tar: three archives of different trees, records of 10,240 bytes
tree() { # NUMBER
    mkdir -p "/tmp/tree$1/deep/er"
    numbered print $((1000 + $1 * 7919)) "$1" 3 >"/tmp/tree$1/small"
    numbered print 100000 $((200 + $1)) 5 >"/tmp/tree$1/deep/large"
    : >"/tmp/tree$1/deep/empty"
    ln -s ../../small "/tmp/tree$1/deep/er/link"
    chmod 640 "/tmp/tree$1/small"
}
archive_blocks() { gnu-tar -cf - -C "/tmp/tree$1" . | wc -c | awk '{ print $1 / 10240 }'; }
save() { tar -cf "$tape" -C "/tmp/tree$1" .; }
restore() {
    rm -rf /tmp/restored && mkdir /tmp/restored && tar -xpf "$tape" -C /tmp/restored
}
restored() { # NUMBER
    [ "$(status_of restore)" = 0 ] && diff -r "/tmp/tree$1" /tmp/restored >/tmp/said && echo equal || echo different
}
for number in 1 2 3 4; do tree "$number"; done
first=$(archive_blocks 1) second=$(archive_blocks 2) third=$(archive_blocks 3) fourth=$(archive_blocks 4)

step 0 'file 0 block 0 of 0, object 0' rewind
must 'the status of tar, archive 1' 0 "$(status_of save 1)"
must 'the place after it' "file 1 block 0 of 0, object $((first + 1))" "$(place)"
must 'the status of tar, archive 2' 0 "$(status_of save 2)"
must 'the place after it' "file 2 block 0 of 0, object $((first + second + 2))" "$(place)"
must 'the status of tar, archive 3' 0 "$(status_of save 3)"
end=$((first + second + third + 3))
must 'the place after it' "file 3 block 0 of 0, object $end" "$(place)"

# From behind the last filemark over it and the one before to the end of the second archive; over one more, and forth.
step 0 "file 1 block -1 of 0, object $((first + 1 + second))" bsf 2
step 0 "file 0 block -1 of 0, object $first" bsf 1
step 0 "file 1 block 0 of 0, object $((first + 1))" fsf 1
must 'archive 2, the middle one' equal "$(restored 2)"
step 0 "file 2 block 0 of 0, object $((first + second + 2))" fsf 1
must 'archive 3' equal "$(restored 3)"

# From the end of the third archive back over the two filemarks in front of it, and forth over one.
step 0 "file 0 block -1 of 0, object $first" bsf 2
step 0 "file 1 block 0 of 0, object $((first + 1))" fsf 1
must 'archive 2 again' equal "$(restored 2)"
step 0 'file 0 block 0 of 0, object 0' rewind
must 'archive 1' equal "$(restored 1)"
step 0 'file 0 block 0 of 0, object 0' rewind
must 'the status of tar --compare' 0 "$(status_of tar -df "$tape" -C /tmp/tree1)"

# ---- one more behind the last, and then all four
step 0 "file 3 block -1 of 0, object $end" eod
must 'the status of tar, archive 4' 0 "$(status_of save 4)"
must 'the object after it' "$((end + fourth + 1))" "$(object)"
for number in 1 2 3 4; do
    must "the status of mt asf $((number - 1))" 0 "$(status_of mt asf $((number - 1)))"
    must "archive $number" equal "$(restored "$number")"
done

# ---- tar --append goes back over the archive's last record and writes on
numbered print 5000 900 1 >/tmp/tree4/added
step 0 "file 3 block 0 of 0, object $end" asf 3
must 'the status of tar --append' 0 "$(status_of tar -rf "$tape" -C /tmp/tree4 ./added)"
step 0 "file 3 block 0 of 0, object $end" asf 3
must 'archive 4 with the file added' equal "$(restored 4)"
step 0 "file 2 block 0 of 0, object $((first + second + 2))" asf 2
must 'archive 3 in front of it' equal "$(restored 3)"

all_made 144
