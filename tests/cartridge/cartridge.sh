#!/usr/bin/env bash
# cartridge.sh TOOL LISTING [RUNNER]: holds the operator's tool (tools/cartridge.c) to what its --help says, on images
# that it makes and on images made by hand, and its lists to those of the listing program. RUNNER is the command, in one
# word, that runs both where the machine does not.
set -u
program=$(realpath "$1") && listing_program=$(realpath "$2") || exit 2
cd "$(dirname "$0")/../.." || exit 2
. tests/host.sh
read -ra run <<<"${3-${runner[*]}}"
listing=("${run[@]}" "$listing_program")
library=target/staticlib/libstormtoggle.a

room=$(mktemp -d) || exit 2
trap 'rm -rf "$room"' EXIT
chmod 711 "$room"
cp "$program" "$room/cartridge" || exit 2
tool=("${run[@]}" "$room/cartridge")
passed=0 failed=0

build() { # NAME SOURCE...
    "$compiler" "${flags[@]}" -o "$room/$1" "${@:2}" || exit 2
}
build strange -Wl,--wrap={flock,fsync,msync,posix_fallocate,stormtoggle_mount} tools/cartridge.c \
    tests/cartridge/strange.c "$library" &
build agree -O1 tests/cartridge/agree.c "$library" &
build write_objects tests/cartridge/write_objects.c "$library" &
build make_image tests/listing/make_image.c
wait

make_image() { "${runner[@]}" "$room/make_image" "$@"; }

# ---- what is compared

fails() { # WHAT DETAIL
    failed=$((failed + 1))
    printf 'cartridge %s: %s\n' "$1" "$2"
}

holds() { # WHAT COMMAND...
    if "${@:2}"; then passed=$((passed + 1)); else fails "$1" "does not hold: ${*:2}"; fi
}

# What was said on standard error: nothing if the pattern is empty, else one line of the tool's own that has it.
said_well() { # PATTERN
    local lines
    mapfile -t lines <"$room/said"
    if [ -z "$1" ]; then
        [ "${#lines[@]}" -eq 0 ]
    else
        [[ ${#lines[@]} -eq 1 && ${lines[0]} == 'cartridge: '* && ${lines[0]} =~ $1 ]]
    fi
}

# Compares how it ended, what it wrote with the file `wanted`, and what it said.
judge() { # ENDED STATUS PATTERN WHAT
    if [ "$1" -eq "$2" ] && cmp -s "$room/wrote" "$room/wanted" && said_well "$3"; then
        passed=$((passed + 1))
        return
    fi
    fails "$4" "status $1 and not $2, or not '$(head -c 300 "$room/wanted" | tr -d '\0')', or not said '$3'"
    { echo "it wrote"; head -n 5 "$room/wrote"; echo "it said"; head -n 5 "$room/said"; } | tr -d '\0'
}

run_tool() { # WORD...
    (cd "$room" && timeout 20 "${tool[@]}" "$@") >"$room/wrote" 2>"$room/said"
}

# All words are those of the tool; files are named in the room.
gives() { # STATUS WANTED PATTERN WORD...
    printf '%s' "$2" >"$room/wanted"
    run_tool "${@:4}"
    judge $? "$1" "$3" "${*:4}"
}

gives_file() { # FILE WORD...
    cp "$room/$1" "$room/wanted"
    run_tool "${@:2}"
    judge $? 0 '' "${*:2}"
}

with_fault() { # FAULT COMMAND...
    local tool=("${run[@]}" "$room/strange")
    FAULT=$1 "${@:2}"
}

same() { # ONE OTHER
    cmp -s "$room/$1" "$room/$2"
}

absent() { # NAME
    [ ! -e "$room/$1" ] && [ ! -L "$room/$1" ]
}

# ---- the images

# 01's example E, byte by byte.
{
    printf '\1\2\3'
    head -c 37 /dev/zero
    printf '\200\0\0\3\0\0\0\3\0\0\0\2\0\0\0\0\0\0\0\050\0\0\0\100'
} >"$room/e"

# A file of so many bytes, of which only the last sixteen are there.
make_sparse() { # NAME BYTES TRAILER
    truncate -s "$2" "$room/$1"
    # shellcheck disable=SC2059
    printf "$3" | dd of="$room/$1" bs=1 seek=$(($2 - 16)) conv=notrunc status=none
}

"${runner[@]}" "$room/write_objects" >"$room/many" || exit 2
awk 'BEGIN {
    split("1 3 40 7", lengths)
    print "objects 200000 free 487500"
    for (i = 0; i < 200000; i++) print i, i % 50000 < 37500 ? "block " lengths[int(i / 50000) + 1] : "filemark"
}' >"$room/many.list"

# ---- work that takes longer than a second, and a file that is cut meanwhile, go on beside the rest

# The reader of the first takes nothing until a line has come, and for ten seconds at most; that of the second cuts the
# file when the first line of the list is there. Neither list fits into a pipe.
until_told() {
    local tries
    for ((tries = 0; tries < 100; tries++)); do
        [ ! -s progress ] || return
        sleep 0.1
    done
}

cp "$room/many" "$room/cut"
(cd "$room" && "${tool[@]}" list many 2>progress | { until_told; cat >slow.list; }) &
slow=$!
(
    cd "$room" || exit
    { "${tool[@]}" list cut 2>cut.said; echo $? >cut.status; } | { read -r _; truncate -s 4096 cut; cat >cut.list; }
) &
cut=$!

# ---- the reading of an image, against the library

"${runner[@]}" "$room/agree" >"$room/agreed" || fails "reading" "$(head -n 5 "$room/agreed")"
holds "reading" grep -Eq '^[0-9]{6,} passed, 0 failed$' "$room/agreed"

# ---- list, beside the listing program

# Whether refused or not, the tool lists what the listing program lists, and says in words what that refuses.
lists_alike() { # WORDS-OF-MAKE_IMAGE...
    make_image "$@" >"$room/image" || exit 2
    "${listing[@]}" <"$room/image" >"$room/listed"
    if grep -q '^refused' "$room/listed"; then
        gives 1 '' '^cartridge: image: is unsound: ' list image
    else
        gives_file listed list image
    fi
}

lists_alike 64
lists_alike 65
lists_alike 64 b3 f
lists_alike 64 b3 f flags=1
lists_alike 64 b44
lists_alike 64 f12
lists_alike 80 f b1 b7 f2 b10
lists_alike 65536
lists_alike 65536 b65516
lists_alike 65536 f16380
lists_alike 65536 b30000 f b30000
for words in 0 1 63 '64 l=0' '64 flags=2' '64 d=41' '64 n=0x40000000' '64 b45' '64 b0' '64 n=1'; do
    read -ra words <<<"$words"
    lists_alike "${words[@]}"
done

make_image 64 b3 f >"$room/made" || exit 2
holds "example E" same e made
gives 0 $'objects 2 free 37\n0 block 3\n1 filemark\n' '' list e
gives 0 $'partition 0: e\nobjects 2 free 37\n0 block 3\n1 filemark\npartition 1: made\n'$(
    )$'objects 2 free 37\n0 block 3\n1 filemark\n' '' list e made
gives_file many.list list many

# ---- check

sound_text() { # NAME OBJECTS BLOCKS FILEMARKS USED FREE SMALLEST LARGEST PROTECTED ZONE
    printf '%s: sound\n  objects %s\n  blocks %s\n  filemarks %s\n  bytes used %s\n  bytes free %s\n' "${@:1:6}"
    [ "$3" -eq 0 ] || printf '  smallest block %s\n  largest block %s\n' "$7" "$8"
    printf '  protected %s\n  end of data in the early-warning zone %s\n' "$9" "${10}"
}

is_sound() { # NAME OBJECTS BLOCKS FILEMARKS USED FREE SMALLEST LARGEST PROTECTED ZONE
    gives 0 "$(sound_text "$@")"$'\n' '' check "$1"
}

is_sound e 2 1 1 11 37 3 3 no no
is_sound many 200000 150000 50000 2712500 487500 1 40 no no
make_image 64 f12 flags=1 >"$room/full"
is_sound full 12 0 12 48 0 0 0 yes yes
# The zone: room x 16 below L - 16. With 320 bytes before the trailer, 20 free are outside and 19 inside.
make_image 336 b296 >"$room/outside"
is_sound outside 1 1 0 300 20 296 296 no no
make_image 336 b200 b93 >"$room/inside"
is_sound inside 2 2 0 301 19 93 200 no yes
make_image 1048640 b1048576 >"$room/largest"
is_sound largest 1 1 0 1048580 44 1048576 1048576 no yes
gives 0 $'objects 1 free 44\n0 block 1048576\n' '' list largest

# One reason, told by every verb that judges, and no byte of the image changes.
is_unsound() { # NAME REASON
    cp --sparse=always "$room/$1" "$room/kept"
    gives 1 "$1: unsound: $2"$'\n' '' check "$1"
    for words in "list $1" "protect $1 on" "extract $1 0 -"; do
        read -ra words <<<"$words"
        printf 'cartridge: %s: is unsound: %s\n' "$1" "$2" >"$room/reason"
        gives 1 '' . "${words[@]}"
        holds "${words[*]}" same said reason
    done
    holds "on an unsound image, $2" same "$1" kept
}

made_is_unsound() { # REASON WORDS-OF-MAKE_IMAGE...
    make_image "${@:2}" >"$room/image"
    is_unsound image "$1"
}

patched_is_unsound() { # REASON OFFSET BYTES
    cp "$room/e" "$room/image"
    # shellcheck disable=SC2059
    printf "$3" | dd of="$room/image" bs=1 seek="$2" conv=notrunc status=none
    is_unsound image "$1"
}

of_range='bytes; a partition has 64 to 1,073,741,824'
made_is_unsound "it has 0 $of_range" 0
made_is_unsound "it has 15 $of_range" 15
made_is_unsound "it has 63 $of_range" 63
of_length='it was cut, has grown, or is no cartridge'
made_is_unsound "its last four bytes should give its length, 64; they give 65: $of_length" 64 b3 f l=65 flags=2
made_is_unsound "the trailer's flags are 00000002h; only bit 0, protected, has a meaning" 64 b3 f flags=2 d=1
made_is_unsound "the trailer's flags are 80000001h; only bit 0, protected, has a meaning" 64 flags=0x80000001
made_is_unsound "the trailer's N is 2, so D, which is L - 16 - 4N, should be 40; it is 41" 64 b0 f d=41
made_is_unsound "the trailer's N is 13, more objects than 64 bytes have room for" 64 n=13 d=0xfffffffc
made_is_unsound "the trailer's N is 1073741824, more objects than 64 bytes have room for" 64 n=0x40000000
of_block='a block has 1 to 1,048,576 bytes'
made_is_unsound "object 1, a block, ends at byte 3 and the data before it at byte 3: $of_block" 64 b3 b0 f
made_is_unsound "object 0, a block, ends at byte 1048577 and the data before it at byte 0: $of_block" 1048640 b1048577
made_is_unsound "object 0 ends at byte 45, inside the directory, which starts at byte 44 (D)" 64 b45
made_is_unsound "object 1 ends at byte 40, inside the directory, which starts at byte 36 (D)" 64 b30 b10 f
patched_is_unsound "object 1, a filemark, ends at byte 4 and the data before it at byte 3: a filemark has none" \
    40 '\200\0\0\4'
patched_is_unsound "object 1, a filemark, ends at byte 2 and the data before it at byte 3: a filemark has none" \
    40 '\200\0\0\2'
patched_is_unsound "object 1, a block, ends at byte 2 and the data before it at byte 3: $of_block" 40 '\0\0\0\2'

make_sparse longest 1073741824 '\0\0\0\0\0\0\0\0\77\377\377\360\100\0\0\0'
gives 0 $'objects 0 free 1073741808\n' '' list longest
make_sparse longest 1073741824 '\0\0\0\1\0\0\0\0\77\377\377\354\100\0\0\0'
gives 1 $'longest: unsound: object 0, a block, ends at byte 0 and the data before it at byte 0: '"$of_block"$'\n' '' \
    check longest
make_sparse longer 1073741825 '\0\0\0\0\0\0\0\0\77\377\377\361\100\0\0\1'
gives 1 "longer: unsound: it has 1073741825 $of_range"$'\n' '' check longer
gives 1 '' "is unsound: it has 1073741825 $of_range" list longer
gives 1 '' "is unsound: it has 1073741825 $of_range" protect longer on

# Each of two partitions is told of, and nothing is listed of a cartridge that is not whole.
gives 1 "$(sound_text e 2 1 1 11 37 3 3 no no)"$'\n'"longer: unsound: it has 1073741825 $of_range"$'\n' '' \
    check e longer
gives 1 '' '^cartridge: longer: is unsound' list e longer

# Where library and tool differ, that is said.
make_image 64 b45 >"$room/image"
refused_soundly='e: the library refuses it, and this tool finds: no rule is broken'
with_fault 'refuses all' gives 4 '' "$refused_soundly" check e
with_fault 'refuses all' gives 4 '' "$refused_soundly" list e
with_fault 'takes all' gives 4 '' 'image: the library takes it, and this tool finds: object 0 ends' check image
# The length is refused by another number than the library gives here.
with_fault 'refuses all' gives 4 '' 'longer: the library refuses it, and this tool finds: it has 1073741825' \
    check longer

# ---- blank

blanks() { # SIZE BYTES PATTERN
    rm -f "$room/new"
    gives 0 "new: blank, $2 bytes"$'\n' "$3" blank "$1" new
    make_image "$2" >"$room/wanted"
    holds "blank $1" same new wanted
}
has_space() { # NAME BYTES
    local count size
    read -r count size < <(stat -c '%b %B' "$room/$1")
    [ $((count * size)) -ge "$2" ]
}

blanks 64 64 ''
blanks 0.0625K 64 ''
blanks 1.5K 1536 ''
blanks 1M 1048576 ''
blanks 0.5M 524288 ''
holds "blank 0.5M" has_space new 524288
blanks 65 65 'a multiple of 16 bytes is better: the trailer then lies in one disk sector'
blanks 1000000 1000000 ''
gives 0 $'objects 0 free 999984\n' '' list new
rm "$room/new"
for size in 63 0 1073741825 1.5G 2G 9999999999G; do
    gives 2 '' "'$size' is no size of a partition" blank "$size" new
done
for size in '' x 64k 64KB 1.G .5M 64.5 1.3K 0x40 '64 ' 99999999999 1.0000000000K; do
    gives 2 '' "'$size' is no size: " blank "$size" new
done
holds "blank of a wrong size makes nothing" absent new
cp "$room/e" "$room/kept"
gives 3 '' '^cartridge: e: exists already, and is not overwritten$' blank 64 new e
holds "blank beside an existing file makes nothing" absent new
holds "blank overwrites nothing" same e kept
ln -s nowhere "$room/dangling"
gives 3 '' '^cartridge: dangling: exists already' blank 64 dangling
gives 0 $'one: blank, 64 bytes\ntwo: blank, 64 bytes\n' '' blank 64 one two
holds "two blanks" same one two
# Taken only when the second is made.
gives 3 $'twice: blank, 64 bytes\n' '^cartridge: twice: exists already' blank 64 twice twice
holds "a blank named twice stays" same one twice
gives 3 '' 'nowhere/new: cannot be made: No such file or directory' blank 64 nowhere/new
for fault in 'full:cannot have that much space: No space left' 'fsync:cannot be brought to disk: Input/output error' \
    'msync:cannot be brought to disk: Input/output error' 'flock:cannot be locked: No locks available'; do
    with_fault "${fault%%:*}" gives 3 '' "^cartridge: new: ${fault#*:}" blank 64 new
    holds "a blank that failed ($fault) is taken away" absent new
done

# ---- protect

when_changed() { stat -c '%y %z' "$room/$1"; }
cp "$room/e" "$room/image"
make_image 64 b3 f flags=1 >"$room/protected"
gives 0 $'image: protected\n' '' protect image on
holds "protect on" same image protected
changed=$(when_changed image)
gives 0 $'image: already protected\n' '' protect image on
holds "protect on again writes nothing" [ "$(when_changed image)" = "$changed" ]
with_fault msync gives 0 $'image: already protected\n' '' protect image on
with_fault msync gives 3 '' 'image: cannot be brought to disk: Input/output error' protect image off
with_fault fsync gives 3 '' 'image: cannot be brought to disk: Input/output error' protect image on
gives 0 $'image: not protected\n' '' protect image off
holds "protect off" same image e
gives 0 $'image: already not protected\n' '' protect image off
for word in '' ON 1 yes; do gives 2 '' "'$word' is neither on nor off" protect image "$word"; done

# ---- extract

printf '\1\2\3' >"$room/bytes"
gives_file bytes extract e 0 -
gives 0 '' '' extract e 0 out
holds "extract" same out bytes
gives 3 '' 'out: exists already; --force overwrites it' extract e 0 out
head -c 100 /dev/zero >"$room/out"
gives 0 '' '' extract e 0 out --force
holds "extract --force" same out bytes
gives 0 '' '' extract --force largest 0 out
head -c 1048576 "$room/largest" >"$room/bytes"
holds "extract of the largest block" same out bytes
# The last block of 40 bytes: of those of its length it is number 37,499.
for ((i = 0; i < 40; i++)); do
    # shellcheck disable=SC2059
    printf "\\x$(printf %x $(((37499 * 40 + i) % 251)))"
done >"$room/bytes"
gives_file bytes extract many 137499 -
gives 1 '' 'many: object 137500 is a filemark' extract many 137500 -
gives 1 '' 'e: object 1 is a filemark' extract e 1 none
gives 1 '' 'e: there is no object 2: it has 2 objects' extract e 2 none
gives 1 '' 'e: there is no object 4294967296: ' extract e 4294967296 none
for number in '' x 1.0 +0 0x0 99999999999999999999; do
    gives 2 '' " is no object number: " extract e "$number" none
done
gives 2 '' "extract has no option -1" extract e -1 none
holds "nothing extracted makes no file" absent none
cp "$room/e" "$room/image"
ln "$room/image" "$room/other_name"
gives 2 '' 'other_name: is the cartridge itself' extract image 0 other_name --force
holds "extract to the cartridge itself" same image e
gives 3 '' 'nowhere/out: cannot be written: No such file' extract e 0 nowhere/out
gives 3 '' '/dev/full: cannot be written: No space left' extract e 0 /dev/full --force

# ---- locks: what a drive has, nobody else gets

exec 9<"$room/image"
flock -x 9
for words in 'list image' 'check image' 'check e image' 'protect image on' 'extract image 0 none' \
    'extract e 0 image --force'; do
    read -ra words <<<"$words"
    gives 3 '' '^cartridge: image: is in use: a drive has this cartridge' "${words[@]}"
done
flock -u 9
flock -s 9
gives 0 $'objects 2 free 37\n0 block 3\n1 filemark\n' '' list image
gives 3 '' '^cartridge: image: is in use' protect image on
exec 9<&-
holds "a cartridge in use" same image e
with_fault flock gives 3 '' 'image: cannot be locked: No locks available' list image
with_fault flock gives 3 '' 'image: cannot be locked: No locks available' protect image on

# ---- files that are none, and outputs that take nothing

mkfifo "$room/pipe"
mkdir "$room/directory"
gives 3 '' 'absent: cannot be opened: No such file or directory' list absent
gives 3 '' 'directory: is a directory' check directory
gives 3 '' 'directory: cannot be opened: Is a directory' protect directory on
gives 3 '' 'pipe: is a device or a pipe' list pipe
gives 3 '' 'absent: cannot be opened' check e absent
gives 2 '' 'other_name: is the first partition.s file too' list image other_name

as_nobody=()
[ "$(id -u)" -ne 0 ] || as_nobody=(setpriv --reuid 65534 --regid 65534 --clear-groups)
without_permission() { # COMMAND...
    local tool=("${as_nobody[@]}" "${tool[@]}")
    "$@"
}
cp "$room/e" "$room/closed"
chmod 444 "$room/closed"
without_permission gives 3 '' 'closed: cannot be opened: Permission denied' protect closed on
chmod 000 "$room/closed"
without_permission gives 3 '' 'closed: cannot be opened: Permission denied' list closed

# The cartridge must not get the number of a closed descriptor, and its text.
: >"$room/wrote"
: >"$room/wanted"
for words in 'list many' 'list image' 'check image' 'protect image on' 'extract image 0 -' '--help'; do
    read -ra words <<<"$words"
    (cd "$room" && "${tool[@]}" "${words[@]}" >&-) 2>"$room/said"
    judge $? 3 'not everything could be written to standard output: Bad file descriptor' "${words[*]}, output closed"
    (cd "$room" && "${tool[@]}" "${words[@]}" >/dev/full) 2>"$room/said"
    judge $? 3 'not everything could be written to standard output: No space left' "${words[*]}, output full"
done
(cd "$room" && "${tool[@]}" protect image off <&- >/dev/null 2>&-)
holds "protect with closed descriptors" [ $? -eq 0 ]
(cd "$room" && "${tool[@]}" extract image 1 - <&- >&- 2>&-)
holds "extract with closed descriptors" [ $? -eq 1 ]
holds "a cartridge beside closed descriptors" same image e

# ---- words

gives 2 '' "there is no verb 'lists'" lists e
gives 2 '' 'list has no option --all' list e --all
gives 2 '' 'list has no option --force' list e --force
gives 2 '' 'list has no option -e' list -e
for words in list 'list e e e' check 'blank 64' blank protect 'protect e' 'protect e on off' extract 'extract e 0'; do
    read -ra words <<<"$words"
    gives 2 '' "${words[0]} takes [A-Z]" "${words[@]}"
done
cp "$room/e" "$room/--help"
gives 0 $'objects 2 free 37\n0 block 3\n1 filemark\n' '' list -- --help

helps() { # WORD...
    run_tool "$@" --help && said_well '' && [ "$(wc -l <"$room/wrote")" -gt 2 ]
}
holds "--help" helps
for word in 'cartridge '{blank,list,protect,extract,check}' ' '  '{0,1,2,3,4}'  '; do
    run_tool --help
    holds "--help names '$word'" grep -qF -- "$word" "$room/wrote"
done
for verb in blank list protect extract check; do
    holds "$verb --help" helps "$verb"
    holds "$verb --help says how" grep -q "^  cartridge $verb [A-Z]" "$room/wrote"
done
run_tool
holds "without words" [ $? -eq 2 ]
holds "without words it says how" grep -q 'cartridge list CARTRIDGE' "$room/said"

# ---- what went on beside

wait "$slow" "$cut"
holds "list to a slow reader" same slow.list many.list
holds "progress" grep -Eq '^cartridge: listing many, [0-9]+ %, 1 s$' "$room/progress"
holds "list of a file that is cut ends with 3" [ "$(cat "$room/cut.status")" -eq 3 ]
holds "list of a file that is cut" grep -q '^cartridge: a mapped file could not be read: ' "$room/cut.said"

echo "$passed passed, $failed failed"
[ "$failed" -eq 0 ]
