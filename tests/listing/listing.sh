#!/usr/bin/env bash
# listing.sh PROGRAM [RUNNER]: holds the listing program's exact output on made images to document 01, whichever way its
# input comes in and its output is taken: no proof reaches its main. faults.sh shows that these runs can fail.
# RUNNER is the command, in one word, that runs PROGRAM where the machine does not.
set -u
program=$(realpath "$1") || exit 2
cd "$(dirname "$0")/../.." || exit 2
. tests/host.sh
read -ra listing <<<"${2-${runner[*]}}"
listing+=("$program")

room=$(mktemp -d) || exit 2
trap 'rm -rf "$room"' EXIT
"$compiler" "${flags[@]}" -o "$room/make_image" tests/listing/make_image.c || exit 2
"$compiler" "${flags[@]}" -fPIC -shared -o "$room/io.so" tests/listing/io.c || exit 2
# An emulator is told what the program loads first; the library is none of its own.
preload=LD_PRELOAD=$room/io.so
[ "${#listing[@]}" -eq 1 ] || preload=QEMU_SET_ENV=$preload
passed=0 failed=0

make_image() { "${runner[@]}" "$room/make_image" "$@"; }

# Compares what the program wrote, its last newline too, and how it ended: the exit status, and what else is amiss.
judge() { # ENDED WHAT
    if [ "$1" = 0 ] && cmp -s "$room/wrote" "$room/wanted"; then
        passed=$((passed + 1))
        return
    fi
    failed=$((failed + 1))
    printf 'listing of %s: status %s, and instead of %s\nit wrote %s\n' "$2" "$1" "$(first_lines wanted)" \
        "$(first_lines wrote)"
}

first_lines() { # FILE
    printf '%s bytes\n' "$(wc -c <"$room/$1")"
    head -n 5 "$room/$1" | tr -d '\0'
}

# Standard error is not the program's to write to.
said() { sed '1s/^/, said /;q' "$room/said"; }

# ---- from a file to a file

# Descriptors 2 to 9 lie on a file that holds another image, each with a place of its own in it. None of it may be
# listed, and neither it nor the input may change, though both can be written.
lists_image() { # WANTED IMAGE OTHER WHAT
    local ended
    printf '%s' "$1" >"$room/wanted"
    cp "$2" "$room/lent"
    cp "$3" "$room/beside"
    "${listing[@]}" 0<>"$room/lent" >"$room/wrote" 2<>"$room/beside" 3<>"$room/beside" 4<>"$room/beside" \
        5<>"$room/beside" 6<>"$room/beside" 7<>"$room/beside" 8<>"$room/beside" 9<>"$room/beside"
    ended=$?
    cmp -s "$2" "$room/lent" || ended+=", wrote to its input"
    cmp -s "$3" "$room/beside" || ended+=", wrote to another descriptor: $(head -c 60 "$room/beside" | tr -d '\0')"
    judge "$ended" "$4"
}

lists() { # WANTED WORDS-OF-MAKE_IMAGE...
    make_image "${@:2}" >"$room/image" || { failed=$((failed + 1)); return; }
    lists_image "$1" "$room/image" "$room/blank" "${*:2}"
}

filemarks() { # COUNT
    local i
    for ((i = 0; i < $1; i++)); do echo "$i filemark"; done
}

example_e=$'objects 2 free 37\n0 block 3\n1 filemark\n'
full_of_filemarks="objects 16380 free 0"$'\n'"$(filemarks 16380)"$'\n'
make_image 64 >"$room/blank" && make_image 64 b3 f >"$room/e" && make_image 65536 b65500 >"$room/most" || exit 2

lists "$example_e" 64 b3 f
lists "$example_e" 64 b3 f flags=1

lists $'refused 7\n' 0
lists $'refused 7\n' 1
lists $'refused 7\n' 63
lists $'refused 6\n' 64 l=0 d=0
lists $'refused 6\n' 64 b3 f flags=2
lists $'refused 6\n' 64 b3 f d=41
lists $'refused 6\n' 64 n=0x40000000
lists $'refused 6\n' 64 b45

lists $'objects 0 free 48\n' 64
lists $'objects 0 free 49\n' 65
lists $'objects 1 free 0\n0 block 44\n' 64 b44
lists $'objects 6 free 22\n0 filemark\n1 block 1\n2 block 7\n3 filemark\n4 filemark\n5 block 10\n' 80 f b1 b7 f2 b10

lists $'objects 0 free 65520\n' 65536
lists $'objects 1 free 16\n0 block 65500\n' 65536 b65500
lists $'objects 1 free 0\n0 block 65516\n' 65536 b65516
lists "$full_of_filemarks" 65536 f16380

lists $'refused 7\n' 65537
lists $'refused 7\n' 65537 l=0
lists $'refused 7\n' 300000 b1000 f

# A sound image in the first 65,536 bytes, in the last ones, and as many more as a length of 16 bits does not see.
{ cat "$room/most"; echo; } >"$room/image"
lists_image $'refused 7\n' "$room/image" "$room/blank" "65,536 bytes and one more"
{ echo; cat "$room/most"; } >"$room/image"
lists_image $'refused 7\n' "$room/image" "$room/blank" "one byte and 65,536 more"
{ cat "$room/e"; head -c 65536 /dev/zero; } >"$room/image"
lists_image $'refused 7\n' "$room/image" "$room/blank" "E and 65,536 bytes more"
{ head -c 65536 /dev/zero; cat "$room/e"; } >"$room/image"
lists_image $'refused 7\n' "$room/image" "$room/blank" "65,536 bytes and then E"

# Nothing comes in but on other descriptors; the last of them is the output's, whose bytes behind those written stay.
: >"$room/image"
lists_image $'refused 7\n' "$room/image" "$room/e" "nothing, with E on other descriptors"
cp "$room/e" "$room/wrote"
"${listing[@]}" <"$room/image" 1<>"$room/wrote" 2>"$room/said"
ended=$?
ended+=$(said)
{ echo 'refused 7'; tail -c +11 "$room/e"; } >"$room/wanted"
judge "$ended" "nothing, with E on the output's descriptor"

# ---- through pipes, with calls of read and write that end short or are interrupted

# Waits until the witness has letters like these, or the program is over; a minute would be no fault of the program.
wait_for() { # PATTERN
    local tries
    for ((tries = 0; tries < 6000; tries++)); do
        if [ -e "$room/status" ] || grep -qs "$1" "$room/witness"; then return; fi
        sleep 0.01
    done
}

# How the image is handed over, and how the output is taken.
at_once() { cat "$room/image"; }
# The cut is odd or small, so that a program that asks for so many bytes as a power of two ends a read short there.
in_pieces() { # CUT PATTERN
    head -c "$1" "$room/image"
    wait_for "$2"
    tail -c "+$(($1 + 1))" "$room/image"
}
after() { # PATTERN
    wait_for "$1"
    cat "$room/image"
}
slowly() { dd bs=61 2>/dev/null; }
late() { # PATTERN
    wait_for "$1"
    cat
}

# PATTERN is what the witness of io.c must have, so that a run that met nothing of its kind does not pass.
lists_piped() { # WANTED FEED TAKE PATTERN NAME=VALUE WORDS-OF-MAKE_IMAGE...
    local feed take ended
    printf '%s' "$1" >"$room/wanted"
    read -ra feed <<<"$2"
    read -ra take <<<"$3"
    make_image "${@:6}" >"$room/image" || { failed=$((failed + 1)); return; }
    rm -f "$room/status"
    : >"$room/witness"
    "${feed[@]}" 2>/dev/null | {
        env "$5" IO_WITNESS="$room/witness" "$preload" "${listing[@]}" 2>"$room/said"
        echo $? >"$room/status"
    } | "${take[@]}" >"$room/wrote"
    ended=$(cat "$room/status")
    ended+=$(said)
    grep -q "$4" "$room/witness" || ended+=", met no $4 but '$(head -c 20 "$room/witness")'"
    judge "$ended" "${*:6} by '$2' to '$3' with $5"
}

lists_piped "$example_e" "in_pieces 50 r" cat r IO_MOST=0 64 b3 f
lists_piped $'objects 1 free 16\n0 block 65500\n' "in_pieces 40001 r" cat r IO_MOST=0 65536 b65500
lists_piped $'refused 7\n' "in_pieces 65535 r" cat r IO_MOST=0 65537
lists_piped "$example_e" at_once cat 'r.*w' IO_MOST=1 64 b3 f
lists_piped $'refused 6\n' at_once cat 'r.*w' IO_MOST=1 64 b45
lists_piped $'objects 1 free 16\n0 block 65500\n' at_once cat 'r.*w' IO_MOST=13 65536 b65500
lists_piped $'refused 7\n' at_once cat 'r.*w' IO_MOST=9 65537
lists_piped "$full_of_filemarks" at_once cat 'r.*w' IO_MOST=61 65536 f16380
lists_piped "$full_of_filemarks" at_once slowly r IO_MOST=0 65536 f16380

# Interrupted before anything came, between two pieces, and while nobody took the output.
lists_piped "$example_e" "after R" cat R IO_TIMER=10 64 b3 f
lists_piped "$example_e" "in_pieces 50 rR" cat rR IO_TIMER=10 64 b3 f
lists_piped $'refused 7\n' "in_pieces 65535 rR" cat rR IO_TIMER=10 65537
lists_piped "$full_of_filemarks" at_once "late wW" wW IO_TIMER=10 65536 f16380

echo "$passed passed, $failed failed"
[ "$failed" -eq 0 ]
