# library.sh: sourced by the scripts that build a test program over the static library and run it for longer than check
# does. Needs what host.sh needs. LIBRARY names another archive than the one that is built here from the sources.
# shellcheck shell=bash
. tests/host.sh
mkdir -p target/host || exit 2
if [ -z "${LIBRARY-}" ]; then
    LIBRARY=target/staticlib/libstormtoggle.a
    library_shown target/host || exit 2
fi

# Builds a test program, and tells in which file it stands.
build_test() { # SOURCE SUFFIX FLAG...
    local program
    program=target/host/$(basename "$1" .c)-$2
    "$compiler" "${flags[@]}" "${@:3}" -O2 -o "$program" "$1" "$LIBRARY" || return
    echo "$program"
}

# Seeds one slip; number 0 is none. Without a slip nothing may differ; with one, something must. What stands before a
# colon in a slip is one word more for the program.
run_with_slip() { # NUMBER SLIP SOURCE WORD...
    local fault=$1 slip=$2 program said status first differ found words=("${@:4}")
    program=$(build_test "$3" "fault-$fault" -DFAULT="$fault") || exit 2
    [[ $slip != *:* ]] || words+=("${slip%%:*}")
    said=$("${runner[@]}" "$program" "${words[@]}")
    status=$?
    first=$(grep -om 1 'call [0-9]*, ' <<<"$said")
    differ=-1
    [[ $said =~ \ ([0-9]+)\ mismatches ]] && differ=${BASH_REMATCH[1]}
    if [ "$fault" -eq 0 ] && [ "$status" -eq 0 ] && [ "$differ" -eq 0 ]; then
        found="nothing differs"
    elif [ "$fault" -gt 0 ] && [ "$status" -eq 1 ] && [ "$differ" -gt 0 ]; then
        found="found, first at ${first%, }"
    else
        found="FAILED: status $status, mismatches $differ"
    fi
    echo "fault $fault, $slip: $found"
    [[ $found != FAILED* ]]
}

# Seeds each of the slips in turn, by its number among them.
run_with_slips() { # SOURCE CALLS SLIP...
    local source=$1 calls=$2 slips=("${@:3}") failed=0 fault
    for fault in "${!slips[@]}"; do
        run_with_slip "$fault" "${slips[fault]}" "$source" 1 "$calls" || failed=1
    done
    return "$failed"
}

# Goes on for as many calls as it is told, and ends the script with the test's status.
run_for_long() { # SOURCE CALLS SEED WORD...
    local program
    program=$(build_test "$1" long) || exit 2
    exec "${runner[@]}" "$program" "$3" "$2" "${@:4}"
}
