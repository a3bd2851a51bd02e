# stages_raw.sh: sourced by a script that has a drive served. Two stages of a host that sends raw command blocks: each
# builds its program into target/accept/, runs it against a drive's URL, prints a line for each check, and returns 0
# exactly if all of them passed. Needs a C compiler and libiscsi-dev; runs on any machine, as the library is not linked.
# shellcheck shell=bash

# Longer than either takes on a slow machine that does other work too.
longest_raw=120 longest_mishap=600

# A program that hangs, or that is not built, is a failed check.
run_wire_program() { # SECONDS PROGRAM ARGUMENT...
    local seconds=$1 program=$2 status=0
    shift 2
    mkdir -p target/accept
    if ! cc -std=c99 -pedantic -Wall -Wextra -Werror -O2 -Iinclude -Iexamples -Itests \
        -o "target/accept/$program" "tests/wire/$program.c" -liscsi; then
        echo "FAILED: $program: it cannot be built"
        return 1
    fi
    timeout "$seconds" "target/accept/$program" "$@" || status=$?
    [ "$status" -ne 124 ] || echo "FAILED: $program: not done within $seconds seconds"
    return "$status"
}

# Every answer to raw command blocks. The drive is just started with --blank 64, and nobody has asked it anything; with
# --exact for exact, without it for stock. After exact it is unloaded, and must be started again to be of use.
raw_stage() { # URL exact|stock
    run_wire_program "$longest_raw" raw "$1" "$2"
}

# The pilot's mishap. The drive has one partition of 80 MiB or more (--blank 80M), whose data is written over.
mishap_stage() { # URL
    run_wire_program "$longest_mishap" mishap "$1"
}
