# stages_faults.sh: sourced for the stages of load and faults, a function each: load_stage, kills_stage, garbage_stage
# and vanish_stage. Each starts a drive of its own with an empty cartridge, prints a line for each check ('ok: ' or
# 'FAILED: ') and its numbers, and returns 0 exactly if all passed. Needs tests/host.sh, examples/daemon/transport.sh
# and tests/wire/stages.sh; run from the repository's root.
# shellcheck shell=bash disable=SC2154
. tests/wire/faults/build.sh
faults_seed=20261117 longest_fault=600

# ---- a drive for a stage

judge() { # STATUS WHAT
    if [ "$1" -eq 0 ]; then echo "ok: $2"; else echo "FAILED: $2"; fi
    return "$1"
}

# With a cartridge in a file of its own, whose name is in cartridge.
start_blank() { # NAME SIZE
    cartridge=$accepted/$1.cartridge
    mkdir -p "$accepted" && rm -f "$cartridge" && start_drive "$1" --blank "$2" "$cartridge"
}

stop_blank() { # NAME
    local status=0
    stop_drive "$1" || status=$?
    rm -f "$cartridge"
    judge "$status" "the drive stopped by a signal"
}

# A program that hangs is a failed check.
run_fault() { # PROGRAM ARGUMENT...
    local status=0
    timeout "$longest_fault" "$wire/$1" "${@:2}" "$faults_seed" || status=$?
    [ "$status" -ne 124 ] || echo "FAILED: $1: not done within $longest_fault seconds"
    return "$status"
}

# ---- the stages

# Over the wire, and then past the transport, which hands on one command at a time: the daemon's own lock is tried too.
load_stage() {
    local status=0
    build_load_local && start_blank load 1G || return 1
    echo "eight hosts over iSCSI:"
    run_fault load "$url" 500 || status=1
    stop_blank load || status=1
    start_blank load_local 1G || return 1
    echo "eight hosts on the daemon's own socket:"
    run_fault load_local "$(socket_of "$(find_daemon)")" 500 || status=1
    stop_blank load_local || status=1
    return "$status"
}

kills_stage() {
    timeout "$longest_fault" tests/wire/faults/kills.sh 200 "$faults_seed"
}

vanish_stage() {
    local status=0
    build_wire vanish && start_blank vanish 64M || return 1
    run_fault vanish "$url" "$cartridge" 100 || status=1
    stop_blank vanish || status=1
    return "$status"
}

number_of() { # PROCESS NAME
    sed -n "s/^$2:[[:space:]]*\([0-9]*\).*/\1/p" "/proc/$1/status"
} 2>/dev/null

# A connection's thread ends with it: of those of the garbage none is left, but for some that end this moment.
judge_daemon() { # PROCESS
    local threads tenths
    for ((tenths = 0; tenths < 50; tenths++)); do
        threads=$(number_of "$1" Threads)
        [ "${threads:-0}" -gt 4 ] || break
        sleep 0.1
    done
    [ "${threads:-0}" -gt 0 ] && [ "$threads" -le 4 ]
    judge $? "the daemon is the process that it was, with ${threads:-no} threads and at most $(number_of "$1" VmHWM) kB"
}

# Garbage that the transport keeps to itself would try the daemon little.
judge_reach() { # FILE
    local commands
    commands=$(grep -c '5/25/00 by the daemon' "$1")
    [ "$commands" -ge 50 ]
    judge $? "of the garbage, $commands commands for units that are not there came to the daemon"
}

garbage_stage() {
    local status=0 daemon
    build_wire garbage garbage_local && start_blank garbage 64M && daemon=$(find_daemon) || return 1
    run_fault garbage "$url" "$cartridge" 400 || status=1
    judge_reach "$accepted/garbage.log" || status=1
    run_fault garbage_local "$(socket_of "$daemon")" 2000 || status=1
    judge_daemon "$daemon" || status=1
    echo "    the transport fell $(grep -c 'the transport fell' "$accepted/garbage.serve") times, and was started again"
    stop_blank garbage || status=1
    return "$status"
}
