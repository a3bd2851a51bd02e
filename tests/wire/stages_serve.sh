# stages_serve.sh: sourced by accept. A stage on ./serve itself: a second start finds everything, the loopback alone is
# listened on, root is dropped, a cartridge in use, protected, torn or not to be written is told. Needs stages.sh.
# shellcheck shell=bash disable=SC2154

tell() { # WHAT COMMAND...
    if "${@:2}"; then echo "ok: $1"; else echo "FAILED: $1"; fi
}

blocks() { run_wire_program 60 blocks "$url" "$@"; }

# The processes of the drive that was started last, and where they listen.
children() { ps --ppid "$drive" -o pid=,comm= | awk '$2 != "sleep" { print $1 }'; }
none_is_root() {
    local process
    for process in $(children); do
        [ "$(stat -c %u "/proc/$process")" -ne 0 ] || return
    done
}
listens_on() { # PORT: the addresses, as the kernel writes them
    awk -v port="$(printf ':%04X' "$1")" '$4 == "0A" && substr($2, index($2, ":")) == port { print $2 }' /proc/net/tcp*
}
port_of() {
    local rest=${url#iscsi://*:}
    echo "${rest%%/*}"
}

# ./serve must end by itself, with this status and these words.
must_end() { # WHAT STATUS WORDS SERVE-WORD...
    local said status=0
    said=$(timeout 60 ./serve --listen "127.0.0.1:$(free_port)" "${@:4}" 2>&1) || status=$?
    tell "$1: status $2, '$3'" test "$status" -eq "$2"
    tell "$1: it says so" grep -q "$3" <<<"$said"
}

# Put, stopped, put again, and found again each time, also by another signal.
start_again() { # CARTRIDGE
    local signal at=0
    for signal in INT TERM HUP; do
        start_drive "serve-$signal" "$1" || return
        blocks put "$at" 40
        at=$((at + 40))
        blocks get "$at"
        tell "stopped by SIG$signal" end_drive "$signal"
        tell "$signal: what stands is final" grep -q '^stopped: what stands is final' "$accepted/serve-$signal.log"
    done
    start_drive serve-last "$1" || return
    blocks get "$at"
    stop_drive serve-last
}

# A signal that comes with the line that tells it is ready, or before that, is not lost.
stop_at_once() { # CARTRIDGE
    local times
    for times in {1..10}; do
        start_drive serve-at-once "$1" || return
        tell "stopped as soon as it is ready, time $times" end_drive TERM
    done
    ./serve --listen "127.0.0.1:$(free_port)" "$1" >"$accepted/serve-early.serve" 2>&1 &
    drive=$!
    sleep 0.05
    tell "stopped before it is ready" end_drive TERM
}

# What is printed must not go into a cartridge because nobody listens.
print_to_nobody() { # CARTRIDGE
    cp "$1" "$1.before"
    timeout --preserve-status -s TERM 3 ./serve --listen "127.0.0.1:$(free_port)" "$1" >&- 2>&- </dev/null
    tell "a drive without standard streams leaves its cartridge as it is" cmp "$1" "$1.before"
}

tool_ends_with() { # STATUS WORD...
    local status=0
    "${runner[@]}" "$built/cartridge" "${@:2}" || status=$?
    [ "$status" -eq "$1" ]
}

# While a drive has it, no other drive and no tool may; and its processes are what they should be.
while_served() { # CARTRIDGE
    start_drive serve-busy "$1" || return
    must_end "a cartridge that another drive has" 1 "in use" "$1"
    must_end "a port that another drive has" 1 "cannot be started" --listen "127.0.0.1:$(port_of)" \
        --blank 64 "$1.other"
    tell "the tool does not change it either" tool_ends_with 3 protect "$1" on
    tell "there are two processes" test "$(children | wc -l)" -eq 2
    [ "$(id -u)" -ne 0 ] || tell "none of them is root" none_is_root
    tell "the loopback alone is listened on" test "$(listens_on "$(port_of)")" = "0100007F:$(printf %04X "$(port_of)")"
    tell "the socket is the user's alone" test "$(stat -c %a "$(socket_of "$(find_daemon)")")" = 600
    stop_drive serve-busy
}

# A protected cartridge, and one whose file may only be read, are read and not written.
not_to_be_written() { # CARTRIDGE BLOCKS
    tell "protected by the tool" tool_ends_with 0 protect "$1" on
    on_drive serve-protected "$1" -- refused_then_read "$2"
    tell "no longer protected" tool_ends_with 0 protect "$1" off
    chattr +i "$1" 2>/dev/null || chmod 444 "$1"
    if [ -w "$1" ] && ! lsattr "$1" 2>/dev/null | grep -q i; then
        echo "this file system lets root write any file: what may only be read is not tried"
    else
        on_drive serve-read-only "$1" -- refused_then_read "$2"
        tell "the operator is told" grep -q 'may only be read' "$accepted/serve-read-only.serve"
    fi
    chattr -i "$1" 2>/dev/null || chmod 644 "$1"
}
refused_then_read() { blocks refused && blocks get "$1"; }

# One byte of the trailer's N is another.
torn() { # CARTRIDGE
    cp "$1" "$1.torn"
    printf '\377' | dd of="$1.torn" bs=1 seek=$(($(stat -c %s "$1") - 16)) conv=notrunc status=none
    must_end "a torn cartridge" 3 "torn, or no cartridge" "$1.torn"
    tell "the tool finds it unsound" tool_ends_with 1 check "$1.torn"
}

wrong_use() { # CARTRIDGE
    must_end "no cartridge named" 2 "is to be named"
    must_end "three files" 2 "one or two partitions" "$1" "$1" "$1"
    must_end "no such option" 2 "no option --nothing" --nothing "$1"
    must_end "a blank over a cartridge" 1 "exists already" --blank 1M "$1"
    must_end "a file that is not there" 1 "cannot be opened" "$1.nothing"
    must_end "an address that is not this machine's" 1 "cannot be started" --listen 192.0.2.1:3260 "$1"
}

serve_stage() {
    local cartridge=$accepted/serve.tape
    rm -f "$cartridge"*
    tell "a blank made by the tool" tool_ends_with 0 blank 4M "$cartridge"
    start_again "$cartridge"
    stop_at_once "$cartridge"
    print_to_nobody "$cartridge"
    while_served "$cartridge"
    not_to_be_written "$cartridge" 120
    torn "$cartridge"
    wrong_use "$cartridge"
}
