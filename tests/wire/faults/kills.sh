#!/usr/bin/env bash
# kills.sh [KILLS [SEED]]: kills the daemon at random moments while a host writes, KILLS times (every tenth time the
# transport too), and starts it again on the same files. Each time: the files hold what they must (kills_judge), and the
# drive mounts and tells the same over the wire (kills_write, before it writes on). Run from the repository's root.
set -u
kills=${1:-200} seed=${2:-20261117} within=${KILL_WITHIN:-60000}
. tests/host.sh
. examples/daemon/transport.sh
. tests/wire/stages.sh
. tests/wire/faults/build.sh

daemon='' tgtd='' run_folder='' scratch=''
end() { # STATUS
    [ -z "$tgtd" ] || stop_tgt
    [ -z "$daemon" ] || { kill -KILL "$daemon" && await "$daemon"; } 2>/dev/null
    [ -z "$run_folder" ] || rm -rf "$run_folder"
    [ -z "$scratch" ] || rm -rf "$scratch"
    exit "$1"
}
trap 'end 1' INT TERM

fail() { # WHY
    echo "FAILED: kill $kill of $kills: $1"
    grep -hv Killed "$scratch/said" | tail -n 2
    tail -n 3 "$scratch/daemon.log"
    end 1
}

start_again() {
    start_daemon --user nobody --log "$scratch/daemon.log" "$scratch/first" "$scratch/second" >>"$scratch/said" 2>&1
    kill -0 "$daemon" 2>/dev/null && return
    await "$daemon"
    case $? in
    3) torn=$((torn + 1)) && fail "the cartridge is told to be torn" ;;
    *) fail "the daemon does not start" ;;
    esac
}

start_transport() {
    start_tgt "127.0.0.1:$port" 127.0.0.1 || fail "the transport does not start"
}

make_cartridge() {
    if ! "${runner[@]}" "$built/cartridge" blank 64M "$scratch/first" >>"$scratch/said" 2>&1 ||
        ! "${runner[@]}" "$built/cartridge" blank 16M "$scratch/second" >>"$scratch/said" 2>&1; then
        fail "no cartridge can be made"
    fi
    printf '1\n0\n0\n' >"$scratch/state"
}

kill_once() {
    local victims=("$daemon")
    [ $((kill % 10)) -gt 0 ] || victims+=("$tgtd")
    timeout 60 "$wire/kills_write" "iscsi://127.0.0.1:$port/$target_name/0" "$scratch/state" "$scratch/journal" \
        "$seed" "$kill" "$within" "${victims[@]}" >"$scratch/writer" 2>&1 ||
        fail "the writer ended with status $?: $(cat "$scratch/writer")"
    cat "$scratch/writer" >>"$scratch/over-wire"
    await "$daemon"
    [ $? -eq 137 ] || fail "the daemon ended by itself"
    cat "$scratch/journal" >>"$scratch/journals"
    "${runner[@]}" "$wire/kills_judge" "$scratch/state" "$scratch/journal" "$seed" "$scratch/first" "$scratch/second" \
        >"$scratch/judged" || fail "$(sed 's/^FAILED: //' "$scratch/judged")"
    cat "$scratch/judged" >>"$scratch/tally"
    [ ${#victims[@]} -eq 1 ] || { await "$tgtd" || true; start_transport; }
    start_again
    mounted=$((mounted + 1))
}

# How often each word stands in these fields of the tally.
times_of() { # FIELDS
    cut -d ' ' -f "$1" "$scratch/tally" | sort | uniq -c | sort -rn |
        awk '{ times = $1; sub(/^ *[0-9]+ /, ""); printf "%s%s %d", between, $0, times; between = ", " }'
}

sum_of() { # FIELD FILE
    awk -v field="$1" '{ sum += $field } END { printf "%d", sum }' "$2"
}

say_tally() {
    local commands
    commands=$(grep -c ' [anx]' "$scratch/journals")
    echo "    $kills kills in $SECONDS s: $mounted mounted, $torn torn, after $commands commands"
    echo "    compared in the files: $(sum_of 4 "$scratch/tally") objects, $(sum_of 5 "$scratch/tally") bytes"
    echo "    compared over the wire: $(sum_of 1 "$scratch/over-wire") objects, $(sum_of 2 "$scratch/over-wire") bytes"
    echo "    the kills fell into: $(times_of 1)"
    echo "    the partitions then held what was final before, that up to a cut, or what is final now: $(times_of 2,3)"
}

build_drive >&2 && build_wire kills_write && build_over_library kills_judge || exit 1
scratch=$(mktemp -d) && chmod 711 "$scratch" && make_run_folder nobody || exit 1
kill=0 mounted=0 torn=0 port=$(free_port)
echo "kills: $kills, seed $seed, within $within microseconds each"
make_cartridge
start_transport
start_again
while [ "$kill" -lt "$kills" ]; do
    kill=$((kill + 1))
    kill_once 2>>"$scratch/said" # where bash tells of every process that was killed
    [ $((kill % 20)) -gt 0 ] || echo "    .. $kill kills, all mounted and as they must be (elapsed $(elapsed))"
done
say_tally
in_writing=$(grep -c '^WRITE\|^ERASE\|^UNLOAD' "$scratch/tally")
[ $((in_writing * 3)) -ge "$kills" ] || fail "only $in_writing kills fell into a command that writes"
echo "ok: $kills kills, $in_writing of them while a command that writes or makes final was unanswered: all mounted," \
    "and held what was final, exactly"
end 0
