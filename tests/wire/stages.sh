# stages.sh: sourced by accept: starts and stops a drive for a stage, runs stages, counts and times them. Needs
# examples/daemon/transport.sh.
# shellcheck shell=bash disable=SC2154

accepted=target/accept
passed=0 failed=0

# ---- a drive

# Drawn, so that two that look at the same time do not find the same.
free_port() {
    local port
    for _ in {1..100}; do
        port=$((20000 + RANDOM % 10000))
        (exec 3<>"/dev/tcp/127.0.0.1/$port") 2>/dev/null || break
    done
    echo "$port"
}

# Serves a cartridge as a user does, with ./serve, and tells its address in url.
start_drive() { # NAME SERVE-WORD...
    local said=$accepted/$1.serve
    rm -f "$accepted/$1.log" "$said"
    # A shell has what it starts in the background ignore SIGINT; a user's shell does not.
    env --default-signal=INT ./serve --listen "127.0.0.1:$(free_port)" --log "$accepted/$1.log" "${@:2}" >"$said" 2>&1 &
    drive=$!
    wait_for "$drive" grep -q '^ready: ' "$said"
    url=$(sed -n 's/^ready: //p' "$said")
    [ -n "$url" ] && return
    echo "FAILED: the drive was not offered:"
    cat "$said"
    return 1
}

# Tells the drive to stop, and waits until it has; a minute at most.
end_drive() { # SIGNAL
    local tenths
    kill "-$1" "$drive"
    for ((tenths = 0; tenths < 600; tenths++)); do
        kill -0 "$drive" 2>/dev/null || break
        [ "$(ps -o stat= -p "$drive")" != Z ] || break
        sleep 0.1
    done
    kill -KILL "$drive" 2>/dev/null
    await "$drive"
}

# A drive stops cleanly, and has said nothing to its operator.
stop_drive() { # NAME
    local status=0
    end_drive TERM || status=$?
    [ "$status" -eq 0 ] || echo "FAILED: the drive ended with status $status"
    ! grep -n OPERATOR "$accepted/$1.serve" || status=1
    return "$status"
}

# The daemon is that child of serve which has a socket.
find_daemon() {
    local process processes
    read -r -a processes <"/proc/$drive/task/$drive/children"
    for process in "${processes[@]}"; do
        [ -z "$(socket_of "$process")" ] || { echo "$process" && return; }
    done
    return 1
}

socket_of() { # PROCESS
    tr '\0' '\n' <"/proc/$1/cmdline" | sed -n '/^--socket$/{n;p;}'
}

# A stage on a drive of its own: words for serve, then --, then the command, which is given the drive's address.
on_drive() { # NAME SERVE-WORD... -- COMMAND...
    local name=$1 words=() status=0
    shift
    while [ "$1" != -- ]; do words+=("$1") && shift; done
    start_drive "$name" "${words[@]}" || return
    "${@:2}" "$url" || status=1
    stop_drive "$name" || status=1
    return "$status"
}

# ---- stages

# Whether a stage is asked for: all are, if none is named.
is_wanted() { # NAME
    [ "${#wanted[@]}" -eq 0 ] || [[ " ${wanted[*]} " == *" $1 "* ]]
}

# The first lines of what fails do.
shorten() {
    awk '!/^FAILED/ || ++failed <= 20; END { if (failed > 20) print "... and", failed - 20, "more lines of FAILED" }'
}

# Runs a stage: of what it says, the checks that hold are counted, and all else is shown, or with show=1 all of it. Its
# whole output is kept.
stage() { # NAME WHAT COMMAND...
    local file=$accepted/$1.stage status=0 began=$SECONDS checks
    is_wanted "$1" || return 0
    echo "stage $((passed + failed + 1)), $2"
    "${@:3}" >"$file" 2>&1 || status=$?
    checks=$(grep -c '^ok: ' "$file")
    ! grep -q '^FAILED' "$file" || status=1
    [ "$checks" -gt 0 ] || status=1
    if [ -n "${show-}" ]; then cat "$file"; else grep -v '^ok: ' "$file" | shorten; fi | sed 's/^/    /'
    if [ "$status" -eq 0 ]; then
        passed=$((passed + 1))
        echo "    passed: $checks checks, $((SECONDS - began)) s"
    else
        failed=$((failed + 1))
        echo "    FAILED after $((SECONDS - began)) s; the whole of it is in $file"
    fi
}
