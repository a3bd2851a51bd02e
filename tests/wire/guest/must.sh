# must.sh: sourced in the guest by each step file. Compares what must come out with what came out, and counts.
# shellcheck shell=sh
tape=/dev/nst0
passed=0 failed=0

must() { # WHAT EXPECTED ACTUAL
    if [ "$2" = "$3" ]; then
        passed=$((passed + 1))
        echo "ok: $1 is $2"
    else
        failed=$((failed + 1))
        echo "FAILED: $1 is $3, and not $2"
    fi
}

# The last line of each step file: a file that ended early, or left a check out, fails.
all_made() { # NUMBER-OF-CHECKS
    [ $((passed + failed)) -eq "$1" ] || {
        echo "FAILED: the number of checks is $((passed + failed)), and not $1"
        exit 1
    }
    [ "$failed" -eq 0 ] || exit 1
}

# Names of their own, since the shell's mt, dd and tar are busybox's. What they say is kept for when they fail.
mt() { timeout 60 mt-st -f "$tape" "$@"; }
dd() { timeout 300 gnu-dd "$@" 2>/tmp/dd; }
tar() { timeout 300 gnu-tar "$@" 2>/tmp/tar; }

status_of() { # COMMAND...
    "$@" >/tmp/said 2>&1
    echo $?
}

# The object number that the drive tells.
object() { mt tell | sed -n 's/^At block \(.*\)\.$/\1/p'; }

# File and block number as the tape driver reckons them (-1: it does not know), its partition, and the object number.
place() {
    reckoned=$(mt status |
        sed -n 's/^File number=\(.*\), block number=\(.*\), partition=\(.*\)\.$/file \1 block \2 of \3/p')
    echo "$reckoned, object $(object)"
}

# The words for the status bits, as `BOT WR_PROT ONLINE IM_REP_EN`.
bits() { mt status | sed -n '/^General status bits on/{n;s/^ //;s/ *$//;p}'; }

block_size() { mt status | sed -n 's/^Tape block size \([0-9]*\) bytes.*/\1/p'; }

# An mt command, the status that it must end with, and where the tape must then stand.
step() { # STATUS PLACE MT-WORD...
    wanted=$1 there=$2
    shift 2
    must "the status of mt $*" "$wanted" "$(status_of mt "$@")"
    must "the place after mt $*" "$there" "$(place)"
}

# Writes blocks first ... first + count - 1 of the numbered data, and st's filemark behind them.
put() { # LENGTH FIRST COUNT
    numbered print "$1" "$2" "$3" | dd of="$tape" bs="$1" iflag=fullblock
}

# Whether so many blocks, or fewer up to a filemark, are just these.
same() { # LENGTH FIRST COUNT
    dd if="$tape" of=/tmp/read bs="$1" count="$3" || { echo "not readable: $(cat /tmp/dd)"; return; }
    numbered print "$1" "$2" "$3" | cmp -s - /tmp/read && echo equal || echo different
}

# How a command block that is sent past the tape driver ends: GOOD, or its sense in sg_raw's words.
sense_of() { # SG_RAW-WORD...
    timeout 60 sg_raw "$@" >/tmp/said 2>&1
    sed -n 's/^SCSI Status: Good.*/GOOD/p;s/.*Sense key: //p;s/^ *Additional sense: //p' /tmp/said |
        sed 's/ *$//' | paste -s -d '/' -
}

# ---- Bacula's btape

# Answers btape's questions in turn. /tmp/btape has what it says, without times of day; /tmp/status the status that it
# ends with. The headings of its tests are shown as they come.
answer_btape() { # CONFIGURATION ANSWER...
    configuration=$1
    shift
    { printf '%s\n' "$@" | timeout 500 btape -c "$configuration" "$tape" 2>&1; echo $? >/tmp/status; } |
        sed 's/^[0-9]*-[A-Z][a-z][a-z] [0-9:]* //' | tee /tmp/btape | grep '^=== [A-Z]'
}

# How often btape must say a line.
says() { # TIMES LINE
    must "the number of lines '$2'" "$1" "$(grep -c -x -F -e "$2" /tmp/btape)"
}

# The words are those of btape's complaints. All of what it said is shown if anything went wrong.
says_no_failure() {
    must 'the number of complaints' 0 \
        "$(grep -c -e '[Ff]ail' -e 'NOT' -e 'ERR=' -e 'Error' -e 'error ' -e 'Unable' -e 'Bad' -e Wrong /tmp/btape)"
    [ "$failed" -eq 0 ] || sed 's/^/| /' /tmp/btape
}
