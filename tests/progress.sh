# progress.sh: sourced by the scripts that prove, build or install. Runs what takes long, and says what has ended, what
# is under way, and how long it has taken so far. Plain lines, so that a log reads as a terminal does.
# shellcheck shell=bash

# After so many seconds without a line, one says that work goes on.
longest_silence=30

elapsed() { printf '%d:%02d' $((SECONDS / 60)) $((SECONDS % 60)); }

# Hands each line that comes in to a command, as its last word. A second without one is long enough to tell what was
# put off until then.
each_line() { # COMMAND...
    local line part='' status=0 silent=0
    while [ "$status" -eq 0 ]; do
        IFS= read -r -t 1 line || status=$?
        part+=$line
        if [ "$status" -gt 128 ]; then
            # The second is over, and a line may have come in part.
            silent=$((silent + 1)) status=0
            say_unchanged
            [ $((silent % longest_silence)) -gt 0 ] || say_at_work
        elif [ "$status" -eq 0 ] || [ -n "$part" ]; then
            "$@" "$part"
            part='' silent=0
        fi
    done
}

# ---- rt

# The crates that these are proved with, themselves included: all that crates.txt lists if none is named.
crates_for() { # NAME...
    NAMES=$* awk '
        function visit(name, used, count, i) {
            if (!(name in uses) || name in met) return
            met[name] = 1
            print name
            count = split(uses[name], used, " ")
            for (i = 1; i <= count; i++) visit(used[i])
        }
        { sub(/#.*/, ""); at = index($0, ":") }
        at {
            # After the name may stand what kind of crate it is.
            split(substr($0, 1, at - 1), head, " ")
            uses[head[1]] = substr($0, at + 1)
            listed = listed " " head[1]
        }
        END {
            count = split(ENVIRON["NAMES"] == "" ? listed : ENVIRON["NAMES"], named, " ")
            for (i = 1; i <= count; i++) visit(named[i])
        }' crates.txt
}

count_edits() {
    local found=(crates/*/must-fail/*.edit)
    if [ -e "${found[0]}" ]; then echo "${#found[@]}"; else echo 0; fi
}

# What rt proves in this checkout, by the provers that run: each runs in its crate's folder, or, for an edit, on a copy
# among the temporary files, whose name has rt's own number. All have the crate's name among their words.
at_work() {
    local top process folder name
    top=$(pwd -P)
    while read -r process folder; do
        name=$(tr '\0' '\n' 2>/dev/null <"$process/cmdline" | sed -n '/^--crate-name$/ { n; p; q }')
        if [[ $folder =~ /rt-edit-([0-9]+)- ]]; then
            [ "$(readlink "/proc/${BASH_REMATCH[1]}/cwd")" = "$top" ] && [ -n "$name" ] && echo "the edits of $name"
        elif [ -n "$name" ]; then
            echo "$name"
        fi
    done < <(find /proc/[0-9]*/cwd -maxdepth 0 \( -lname "$top/crates/*" -o -lname '*/rt-edit-*' \) \
        -printf '%h %l\n' 2>/dev/null) | sort -u
}

say_at_work() {
    local names
    names=$(at_work | paste -s -d ',')
    echo "    .. at work${names:+ on ${names//,/, }} (elapsed $(elapsed))"
}

# Crates that need no proof again come in a row, and are told of together.
say_unchanged() {
    end_block
    [ "$unchanged" -gt 0 ] || return 0
    printf '[%*d of %d] proved earlier and unchanged: %d (elapsed %s)\n' \
        "${#crates}" "$crates_told" "$crates" "$unchanged" "$(elapsed)"
    unchanged=0
}

say_crate() { # WORDS
    say_unchanged
    crates_told=$((crates_told + 1))
    printf '[%*d of %d] %s (elapsed %s)\n' "${#crates}" "$crates_told" "$crates" "$1" "$(elapsed)"
}

say_edit() { # WORDS
    say_unchanged
    edits_told=$((edits_told + 1))
    printf '[%*d of %d] %s (elapsed %s)\n' "${#edits}" "$edits_told" "$edits" "$1" "$(elapsed)"
}

# rt all has a block of lines for each crate that has ended, under its name: none below that if it was proved earlier.
# Which crates failed is said at the end, where it sums up.
end_block() {
    local name=$block
    block=''
    [ -n "$name" ] || return 0
    case $outcome in
    none) crates_told=$((crates_told + 1)) unchanged=$((unchanged + 1)) ;;
    proved) say_crate "$name proved" ;;
    *) say_crate "$name has ended, and what it said is above" ;;
    esac
}

note_block() { # LINE
    if [[ $1 =~ ^==\ ([a-z0-9_]+)$ ]]; then
        end_block
        [ "${BASH_REMATCH[1]}" = summary ] || block=${BASH_REMATCH[1]}
        outcome=none
    elif [[ $1 == logic=proved\ * ]]; then
        outcome=proved
    elif [ "$outcome" = none ] && [[ $1 != *': begins with what a check kept in '* ]]; then
        outcome=other
    fi
}

# What is proved, function by function, and what it was proved with: nothing of it tells of a failure.
is_detail() { # LINE
    [[ $1 =~ ^==\ [a-z0-9_]+(:\ its\ tests)?$ ||
        $1 =~ ^[a-z]+\ [^\ ]+:\ proved$ ||
        $1 =~ ^empty\ contracts:\ 0\ found\;\ tried\  ||
        $1 =~ ^(library|statements|crate)\ [^\ ]+:\ modules\ loaded=[0-9]+\ checked=[0-9]+$ ||
        $1 =~ ^logic\ [^\ ]+:\ libraries=[0-9]+\ files=[0-9]+\ sum=[0-9a-f]+$ ||
        ($1 =~ ^logic=proved\  && ! $1 =~ \ foreign=) ||
        $1 =~ ^only=0\ proved=0$ || $1 =~ ^so\ far:\  || $1 =~ ^checked\ [^\ ]+,\ [0-9]+\ of\ [0-9]+$ ||
        $1 =~ ^axioms\ [^\ ]+:\  || $1 =~ ^linked\ target= ||
        $1 =~ ^rt:\ chose\ --jobs\ [0-9]+\ for\  || $1 =~ ^[a-z0-9_]+:\ ok$ ||
        $1 =~ ^rt:\ [a-z0-9_]+:\ begins\ with\ what\ a\ check\ kept\  ||
        $1 =~ ^[^\ ]+:\ note:\ .rw.\ took\ the\ first\ instance ||
        $1 == 'note: no function with a body is declared, so nothing was lowered' ]]
}

# A line of rt that is none of those known is shown as it is.
show_line() { # LINE
    local crate='^rt: ([A-Za-z0-9_]+)' edit='^rt: must-fail ([^: ]+)'
    [ "$verb" != all ] || note_block "$1"
    if [[ $1 =~ $crate\ is\ kept: ]]; then
        crates_told=$((crates_told + 1)) unchanged=$((unchanged + 1))
    elif [[ $1 =~ $crate\ proved$ ]]; then
        say_crate "${BASH_REMATCH[1]} proved"
    elif [[ $1 =~ $crate\ NOT\ PROVED ]]; then
        say_crate "${1#rt: }"
    elif [[ $1 =~ $edit:\ refused ]]; then
        say_edit "refused: ${BASH_REMATCH[1]}"
    elif [[ $1 =~ $edit: ]]; then
        say_edit "${1#rt: }"
    elif ! is_detail "$1"; then
        [ -n "$block" ] || say_unchanged
        if [[ $1 == 'rt: '* ]]; then
            echo "${1#rt: } (elapsed $(elapsed))"
        elif [[ $1 =~ ^[0-9]+\ passed,\ 0\ failed$ ]]; then
            # The bare line is a verdict on more than this.
            echo "rt: $1"
        else
            printf '%s\n' "$1"
        fi
    fi
}

show_rt() { # VERB CRATES EDITS
    local verb=$1 crates=$2 edits=$3 crates_told=0 edits_told=0 unchanged=0 block='' outcome=none
    each_line show_line
    say_unchanged
}

# Runs rt in a folder, shows how far it is, and keeps the whole of what it prints in a file; shows much of it if rt
# fails. Returns rt's own status. A program that rt runs has the crate's own input.
rt_shown() { # FILE FOLDER WORDS-OF-RT...
    local file=$1 folder=$2 words="rt ${*:3}" crates=0 edits=0 input=/dev/null status
    shift 2
    case $1 in
    ci)
        crates=$(crates_for | wc -l) edits=$(count_edits)
        echo "\$ $words: $crates crates to prove, and $edits edits to refuse"
        ;;
    all)
        crates=$(crates_for "${folder#crates/}" | wc -l)
        echo "\$ $words in $folder: $crates crates to prove"
        ;;
    *)
        [ "$1" != run ] || [ ! -e "$folder/stdin" ] || input=$folder/stdin
        echo "\$ $words in $folder"
        ;;
    esac
    mkdir -p "$(dirname "$file")" || return 2
    (cd "$folder" && exec rt "$@") <"$input" 2>&1 | tee "$file" | show_rt "$1" "$crates" "$edits"
    status=${PIPESTATUS[0]}
    [ "$status" -ne 0 ] || return 0
    echo "$words ended with status $status. The last lines that it printed:"
    tail -n 200 "$file" | awk 1 # which ends a last line that was cut short
    echo "$words ended with status $status. The whole of what it printed is in $file"
    return "$status"
}

# ---- what the C side links and runs

# As many crates at a time as there are processors, and 4 GiB of free memory for each.
crates_at_once() {
    local fit
    fit=$(awk '/^MemAvailable:/ { print int($2 / 4194304) }' /proc/meminfo)
    if [ "${fit:-1}" -lt 1 ]; then fit=1; fi
    if [ "$fit" -lt "$(nproc)" ]; then echo "$fit"; else nproc; fi
}

# Proves a crate with all that it stands on, builds what is made of it, and puts that where the C side looks. rt lib and
# rt run prove one crate after the other, so what must be proved is left to rt all, and they build over what that kept.
# An older one at that place goes first: where this fails, none stands there.
made_shown() { # FOLDER CRATE MADE PLACE WORDS-OF-RT...
    rm -f "$4/$3"
    rt_shown "$1/$2.proofs.log" "crates/$2" all check --jobs "$(crates_at_once)" &&
        rt_shown "$1/$2.log" "crates/$2" "${@:5}" &&
        mkdir -p "$4" && cp "crates/$2/out/$3" "$4/" &&
        echo "$2 is proved and built: $4/$3 (elapsed $(elapsed))"
}

# For every x86-64 processor: rt's own default asks for a newer one.
library_shown() { # FOLDER
    made_shown "$1" stormtoggle libstormtoggle.a target/staticlib lib --cpu x86-64
}

listing_shown() { # FOLDER
    made_shown "$1" listing listing target/bin run --cpu x86-64
}

# Whether the library is there, and nothing that it is proved from is newer. What rt keeps in out/ is no source.
has_library() {
    local made=target/staticlib/libstormtoggle.a
    [ -e "$made" ] && [ -z "$(find crates.txt crates/*/{src,specs,proofs} -newer "$made" -print -quit 2>/dev/null)" ]
}

# ---- packages

# Installs Debian packages. What it says is kept off standard output, whose last line may be a verdict.
install_packages() { # PACKAGE...
    local log dots status=0
    [ $# -gt 0 ] || return 0
    log=$(mktemp) || return 1
    printf "installing %s from Debian's packages ..." "$*" >&2
    # A dot now and then, for as long as this script lives. The last sleep outlives it, and must hold no pipe open.
    while sleep 10 >/dev/null 2>&1 && kill -0 $$ 2>/dev/null; do printf . >&2; done &
    dots=$!
    { apt-get update && DEBIAN_FRONTEND=noninteractive apt-get install -y --no-install-recommends "$@"; } \
        >"$log" 2>&1 </dev/null || status=$?
    { kill "$dots" && wait "$dots"; } 2>/dev/null || true
    if [ "$status" -eq 0 ]; then
        echo " done" >&2
    else
        { echo " failed"; cat "$log"; echo "missing and could not be installed: $*"; } >&2
    fi
    rm -f "$log"
    return "$status"
}
