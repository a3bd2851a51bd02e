#!/usr/bin/env bash
# install.sh: installs to a temporary prefix by ./install, builds a program against that by pkg-config alone, runs it
# and the operator's tool, and removes all of it again. A line for each check; exit status 0 exactly if all passed.
set -u
cd "$(dirname "$0")/../.." || exit 2
. tests/host.sh
command -v pkg-config >/dev/null || install_packages pkg-config || exit 2

room=$(mktemp -d) || exit 2
trap 'rm -rf "$room"' EXIT
passed=0 failed=0

holds() { # WHAT COMMAND...
    if "${@:2}"; then
        passed=$((passed + 1))
        echo "ok: $1"
    else
        failed=$((failed + 1))
        echo "FAILED: $1"
    fi
}

# Runs ./install: whether it ends with this status. What it says is shown if not.
installs() { # STATUS WORD...
    ./install "${@:2}" >"$room/said" 2>&1 </dev/null
    [ $? -eq "$1" ] || { cat "$room/said"; return 1; }
}

installs_below() { # DESTDIR WORD...
    DESTDIR=$1 installs 0 --prefix=/opt/some/where "${@:2}"
}

# ---- what is installed

# All files that are to be there, and no others.
wanted_files() {
    printf '%s\n' bin/cartridge include/stormtoggle.h lib/libstormtoggle.a lib/pkgconfig/stormtoggle.pc \
        share/doc/stormtoggle/installed.txt share/doc/stormtoggle/README.md
    (cd docs && printf 'share/doc/stormtoggle/%s\n' *.md)
}

has_just_these_files() { # PREFIX
    diff <(cd "$1" && find . -type f | sed 's|^\./||' | sort) <(wanted_files | sort)
}

are_as_in_the_tree() { # PREFIX
    cmp "$1/lib/libstormtoggle.a" target/staticlib/libstormtoggle.a && cmp "$1/include/stormtoggle.h" \
        include/stormtoggle.h && cmp "$1/share/doc/stormtoggle/README.md" README.md
}

# ---- a program against it

cat >"$room/program.c" <<'END'
/* A program of somebody who has only what is installed. */
#include <stdio.h>
#include <stormtoggle.h>
int main(void)
{
    uint8_t record[STORMTOGGLE_RECORD_LENGTH], image[64];
    uint64_t blank = stormtoggle_blank(image, sizeof image), fresh = stormtoggle_fresh(record, sizeof record);
    uint64_t mount = stormtoggle_mount(record, sizeof record, image, sizeof image, NULL, 0);
    printf("%d %d %d loaded %d\n", (int)blank, (int)fresh, (int)mount, record[STORMTOGGLE_RECORD_LOADED]);
    return 0;
}
END

# From another directory, so that nothing of the tree is found.
program_runs() { # PREFIX
    local words
    rm -f "$room/program"
    words=$(PKG_CONFIG_PATH=$1/lib/pkgconfig pkg-config --cflags --libs stormtoggle) || return
    read -ra words <<<"$words"
    (cd "$room" && "$compiler" -o program program.c "${words[@]}") || return
    [ "$("${runner[@]}" "$room/program")" = "0 0 0 loaded 1" ]
}

tool_runs() { # PREFIX
    local tool=("${runner[@]}" "$1/bin/cartridge")
    rm -f "$room/tape"
    "${tool[@]}" blank 1K "$room/tape" >/dev/null && [ "$("${tool[@]}" list "$room/tape")" = "objects 0 free 1008" ]
}

serves() { # PREFIX WHAT
    holds "$2: just the files that are named" has_just_these_files "$1"
    holds "$2: library, header and README are the tree's" are_as_in_the_tree "$1"
    holds "$2: a program is built by pkg-config alone, and runs" program_runs "$1"
    holds "$2: cartridge runs" tool_runs "$1"
}

is_empty() { [ -d "$1" ] && [ -z "$(find "$1" -mindepth 1 -print -quit)" ]; }

# ---- the runs

mkdir "$room/prefix" "$room/stage"
holds "nothing is there to be removed" installs 1 --prefix "$room/prefix" --uninstall
holds "install" installs 0 --prefix "$room/prefix"
serves "$room/prefix" "installed"
holds "install over it" installs 0 --prefix "$room/prefix"
serves "$room/prefix" "installed again"
holds "uninstall" installs 0 --prefix "$room/prefix" --uninstall
holds "nothing is left" is_empty "$room/prefix"

holds "install below DESTDIR" installs_below "$room/stage"
serves "$room/stage/opt/some/where" "below DESTDIR"
mv "$room/stage" "$room/moved"
holds "moved: a program is built and runs" program_runs "$room/moved/opt/some/where"
: >"$room/moved/opt/some/where/lib/of_somebody_else"
holds "uninstall below DESTDIR" installs_below "$room/moved" --uninstall
holds "somebody else's file stays" [ "$(cd "$room/moved" && find . -type f)" = ./opt/some/where/lib/of_somebody_else ]
holds "and no other directory than its own" [ "$(find "$room/moved" -mindepth 1 -type d | wc -l)" -eq 4 ]

mkdir "$room/prefix/bin"
echo "of somebody else" >"$room/prefix/bin/cartridge"
holds "another cartridge is not overwritten" installs 1 --prefix "$room/prefix"
holds "it stays, and nothing comes beside it" [ "$(find "$room/prefix" -type f -exec cat {} +)" = "of somebody else" ]

holds "wrong words are refused" installs 2 --prefx "$room/prefix"
holds "a prefix must be named" installs 2 --prefix
holds "and not be empty" installs 2 --prefix=
: >"$room/file"
holds "a prefix that cannot be made is an error" installs 1 --prefix "$room/file/below"

echo "$passed passed, $failed failed"
[ "$failed" -eq 0 ]
