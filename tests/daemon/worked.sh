#!/usr/bin/env bash
# worked.sh PRINTED: whether the worked command blocks in docs/DAEMON.md are those in the file PRINTED, which is what
# examples/worked.c prints on the library.
set -u
cd "$(dirname "$0")/../.." || exit 2
# The page has them as code: the lines that are set in by four spaces behind the heading.
if [ ! -s "$1" ] || ! diff <(sed -n '/^## Worked command blocks/,/^## /s/^    //p' docs/DAEMON.md) "$1"; then
    echo "docs/DAEMON.md (<) has other worked command blocks than the library (>)"
    exit 1
fi
echo "worked command blocks: $(wc -l <"$1") lines, as the library has them"
