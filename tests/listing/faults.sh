#!/usr/bin/env bash
# faults.sh: shows that listing.sh can fail: a listing program without a slip passes it, and each that slips.c
# makes with one is found.
set -u
cd "$(dirname "$0")/../.." || exit 2
. tests/host.sh

# In the order of the slips' numbers.
slips=(
    "none"
    "nothing is listed"
    "the first line alone is listed"
    "the last newline is left out"
    "the input is cut at 65,536 bytes"
    "the input's length is counted in 16 bits"
    "descriptor 3 is read"
    "descriptor 1 is read"
    "the output goes to descriptor 2"
    "the output goes to descriptor 3 too"
    "the output goes to descriptor 0 too"
    "one read, and no more"
    "a short read is taken for the end"
    "one write, and no more"
    "a short write starts again from the first byte"
    "the output is cut at 65,536 bytes"
    "the exit status is 1"
    "an interrupted read is taken for the end"
    "an interrupted write is taken for the end"
    "an interrupted read forgets what came before it"
)

room=$(mktemp -d) || exit 2
trap 'rm -rf "$room"' EXIT
failed=0
for slip in "${!slips[@]}"; do
    "$compiler" "${flags[@]}" -DSLIP="$slip" -o "$room/listing" tests/listing/slips.c || exit 2
    said=$(tests/listing/listing.sh "$room/listing" "${runner[*]}")
    status=$?
    # The last line is the verdict, and the first tells which run failed first.
    verdict=$(tail -n 1 <<<"$said")
    if [ "$slip" -eq 0 ] && [ "$status" -eq 0 ]; then
        outcome="nothing fails ($verdict)"
    elif [ "$slip" -gt 0 ] && [ "$status" -eq 1 ]; then
        outcome="found ($verdict), first in the $(head -n 1 <<<"${said%%,*}")"
    else
        outcome="FAILED: status $status, $verdict"
        failed=1
    fi
    echo "slip $slip, ${slips[slip]}: $outcome"
done
exit "$failed"
