#!/usr/bin/env bash
# faults.sh: shows that tests/daemon/mains.c finds slips in the order in which the example daemon makes its data final:
# seeds each in turn in a copy of the daemon, and runs the test on it. Ends with status 0 exactly if each is found.
set -u
cd "$(dirname "$0")/../.." || exit 2
. tests/library.sh

# File, what stands there, what stands there with the slip. The first is none.
slips=(
    "cartridge.h|make_final|make_final"
    "cartridge.h|c->told > c->lowest \&\& !tell_objects(c, c->lowest)|0"
    "cartridge.h|!is_on_disk(c) .. !tell_objects(c, objects_in|!tell_objects(c, objects_in"
    "cartridge.h|    copy_to_file(c, c->entries);||"
    "cartridge.h|    copy_to_file(c, c->data);||"
    "cartridge.h|c->told = objects > c->told ? objects : c->told;|c->told = objects;"
    "cartridge.h|c->lowest = c->is_changed .. c->lowest < from ? c->lowest : from;|c->lowest = from;"
    "cartridge.h|is_zeroed ? directory_of(c, objects) : end_of(c, objects)|end_of(c, objects)"
    "cartridge.h|r->to = to > r->to ? to : r->to;||"
    "cartridge.h|        return 0;\$|        c->is_changed = 0;|"
    "cartridge.h|    keep_trailer(c);||"
    "drive.h|(is_erased .. position_of(d) != from)|1"
    "drive.h|command\[0\] == WRITE_FILEMARKS .. command\[0\] == ERASE|command[0] == ERASE"
    "drive.h|(command\[0\] == LOAD_UNLOAD \&\& !is_loaded(d))|0"
    "drive.h|, second = make_final(\&d->tape\[1\])|, second = 1"
)

folder=target/host/mains
failed=0
for fault in "${!slips[@]}"; do
    IFS='|' read -r file from to _ <<<"${slips[fault]}"
    rm -rf "$folder" && mkdir -p "$folder" && cp -r examples tests include "$folder" || exit 2
    sed -i "s|$from|$to|" "$folder/examples/daemon/$file" || exit 2
    if [ "$fault" -gt 0 ] && cmp -s "examples/daemon/$file" "$folder/examples/daemon/$file"; then
        echo "fault $fault: FAILED: '$from' stands nowhere in $file"
        failed=1
        continue
    fi
    "$compiler" "${flags[@]}" -w -O2 -pthread -o "$folder/mains" "$folder/tests/daemon/mains.c" "$LIBRARY" || exit 2
    said=$(timeout 60 "${runner[@]}" "$folder/mains" 1 100000)
    status=$?
    if [ "$fault" -eq 0 ] && [ "$status" -eq 0 ]; then
        echo "fault 0, none: nothing differs"
    elif [ "$fault" -gt 0 ] && [ "$status" -eq 1 ]; then
        echo "fault $fault, $file, '$from' as '$to': found: $(head -n 1 <<<"$said")"
    else
        echo "fault $fault, $file, '$from' as '$to': FAILED: status $status: $(tail -n 1 <<<"$said")"
        failed=1
    fi
done
exit "$failed"
