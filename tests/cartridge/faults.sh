#!/usr/bin/env bash
# faults.sh: shows that cartridge.sh can fail: the tool as it is passes, and with each of these slips in its
# sources it does not. Builds the static library and the listing program first.
set -u
cd "$(dirname "$0")/../.." || exit 2
. tests/host.sh
{ library_shown target/host && listing_shown target/host; } || exit 2

# File, edit, what it does.
slips=(
    'image.h|s/object.end == before ? NO_RULE/object.end >= before ? NO_RULE/|a filemark may move the end'
    'image.h|s/~(uint32_t)IMAGE_PROTECTED/~(uint32_t)3/|flag bit 1 is let through'
    'image.h|s/(uint64_t)IMAGE_ENTRY \* image_field/(uint32_t)IMAGE_ENTRY * image_field/|4N wraps'
    'image.h|s/length > STORMTOGGLE_LONGEST_IMAGE/length >= STORMTOGGLE_LONGEST_IMAGE/|1 GiB is too long'
    'image.h|s/object.end > directory \&\&/object.end >= directory \&\&/|a full image is unsound'
    'image.h|s/ \&\& past.broken == NO_RULE)/)/|the last object past D is named, not the first'
    'image.h|s/IMAGE_ZONE_SHARE < image/IMAGE_ZONE_SHARE <= image/|the zone begins one byte early'
    'image.h|s/length < survey->smallest/length > survey->smallest/|smallest is largest'
    'image.h|s/? STORMTOGGLE_BY_LENGTH : /? STORMTOGGLE_BY_UNSOUND : /|lengths are expected to be refused by 6'
    'files.h|s/LOCK_EX : LOCK_SH/LOCK_SH : LOCK_SH/|a writer shares its lock'
    'files.h|s/if (errno != EWOULDBLOCK)/if (0)/|every lock that fails is said to be in use'
    'files.h|s/if (flock(.*== 0)/if (1)/|nothing is locked'
    'files.h|s/ || fsync(file->descriptor) != 0)/)/|no fsync of the file'
    'files.h|s/msync(.*MS_SYNC) != 0 || //|no msync'
    'files.h|s/O_NONBLOCK | //|a pipe is waited for'
    'files.h|s/= posix_fallocate(.*;/= ftruncate(file->descriptor, (off_t)(at + step));/|no space is allocated'
    'files.h|s/sigaction(SIGBUS/sigaction(SIGUSR1/|a page that is gone kills the tool'
    'files.h|s/if (fcntl(i, F_GETFD) < 0/if (0/|a cartridge may become the output'
    'files.h|s/if (fflush(stdout) == 0 \&\& !failed)/if (1)/|a full output is not noticed'
    'blank.h|s/ | O_EXCL//|a name that is taken in the meantime is overwritten'
    'blank.h|s/if (lstat(.*== 0)/if (0)/|some are made though a name is taken'
    'blank.h|s/        unlink(name);/        (void)0;/|a blank that failed stays'
    'blank.h|s/size % IMAGE_TRAILER != 0/0/|nothing is said of multiples of 16'
    'extract.h|s/STORMTOGGLE_VIEW_START(view)/0 * STORMTOGGLE_VIEW_START(view)/|the first bytes are extracted'
    'extract.h|s/\&\& !is_forced)/\&\& 0)/|extract overwrites without --force'
    'extract.h|s/if (is_same_file(/if (0 \&\& is_same_file(/|extract overwrites the cartridge'
    'extract.h|s/ending = lock_file(output, TO_CHANGE);/ending = DONE;/|a cartridge in use is overwritten'
    'extract.h|s/ftruncate(output->descriptor, 0) != 0/0/|bytes of the file before stay'
    'extract.h|s/number < objects)/number <= objects)/|one object too many is a filemark'
    'words.h|s/part \* unit % parts != 0/0/|parts of bytes are dropped'
    'words.h|s/<< 10 \* i/<< 9 * i/|K is 512'
    'words.h|s/only_words = 1;/only_words = 0;/|-- is no end of options'
    'progress.h|s/setitimer(ITIMER_REAL, .*;/(void)each_second;/|no progress is told'
    'progress.h|s/{{1, 0}, {1, 0}}/{{0, 2000}, {0, 2000}}/|progress is told at once'
    'cartridge.c|s/was == on ? DONE : make_durable(file)/make_durable(file)/|protect syncs what did not change'
    'cartridge.c|s/object.end - before);/object.end);/|ends are listed for lengths'
    'cartridge.c|s/ending = worse(ending, judge(\&files\[i\]));/ending = judge(\&files[0]);/|the second is not judged'
    'cartridge.c|s/IMAGE_ENTRY \* objects + end_of_data(image)/end_of_data(image)/|used leaves out the directory'
    'verdict.h|s/if (!is_verdict_on(refusal, survey.broken))/if (0)/|a disagreement is not told by list'
)

room=$(mktemp -d) || exit 2
trap 'rm -rf "$room"' EXIT
cp -r --parents examples include tests tools target/staticlib/libstormtoggle.a target/bin/listing "$room" || exit 2
# A slip may leave something unused.
sed -i 's/ -Werror//' "$room/tests/host.sh"
flags+=(-Wno-error)

# What the test says of the tool in the room, without the lines that tell of each failure.
run_test() {
    local said status
    said=$(cd "$room" && build_cartridge target/bin/cartridge 2>&1 &&
        tests/cartridge/cartridge.sh target/bin/cartridge target/bin/listing "${runner[*]}" 2>&1)
    status=$?
    printf '%s; %s\n' "$(tail -n 1 <<<"$said")" "$(head -n 1 <<<"$said" | cut -c 1-60)"
    return "$status"
}

failed=0
if verdict=$(run_test); then
    echo "no slip: nothing fails (${verdict%;*})"
else
    failed=1
    echo "no slip: FAILED: $verdict"
fi
for slip in "${slips[@]}"; do
    IFS='|' read -r file _ <<<"$slip"
    what=${slip##*|} edit=${slip#*|} edit=${edit%|*}
    sed -i "$edit" "$room/tools/$file"
    if cmp -s "tools/$file" "$room/tools/$file"; then
        failed=1 outcome="FAILED: the edit changes nothing"
    elif verdict=$(run_test); then
        failed=1 outcome="FAILED: not found"
    elif [[ ! $verdict =~ ^[0-9]+\ passed ]]; then
        failed=1 outcome="FAILED: $verdict"
    else
        outcome="found ($verdict)"
    fi
    cp "tools/$file" "$room/tools/$file"
    echo "$what: $outcome"
done
exit "$failed"
