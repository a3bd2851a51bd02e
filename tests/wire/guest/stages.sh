# stages.sh: sourced. The guest's stages, a function each: it prints a line for each check and ends with 0 exactly if
# all passed. FOLDER is what ./make wrote; URL is the drive's, served with the cartridge that is named at each, blank
# unless it says otherwise.
# shellcheck shell=bash

guest=$(cd "$(dirname "${BASH_SOURCE[0]}")" && pwd)

# The packages that make and run need.
guest_packages=(busybox-static mt-st tar sg3-utils bacula-sd cpio kmod gcc libc6-dev qemu-block-extra)
case $(uname -m) in
x86_64) guest_packages+=(linux-image-cloud-amd64 qemu-system-x86) ;;
*) guest_packages+=(linux-image-cloud-arm64 qemu-system-arm) ;;
esac

guest_make() { # FOLDER
    timeout 120 "$guest/make" "$1"
}

guest_step() { # SECONDS FOLDER URL NAME [ARGUMENT...]
    GUEST_SECONDS=$1 "$guest/run" "$2" "$3" "$guest/steps/$4.sh" "${@:5}"
}

# ---- document 01's rule of room, for a partition of so many bytes that is filled from its beginning

# How many blocks of a length fit: each takes 4 bytes more than it has.
blocks_that_fit() { # PARTITION-LENGTH BLOCK-LENGTH
    echo $((($1 - 16) / ($2 + 4)))
}

# The first number of blocks behind which the room is less than a sixteenth of all, so more than 15 of 16 parts taken;
# with so many bytes taken in front of them.
blocks_to_warning() { # PARTITION-LENGTH BLOCK-LENGTH TAKEN
    echo $(((15 * ($1 - 16) - 16 * $3) / (16 * ($2 + 4)) + 1))
}

# The step's four words for blocks of a length. A filemark behind them takes 4 bytes.
fill_words() { # PARTITION-LENGTH BLOCK-LENGTH
    local fitting at_close=none
    fitting=$(blocks_that_fit "$1" "$2")
    [ $(($1 - 16 - fitting * ($2 + 4))) -ge 4 ] || at_close=EIO
    echo "$2 $(blocks_to_warning "$1" "$2" 0) $fitting $at_close"
}

# ---- the stages

# 1 MiB, one partition.
guest_mt() { # FOLDER URL
    guest_step 300 "$1" "$2" mt
}

# 1 MiB, two partitions.
guest_two_partitions() { # FOLDER URL
    guest_step 300 "$1" "$2" two_partitions
}

# 32 MiB, one partition.
guest_dd_tar() { # FOLDER URL
    guest_step 300 "$1" "$2" dd_tar
}

# 16 MiB, one partition. Blocks of 4,096 bytes fill it to the last byte, so that no filemark fits behind them.
guest_fill() { # FOLDER URL
    local length four words=()
    for length in 32768 4096 1048576; do
        read -r -a four < <(fill_words $((16 << 20)) "$length")
        words+=("${four[@]}")
    done
    guest_step 300 "$1" "$2" fill 3 "${words[@]}"
}

# 1 MiB, one partition; then the drive is stopped, the cartridge protected, and served again for the next one.
guest_protected_before() { # FOLDER URL
    guest_step 300 "$1" "$2" protected before
}

# That cartridge, protected.
guest_protected_after() { # FOLDER URL
    guest_step 300 "$1" "$2" protected after
}

# 256 MiB, one partition.
guest_btape_test() { # FOLDER URL
    guest_step 600 "$1" "$2" btape_test
}

# 400 MiB, one partition. In front of the blocks stand the label, a block as well, and a filemark.
guest_btape_fill() { # FOLDER URL
    guest_step 600 "$1" "$2" btape_fill "$(blocks_to_warning $((400 << 20)) 64512 $((64512 + 4 + 4)))"
}

# No drive of ours: the same step on another's, whose appending is wrong, must fail in btape's own words. So the step
# can fail, and for what a drive does: the guest came up, saw the tape (else the status is not 1), and read back what
# it wrote.
guest_peer() { # FOLDER PORT
    local said status=0 failed=0 reread="ok: the number of lines '10000 blocks re-read correctly.' is 2"
    echo "btape test is run on the tape that Debian's tgt has, and must fail ..."
    said=$(GUEST_SECONDS=600 "$guest/peer" "$2" "$1" "$guest/steps/btape_test.sh" 2>&1) || status=$?
    peer_must 'the step fails on it' test "$status" -eq 1
    peer_must 'and yet blocks are re-read' grep -q -x -F "$reread"
    peer_must 'btape says that appending failed' grep -q -x -F '| Append test failed.'
    peer_must 'btape finds no way out' grep -q -x -F '| Unable to correct the problem. You MUST fix this'
    [ "$failed" -eq 0 ] || printf '%s\n' "$said"
    return "$failed"
}

peer_must() { # WHAT COMMAND...
    if "${@:2}" <<<"$said"; then
        echo "ok: tgt's own tape: $1"
    else
        echo "FAILED: tgt's own tape: $1: that is not so"
        failed=1
    fi
}
