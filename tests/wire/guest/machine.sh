# machine.sh: sourced by make and run. Sets machine, the QEMU command for a guest of this host's own architecture, and
# console, its serial line.
# shellcheck shell=bash disable=SC2034

case $(uname -m) in
x86_64) machine=(qemu-system-x86_64 -M q35 -cpu max) console=ttyS0 ;;
aarch64) machine=(qemu-system-aarch64 -M virt -cpu max) console=ttyAMA0 ;;
*) echo "no guest is made for $(uname -m)" >&2; exit 2 ;;
esac

# The serial line is its standard output. It powers off or, on a panic, ends; the caller bounds how long that may take.
boot() { # ACCELERATOR KERNEL INITRD WORDS-FOR-THE-KERNEL OPTION...
    timeout -k 5 "${GUEST_SECONDS:-180}" "${machine[@]}" -accel "$1" -m 512 -nodefaults -nic none -display none \
        -no-reboot -serial stdio -kernel "$2" -initrd "$3" -append "console=$console quiet loglevel=1 panic=-1 $4" \
        "${@:5}" </dev/null 2>&1 | sed -u 's/\r//g'
}
