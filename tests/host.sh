# host.sh: sourced by the scripts that build or run x86-64 programs. Sets compiler, flags and runner, and installs what
# is missing. The static library and the listing program are x86-64, so another machine crosses over and emulates.
# shellcheck shell=bash
. tests/progress.sh

missing=()
if [ "$(uname -m)" = x86_64 ]; then
    compiler=cc runner=()
    command -v cc >/dev/null || missing=(gcc libc6-dev)
else
    compiler=x86_64-linux-gnu-gcc runner=(qemu-x86_64 -L /usr/x86_64-linux-gnu)
    command -v x86_64-linux-gnu-gcc >/dev/null || missing+=(gcc-x86-64-linux-gnu)
    [ -e /usr/x86_64-linux-gnu/include/stdio.h ] || missing+=(libc6-dev-amd64-cross)
    command -v qemu-x86_64 >/dev/null || missing+=(qemu-user)
fi
install_packages "${missing[@]}" || exit 1
flags=(-std=c99 -pedantic -Wall -Wextra -Werror -Iinclude)

# Builds the operator's tool over the static library.
build_cartridge() { # PROGRAM
    "$compiler" "${flags[@]}" -O2 -o "$1" tools/cartridge.c target/staticlib/libstormtoggle.a
}
