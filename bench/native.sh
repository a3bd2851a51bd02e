# native.sh: sourced by bench/run and bench/loads. Makes the library that this machine runs: on x86-64 the archive
# itself, elsewhere the same proved crate compiled for the machine at hand, so that the proved code is measured
# natively.
# shellcheck shell=bash
. tests/progress.sh

library=target/staticlib/libstormtoggle.a
[ "$(uname -m)" = x86_64 ] || library=target/bench/libstormtoggle.a

native_library() {
    mkdir -p target/bench
    # The C programs must be this machine's own.
    command -v cc >/dev/null || install_packages gcc libc6-dev || return
    library_shown target/bench || return
    [ "$(uname -m)" = x86_64 ] || native_archive "$library"
}

# rt lib hands the target on to the compiler, which has one for Arm alone beside x86-64.
native_archive() { # ARCHIVE
    if [ "$(uname -m)" != aarch64 ]; then
        echo "the toolchain compiles for x86-64 and aarch64, so the library cannot be measured on $(uname -m)"
        return 1
    fi
    rt_shown target/bench/native.log crates/stormtoggle lib --target aarch64-unknown-linux-gnu &&
        cp crates/stormtoggle/out/libstormtoggle.a "$1"
}
