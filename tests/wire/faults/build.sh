# build.sh: sourced by the scripts that load and disturb the drive: builds their programs. Needs tests/host.sh.
# shellcheck shell=bash disable=SC2154

wire=target/wire
wire_flags=("${flags[@]}" -Iexamples -Itests -Itests/wire -O2 -pthread)

# A program that runs beside the drive on the machine itself, as its hosts do.
build_wire() { # NAME...
    local name packages=()
    command -v cc >/dev/null || packages+=(gcc libc6-dev)
    [ -e /usr/include/iscsi/iscsi.h ] || packages+=(libiscsi-dev)
    install_packages "${packages[@]}" && mkdir -p "$wire" || return
    for name in "$@"; do
        cc "${wire_flags[@]}" -o "$wire/$name" "tests/wire/faults/$name.c" -liscsi || return
    done
}

# The hosts of the load, past the transport.
build_load_local() {
    build_wire load && cc "${wire_flags[@]}" -DPAST_THE_TRANSPORT -o "$wire/load_local" tests/wire/faults/load.c
}

# A program over the library, which is x86-64.
build_over_library() { # NAME
    mkdir -p "$wire" && "$compiler" "${wire_flags[@]}" -o "$wire/$1" "tests/wire/faults/$1.c" \
        target/staticlib/libstormtoggle.a
}
