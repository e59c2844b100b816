# What ./bench, ./check, ./install and tests/host/run share, to be read by `.`: messages, Debian's packages, the
# compiler, the emulator, the static library. The script that reads it has its own name in `me` and the checkout in
# `home`.
machine=$(uname -m)

say() { echo "$me: $*" >&2; }
die() { say "$@"; exit 2; }

# Installs Debian's packages; fails where that cannot be done.
add_packages() {
    local as_root=
    [ "$(id -u)" = 0 ] || as_root=sudo
    { $as_root apt-get update -q && $as_root apt-get install -q -y "$@"; } >&2
}

# need COMMAND PACKAGE..: a command, by Debian's packages where it is missing.
need() {
    command -v "$1" >/dev/null || add_packages "${@:2}" || true
    command -v "$1" >/dev/null || die "there is no $1, and Debian's package $2 could not be installed"
}

need_rt() { command -v rt >/dev/null || die "the Rattle toolchain's command rt is not on the PATH"; }

# The library is for x86-64. Debian's compiler for it has this name on every processor; on x86-64 it is gcc itself.
compiler=x86_64-linux-gnu-gcc
need_compiler() {
    if [ "$machine" = x86_64 ]; then
        need $compiler gcc libc6-dev
    else
        need $compiler gcc-x86-64-linux-gnu libc6-dev-amd64-cross
    fi
}

# What a program over the library takes to be compiled and run: tests/host/run needs it, and ./check asks for it before
# the proofs, so that it is not missing after them.
need_for_programs() {
    need_compiler
    need g++ g++
    need pkg-config pkg-config
    [ "$machine" = x86_64 ] || [ -n "$(emulator)" ] || need qemu-x86_64 qemu-user
}

# What runs a program for x86-64 on another processor.
emulator() { command -v qemu-x86_64; }

# The file that a static library is built to.
library_of() { echo "$home/crates/$1/out/lib$1.a"; }

# build_library CRATE LOG: proves a static library and builds it.
build_library() {
    say "building the library (some minutes where it has yet to be proved)"
    if ! (cd "$home/crates/$1" && rt lib) >"$2" 2>&1; then
        cat "$2" >&2
        die "the library was not built"
    fi
}
