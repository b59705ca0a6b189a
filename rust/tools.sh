# shellcheck shell=sh disable=SC2034,SC2154
# Read by the scripts of this folder, with `root` and `out` set: installs what building for x86-64 needs, and defines
#   cargo ..     cargo with Debian's copy of the one crate that is not ours, and the flags for this machine
#   under ..     runs an x86-64 program
#   built KIND   the folder where cargo puts programs of that kind, debug or release
#   static_flags sets what links programs without a library of the system
#   prefix       what stands before the names of the tools for x86-64
#   across       what makes cargo run documentation tests under an emulator, where there is one
#   proved       the names of the proved archives
#   archives     makes them where `rt` is at hand, and sets DOORQUILL_LIB to their folder
#   left_out ..  ends the script with a message and status 0
#   offered ..   installs packages that are of use and not needed, where they can be had
log=$out/install.log
proved='doorquill doorquill_changes doorquill_back bench'

left_out() {
    echo "host: not run: $*"
    exit 0
}

# missing PACKAGE..: those that aren't installed
missing() {
    for name; do
        [ "$(dpkg-query -W -f '${db:Status-Status}' "$name" 2> /dev/null)" = installed ] || printf '%s ' "$name"
    done
}

# install PACKAGE..
install() {
    if [ "$(id -u)" -ne 0 ] || ! command -v apt-get > /dev/null; then
        left_out "these packages are missing, and only root can install them: $*"
    fi
    DEBIAN_FRONTEND=noninteractive apt-get update > "$log" 2>&1
    DEBIAN_FRONTEND=noninteractive apt-get install -y --no-install-recommends "$@" >> "$log" 2>&1 ||
        left_out "these packages can't be installed (see $log): $*"
}

# offered PACKAGE..: installs what is of use and not needed, where that can be had
offered() {
    [ "$(id -u)" -eq 0 ] && command -v apt-get > /dev/null || return 1
    DEBIAN_FRONTEND=noninteractive apt-get install -y --no-install-recommends "$@" >> "$log" 2>&1
}

command -v dpkg-query > /dev/null || left_out "a machine without Debian's packages"
across=''
case $(uname -m) in
x86_64)
    emulator='' prefix=''
    need=$(missing librust-lexopt-dev)
    command -v cargo > /dev/null || need="$need cargo rustc"
    command -v cc > /dev/null || need="$need gcc libc6-dev"
    command -v c++ > /dev/null || need="$need g++"
    # shellcheck disable=SC2086
    [ -z "$need" ] || install $need
    cargo=$(command -v cargo)
    ;;
aarch64)
    emulator=qemu-x86_64 prefix=x86_64-linux-gnu-
    dpkg --print-foreign-architectures | grep -qx amd64 || { [ "$(id -u)" -eq 0 ] && dpkg --add-architecture amd64; } ||
        left_out "the packages of amd64 can't be asked for"
    need=$(missing cargo rustc gcc libc6-dev libstd-rust-dev:amd64 gcc-x86-64-linux-gnu g++-x86-64-linux-gnu libc6-dev-amd64-cross qemu-user libc6:amd64 libgcc-s1:amd64 librust-lexopt-dev)
    # shellcheck disable=SC2086
    [ -z "$need" ] || install $need
    # Debian's, by their full names: another one that stands first on the path may have no library for x86-64.
    cargo=$(dpkg -L cargo | grep -m1 'bin/cargo$')
    RUSTC=$(dpkg -L rustc | grep -m1 'bin/rustc$')
    RUSTDOC=$(dpkg -L rustc | grep -m1 'bin/rustdoc$')
    export RUSTC RUSTDOC CARGO_BUILD_TARGET=x86_64-unknown-linux-gnu
    export CARGO_TARGET_X86_64_UNKNOWN_LINUX_GNU_LINKER=x86_64-linux-gnu-gcc CARGO_TARGET_X86_64_UNKNOWN_LINUX_GNU_RUNNER=qemu-x86_64
    across='-Z doctest-xcompile'
    ;;
*) left_out "neither x86-64 nor Arm" ;;
esac
export CARGO_TARGET_DIR="$out" CARGO_NET_OFFLINE=true

registry=$(dirname "$(dirname "$(dpkg -L librust-lexopt-dev | grep -m1 '/lexopt-[^/]*/Cargo.toml$')")")
cargo() {
    command "$cargo" "$@" --config 'source.crates-io.replace-with="debian"' --config "source.debian.directory=\"$registry\""
}

under() { $emulator "$@"; }

built() { echo "$out/${CARGO_BUILD_TARGET:+$CARGO_BUILD_TARGET/}$1"; }

static_flags() {
    RUSTFLAGS="-C target-feature=+crt-static --remap-path-prefix $root=doorquill"
    # The cross package's libm.a names its two parts by where they would lie on an x86-64 machine: the first of them is all that is asked for.
    if [ -n "$prefix" ]; then
        mkdir -p "$out/libm"
        ln -sf "$(dirname "$("${prefix}gcc" -print-file-name=libm.a)")"/libm-*.a "$out/libm/libm.a"
        RUSTFLAGS="$RUSTFLAGS -L native=$out/libm"
    fi
    export RUSTFLAGS
}

archives() {
    DOORQUILL_LIB=$root/target/staticlib
    export DOORQUILL_LIB
    command -v rt > /dev/null || return 0
    "$root/tools/archives" > "$out/staticlib.log" 2>&1 && return 0
    echo "host: the archives were not made:"
    tail -n 20 "$out/staticlib.log"
    return 1
}
