#!/bin/sh
# A short comparison, a minute or two: the plain reading of document 01, the crate's own code and, where its archive can be
# made, the port. Ends with 0 and a plain message where its needs can't be met, and with 1 on a difference.
#   WELLEN_SRC  the crate's source folder (default: ../shared/docs/src beside the repository)
#   PORT        the archive to link, and the others beside it (default: made by tools/archives, or target/staticlib/libdoorquill.a); none: without it
#   SAMPLES     real files (default: ../shared/samples beside the repository), left out where they're missing
#   LIST        the fixed list, to be put to every side again (default: left out)
#   SEED, SECTIONS, CHANGES, EVENTS, STREAMS, INPUTS, REQUESTS   what `compare run`, `compare written`, `compare dropin` and `compare requests` take
# On x86-64 any rustc from 1.63 on will do. On Arm the program is built for x86-64 by Debian's rustc and run by an emulator, on fewer inputs.
set -u
here=$(cd "$(dirname "$0")" && pwd)
root=$(dirname "$here")
export WELLEN_SRC="${WELLEN_SRC:-$root/../shared/docs/src}"
export OUT="${OUT:-$root/target/compare}"
samples=${SAMPLES:-$root/../shared/samples}
mkdir -p "$OUT" || exit 1
log=$OUT/install.log

left_out() {
    echo "compare: not run: $*"
    exit 0
}

# install PACKAGE..
install() {
    if [ "$(id -u)" -ne 0 ] || ! command -v apt-get > /dev/null; then
        left_out "these packages are missing, and only root can install them: $*"
    fi
    DEBIAN_FRONTEND=noninteractive apt-get update > "$log" 2>&1
    DEBIAN_FRONTEND=noninteractive apt-get install -y --no-install-recommends "$@" >> "$log" 2>&1 ||
        left_out "these packages can't be installed (see $log): $*"
}

# missing PACKAGE..: those that aren't installed
missing() {
    for name; do
        [ "$(dpkg-query -W -f '${db:Status-Status}' "$name" 2> /dev/null)" = installed ] || printf '%s ' "$name"
    done
}

for file in ghw/signals.rs ghw/common.rs signal/value.rs wavemem.rs; do
    [ -f "$WELLEN_SRC/src/$file" ] || left_out "the crate's source folder has no src/$file: $WELLEN_SRC"
done

under='' more=''
sections=200000 changes=100000 events=100000 streams=30000 inputs=50000 requests=20000
case $(uname -m) in
x86_64)
    command -v "${RUSTC:-rustc}" > /dev/null || install rustc
    command -v cc > /dev/null || install gcc libc6-dev
    ;;
aarch64)
    command -v dpkg-query > /dev/null || left_out "an Arm machine without Debian's packages"
    dpkg --print-foreign-architectures | grep -qx amd64 || { [ "$(id -u)" -eq 0 ] && dpkg --add-architecture amd64; } ||
        left_out "the packages of amd64 can't be asked for"
    need=$(missing rustc gcc libc6-dev libstd-rust-dev:amd64 gcc-x86-64-linux-gnu libc6-dev-amd64-cross qemu-user libc6:amd64 libgcc-s1:amd64)
    # shellcheck disable=SC2086
    [ -z "$need" ] || install $need
    RUSTC=$(dpkg -L rustc | grep -m1 'bin/rustc$')
    TARGET_FLAGS="--target x86_64-unknown-linux-gnu -C linker=x86_64-linux-gnu-gcc"
    export RUSTC TARGET_FLAGS
    under=qemu-x86_64
    more=--no-exhaustive sections=40000 changes=20000 events=20000 streams=2000 inputs=10000 requests=4000
    ;;
*) left_out "neither x86-64 nor Arm" ;;
esac

archive=$root/target/staticlib/libdoorquill.a
if [ -z "${PORT:-}" ]; then
    if command -v rt > /dev/null && [ -d "$root/crates/doorquill" ]; then
        "$root/tools/archives" > "$OUT/staticlib.log" 2>&1 || {
            echo "compare: the archives of the port were not made:"
            tail -n 20 "$OUT/staticlib.log"
            exit 1
        }
    fi
    PORT=none
    [ -f "$archive" ] && PORT=$archive
fi
[ "$PORT" = none ] && PORT= && echo "compare: no archive of the port: the plain reading beside the crate alone"
export PORT

"$here/build.sh" || exit 1
compare() { $under "$OUT/compare" "$@"; }
compare readings || exit 1
real=''
[ -d "$samples" ] && real="--samples $samples"
# shellcheck disable=SC2086
compare requests --seed "${SEED:-1}" --inputs "${REQUESTS:-$requests}" $real || exit 1
if [ -d "$samples" ]; then compare samples "$samples" || exit 1; fi
if [ -f "${LIST:-}" ]; then compare replay "$LIST" || exit 1; fi
# shellcheck disable=SC2086
compare run --seed "${SEED:-1}" --sections "${SECTIONS:-$sections}" --changes "${CHANGES:-$changes}" --events "${EVENTS:-$events}" $more || exit 1
# shellcheck disable=SC2086
compare written --seed "${SEED:-1}" --streams "${STREAMS:-$streams}" $more || exit 1
if [ -f "$(dirname "${PORT:-.}")/libbench.a" ]; then
    # shellcheck disable=SC2086
    compare dropin --seed "${SEED:-1}" --inputs "${INPUTS:-$inputs}" $real || exit 1
fi
