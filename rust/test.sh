#!/bin/sh
# The tests of the host: the safe crate, the header, the examples, the command. Ends with 0 and a plain message where its needs can't be met, and with 1 on a failure.
#   DOORQUILL_LIB   the folder with the proved archives (default: made by tools/archives, or target/staticlib)
#   OUT             where cargo builds (default: target/rust)
# On x86-64 a cargo and a rustc from 1.63 on will do. On Arm everything is built for x86-64 by Debian's packages and run by an emulator.
# Whatever is given to this script is handed on to `cargo test`.
set -u
here=$(cd "$(dirname "$0")" && pwd)
root=$(dirname "$here")
out=${OUT:-$root/target/rust}
mkdir -p "$out" || exit 1
. "$here/tools.sh"

[ -n "${DOORQUILL_LIB:-}" ] || archives || exit 1
for name in $proved; do
    [ -f "$DOORQUILL_LIB/lib$name.a" ] || left_out "no archive lib$name.a in $DOORQUILL_LIB"
done

# A small design is simulated anew, for names and values beside GHDL's own VCD, where GHDL is at hand or can be had; else its recorded run is used alone.
command -v ghdl > /dev/null || offered ghdl-llvm || echo "host: no ghdl: the recorded run of the small design is used alone"

cd "$here" || exit 1
cargo test -q --workspace --all-targets "$@" || exit 1
# Examples in the documentation: cargo passes over them where the target is not the machine's own, unless it is told that an emulator is there, by a flag
# that stable ones have under lock.
(
    [ -z "$across" ] || export RUSTC_BOOTSTRAP=1
    # shellcheck disable=SC2086
    cargo test -q --workspace --doc $across "$@"
) || exit 1
# A release, packed and used as one that was downloaded.
OUT=$out "$here/test-release.sh" || exit 1
