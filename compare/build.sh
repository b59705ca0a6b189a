#!/bin/sh
# Builds target/compare/compare. With an archive named by PORT (target/staticlib/libdoorquill.a) the port is linked in, with libdoorquill_changes.a and
# libdoorquill_back.a beside it, and where libbench.a lies there the drop-in too;
# with PORT=fake the plain reading stands behind the same C functions; without it the port is left out.
# RUSTC names the compiler; TARGET_FLAGS are the flags for the program (none where it is native).
set -eu
here=$(cd "$(dirname "$0")" && pwd)
root=$(dirname "$here")
WELLEN_SRC=$(cd "${WELLEN_SRC:-$root/../shared/docs/src}" && pwd)
OUT=${OUT:-$root/target/compare}
RUSTC=${RUSTC:-rustc}
PORT=${PORT:-}
ENCODER_TEXT=$OUT/encoder.rs
export WELLEN_SRC ENCODER_TEXT
mkdir -p "$OUT"

# The encoder's text: from the comment on `struct Block` to the end of `impl Encoder`.
awk '/^\/\/\/ A block that contains all value changes/ { on = 1 }
     on && /^#\[derive\(Debug, Clone, PartialEq\)\]/ { exit }
     on' "$WELLEN_SRC/src/wavemem.rs" > "$ENCODER_TEXT"
grep -q 'pub fn time_change' "$ENCODER_TEXT" || { echo "compare: the encoder's text was not found in wavemem.rs" >&2; exit 1; }

fast="-C opt-level=3 -C codegen-units=1"
# rlib NAME FILE FLAGS..
rlib() {
    name=$1 file=$2
    shift 2
    # shellcheck disable=SC2086
    $RUSTC --edition 2021 --crate-type rlib --crate-name "$name" $fast ${TARGET_FLAGS:-} -L "$OUT" --out-dir "$OUT" "$@" "$here/$file"
}
on() { for name; do printf -- '--extern %s=%s/lib%s.rlib ' "$name" "$OUT" "$name"; done; }

$RUSTC --edition 2021 --crate-type proc-macro --crate-name standin_derive --out-dir "$OUT" "$here/shim/derive.rs"
derive="--extern standin_derive=$OUT/libstandin_derive.so"
rlib calls shim/calls.rs
rlib leb128 shim/leb128.rs
rlib smallvec shim/smallvec.rs
# shellcheck disable=SC2086
rlib num_enum shim/num_enum.rs $derive
# shellcheck disable=SC2086
rlib thiserror shim/thiserror.rs $derive
under=$(on calls leb128 smallvec num_enum thiserror)
# shellcheck disable=SC2046,SC2086
{
    known=
    # Newer compilers ask to be told of names that --cfg may give.
    if $RUSTC --print cfg --check-cfg 'cfg(append)' > /dev/null 2>&1; then known="--check-cfg cfg(append) --check-cfg cfg(dropin) --check-cfg cfg(feature,values(any())) --check-cfg cfg(port) --check-cfg cfg(fake)"; fi
    rlib wellen_release shim/lib.rs $under $known
    rlib wellen_debug shim/lib.rs $under $known -C debug-assertions=on -C overflow-checks=on
    rlib wellen_append shim/lib.rs $under $known --cfg append
    all=$(on calls leb128 wellen_release wellen_debug wellen_append)
    case $PORT in
    '') link= ;;
    fake)
        rlib fake src/fake.rs $(on calls)
        link="--cfg port --cfg fake $(on fake)" ;;
    *)
        link="--cfg port -L native=$(dirname "$PORT") -l static=$(basename "$PORT" .a | sed 's/^lib//') -l static=doorquill_changes -l static=doorquill_back"
        # The drop-in stands on the safe crate, which calls the bench too.
        if [ -f "$(dirname "$PORT")/libbench.a" ]; then
            rlib doorquill ../rust/doorquill/src/lib.rs -L "native=$(dirname "$PORT")" -l static=bench
            rlib wellen_dropin shim/lib.rs $under $(on doorquill) $known --cfg dropin
            link="$link --cfg dropin $(on doorquill wellen_dropin)"
        fi ;;
    esac
    $RUSTC --edition 2021 --crate-name compare $fast ${TARGET_FLAGS:-} -L "$OUT" $known $all $link -o "$OUT/compare" "$here/src/main.rs"
}
