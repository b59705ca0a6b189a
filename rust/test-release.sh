#!/bin/sh
# Tests a release: unpacks it in an empty folder, checks the sums, and runs the first use of its page, C and Rust over its archive, with no prover at hand.
#   test-release.sh [FILE]   the release (default: one that is packed for the test, without a gate)
# DOORQUILL_LIB and OUT as for pack.sh.
set -eu
here=$(cd "$(dirname "$0")" && pwd)
root=$(dirname "$here")
out=${OUT:-$root/target/rust}
mkdir -p "$out"
. "$here/tools.sh"

failed() {
    echo "release: FAILED: $*"
    exit 1
}

file=${1:-}
if [ -z "$file" ]; then
    [ -n "${DOORQUILL_LIB:-}" ] || archives || exit 1
    [ -f "$DOORQUILL_LIB/libbench.a" ] || left_out "no archives in $DOORQUILL_LIB"
    file=$(OUT=$out "$here/pack.sh" "$out/packed" "not run: packed for a test" "not asked")
fi
file=$(cd "$(dirname "$file")" && pwd)/$(basename "$file")

empty=$(mktemp -d)
trap 'rm -rf "$empty"' EXIT
cd "$empty"
tar -xzf "$file"
cd ./*/ || failed "no folder in it"
# From here on no variable of ours helps, and no prover is on the path.
unset DOORQUILL_LIB
PATH=$(echo "$PATH" | tr : '\n' | while read -r folder; do [ -x "$folder/rt" ] || printf '%s:' "$folder"; done)
command -v rt > /dev/null && failed "the prover is still at hand"

sha256sum --quiet -c SHA256SUMS || failed "checksums"
[ "$(find . -type f | wc -l)" -eq $(($(wc -l < SHA256SUMS) + 1)) ] || failed "a file without a checksum"
if grep -rlF "$root" .; then failed "a path of this machine"; fi

# The page's first use, to the letter.
sed -n 's,^    \(bin/doorquill .*\),\1,p' README.md > "$empty/uses"
[ "$(wc -l < "$empty/uses")" -eq 3 ] || failed "the page has no first use"
while read -r program words; do
    # shellcheck disable=SC2086
    under "$program" $words < /dev/null > "$empty/printed" 2> "$empty/said" || failed "$program $words: $(cat "$empty/said")"
    [ -s "$empty/printed" ] || failed "$program $words: printed nothing"
    cat "$empty/printed" >> "$empty/all"
done < "$empty/uses"
rises=$(wc -l < "$root/crates/reassembly_fragments/stdout")
grep -q "^$rises rises = " "$empty/all" || failed "the balance is not that of $rises rises"

# C over the archive.
"${prefix}gcc" include/worked_example.c -I include lib/libdoorquill.a -o "$empty/worked_example"
under "$empty/worked_example" | cmp - "$root/crates/listing/stdout" || failed "the worked example in C"

# The crate as it lies there.
cd rust
CARGO_TARGET_DIR=$empty/target
export CARGO_TARGET_DIR
# the last of the listings that the proved program prints
sed '1,/^done/d' "$root/crates/run_listings/stdout" > "$empty/listing"
cargo run -q --locked -p doorquill --example listing < "$root/crates/reassembly_fragments/stdin" | cmp - "$empty/listing" ||
    failed "the crate's example"
echo "release: $(basename "$file") holds: sums, the page's first use, C and Rust over its archive"
