#!/bin/sh
# Packs a release from what is committed and from the proved archives: DIST/doorquill-VERSION-x86_64-linux.tar.gz. `release` at the repository's top calls it after the gate.
#   pack.sh DIST GATE TOOLCHAIN     the last two go on the release's page
#   DOORQUILL_LIB   the folder with the proved archives (default: target/staticlib)
#   OUT             where cargo builds (default: target/rust)
set -eu
here=$(cd "$(dirname "$0")" && pwd)
root=$(dirname "$here")
dist=$1 gate=$2 toolchain=$3
out=${OUT:-$root/target/rust}
export DOORQUILL_LIB="${DOORQUILL_LIB:-$root/target/staticlib}"
mkdir -p "$out" "$dist"
dist=$(cd "$dist" && pwd)
. "$here/tools.sh"

version=$(sed -n 's/^version = "\(.*\)"/\1/p' "$here/command/Cargo.toml")
commit=$(git -C "$root" rev-parse HEAD)
name=doorquill-$version-x86_64-linux
made=$dist/$name
rm -rf "$made" "$made.tar.gz"
mkdir -p "$made/lib" "$made/bin"

# What is committed: the crate, the command's source, the file for wellen; the header; the pages that they name; the samples.
git -C "$root" archive HEAD LICENSE NOTICE include docs/REFUSALS.md docs/DIFFERENCES.md rust ':!rust/*.sh' ':!rust/*/tests/*' | tar -x -C "$made"
mv "$made/rust/samples" "$made/samples"

# The command, without a library of the system.
(cd "$here" && static_flags && cargo build -q --release --locked -p doorquill-command)
cp "$(built release)/doorquill" "$made/bin/"

# All calls in one archive.
{
    echo "create $made/lib/libdoorquill.a"
    for archive in $proved; do echo "addlib $DOORQUILL_LIB/lib$archive.a"; done
    echo save
    echo end
} | "${prefix}ar" -M

compiler=$("${RUSTC:-rustc}" --version)
cat > "$made/README.md" << PAGE
# Doorquill $version for x86-64 Linux

Reads the waveforms of the VHDL simulator GHDL by a proved library, and says which session a fragment belongs to.

## A first use

    bin/doorquill signals samples/reassembly_l12.ghw
    bin/doorquill fragments samples/reassembly_l12.ghw --session reassembly.l12.s_bv --strobe reassembly.l12.s_frag --close reassembly.l12.s_close
    bin/doorquill fragments samples/reassembly_l12.ghw --session reassembly.l12.s_bv --strobe reassembly.l12.s_frag --close reassembly.l12.s_close --at 12ns

\`bin/doorquill --help\` has the rest, \`docs/REFUSALS.md\` what a refusal means.

## What is here

| folder | what |
|---|---|
| \`bin\` | the command; it needs no library of the system |
| \`lib\`, \`include\` | the proved calls for C and C++: \`cc include/worked_example.c -I include lib/libdoorquill.a\` |
| \`rust/doorquill\` | the safe crate; it finds \`lib\` by itself |
| \`rust/command\`, \`rust/wellen\` | the command's source, and a file that takes the proved reader into the crate wellen |
| \`samples\` | files that GHDL wrote |
| \`docs\` | the refusals, and where the port and the published Rust part |

\`sha256sum -c SHA256SUMS\` checks them.

## What it was made from

| | |
|---|---|
| commit | $commit |
| the gate's last line | $gate |
| prover and compiler of the library | $toolchain |
| compiler of the command | $compiler |
PAGE

(cd "$made" && find . -type f ! -name SHA256SUMS -printf '%P\n' | LC_ALL=C sort | xargs -d '\n' sha256sum > SHA256SUMS)
# The same bytes whenever it is packed.
tar -C "$dist" --sort=name --owner=0 --group=0 --numeric-owner --mtime="@$(git -C "$root" log -1 --format=%ct)" -c "$name" | gzip -9n > "$made.tar.gz"
rm -rf "$made"
echo "$made.tar.gz"
