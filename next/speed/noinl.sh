#!/bin/bash
# noinl.sh FROM NAME FN..: the module of FROM with functions marked noinline
set -e
W=${SCRATCH:?a folder to work in}; from=$1; name=$2; shift 2; out=$W/o/$name; mkdir -p $out
cp $W/o/$from/SECTIONS.ll $out/SECTIONS.ll; cp $W/o/$from/{CHANGES,BACK,wrap}.o $out/
for f; do grep -q "@\"$f\"" $out/SECTIONS.ll || echo "no $f"; sed -i -E "s/^(define internal .*@\"$f\"\(.*\)) #0 \{/\1 noinline #0 {/" $out/SECTIONS.ll; done
C=${KIT:?}/on/x86_64/toolchain/bin/clang
$C --target=x86_64-unknown-linux-gnu -march=x86-64 -ffunction-sections -fdata-sections -mllvm -trap-unreachable -mllvm -no-trap-after-noreturn --no-default-config -no-canonical-prefixes -fintegrated-cc1 -c -x ir $out/SECTIONS.ll -o $out/SECTIONS.o -fPIC -O3 -Xclang -fmerge-functions -mllvm -mergefunc-use-aliases
rm -f $out/libdoorquill.a; ar rcs $out/libdoorquill.a $out/*.o
nm -S --size-sort $out/SECTIONS.o | tail -9 | while read a s t n; do printf "%d %s; " 0x$s "$n"; done; echo
