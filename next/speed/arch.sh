#!/bin/bash
# arch.sh NAME [ONE]: unproved archive of x/NAME -> o/NAME/libdoorquill.a (three objects; with ONE a single object)
set -e
W=${SCRATCH:?a folder to work in}; name=$1; out=$W/o/$name; mkdir -p $out; cd $W/x/$name
L=$(python3 - <<'P'
d={}
for l in open('crates.txt'):
    l=l.split('#')[0].strip()
    if not l: continue
    n,r=l.split(':'); d[n.strip()]=r.split()
seen=[];todo=['doorquill']
while todo:
    n=todo.pop(0)
    if n in seen or n not in d: continue
    seen.append(n); todo+=d[n]
print(' '.join('--lib %s=crates/%s/src/lib.rt'%(n,n) for n in seen))
P
)
rm -f $W/kept/*
${KIT:?}/on/x86_64/bin/rattle-cases --toolchain $W/tc $W/prog/src/main.rt --crate-name speed --lib std=$KIT/libs/std/src/lib.rt $L > $out/cases.log 2>&1 || { grep -v '^ok' $out/cases.log | head -20; [ -f $W/kept/module.001.bc ] || exit 1; }
C=${KIT:?}/on/x86_64/toolchain/bin/clang
$C --target=x86_64-unknown-linux-gnu --no-default-config -S -emit-llvm -x ir $W/kept/module.001.bc -o $out/m.ll -O0 -Xclang -disable-llvm-passes
rm -f $out/*.o $out/libdoorquill.a
one() { # PART calls
  part=$1; shift
  sed -E 's/^define i32 @main\(/define internal i32 @unused_main(/' $out/m.ll > $out/$part.ll
  for f in "$@"; do sed -i -E "s/@\"doorquill::doorquill_$f\"/@\"dqi_$f\"/g; s/^define internal (void @\"dqi_$f\")/define \1/" $out/$part.ll; done
  $C --target=x86_64-unknown-linux-gnu -march=x86-64 -ffunction-sections -fdata-sections -mllvm -trap-unreachable -mllvm -no-trap-after-noreturn --no-default-config -no-canonical-prefixes -fintegrated-cc1 -c -x ir $out/$part.ll -o $out/$part.o -fPIC -O3 -Xclang -fmerge-functions -mllvm -mergefunc-use-aliases 2>/dev/null
}
if [ "$2" = ONE ]; then
one SECTIONS read_sections read_sections_lent time_rule write_sections read_changes read_back
gcc -O2 -fPIC -DSECTIONS -DCHANGES -DBACK -c $W/wrap.c -o $out/wrap.o
else
one SECTIONS read_sections read_sections_lent time_rule write_sections
one CHANGES read_changes
one BACK read_back
gcc -O2 -fPIC -DSECTIONS -DCHANGES -DBACK -c $W/wrap.c -o $out/wrap.o
fi
ar rcs $out/libdoorquill.a $out/*.o
objdump -d --no-show-raw-insn $out/SECTIONS.o > $out/dis.txt
nm -S --size-sort $out/SECTIONS.o | tail -8 | while read a s t n; do printf "%d %s; " 0x$s "$n"; done; echo
