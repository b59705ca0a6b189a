#!/bin/bash
# cmp.sh NAME: compare linked with o/NAME/libdoorquill.a -> o/NAME/compare (the crates built once in o/base)
set -e
W=${SCRATCH:?a folder to work in}; R=${R:?a checkout}; B=$W/o/base
export WELLEN_SRC=${WELLEN_SRC:-$R/../shared/docs/src} ENCODER_TEXT=$B/encoder.rs
if [ ! -f $B/compare ]; then OUT=$B PORT= $R/compare/build.sh; fi
on() { for n; do printf -- '--extern %s=%s/lib%s.rlib ' "$n" "$B" "$n"; done; }
rustc --edition 2021 --crate-name compare -C opt-level=3 -C codegen-units=1 -L $B --check-cfg 'cfg(append)' --check-cfg 'cfg(dropin)' --check-cfg 'cfg(feature,values(any()))' --check-cfg 'cfg(port)' --check-cfg 'cfg(fake)' $(on calls leb128 wellen_release wellen_debug wellen_append) --cfg port -L native=$W/o/$1 -l static=doorquill -o $W/o/$1/compare $R/compare/src/main.rs
