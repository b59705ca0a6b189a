#!/bin/bash
# tree.sh NAME FROM: sources of FROM (a worktree or another x/NAME) as x/NAME
set -e
d=${SCRATCH:?}/x/$1; from=$2; [ -d $from ] || from=${SCRATCH:?}/x/$2
rm -rf $d; mkdir -p $d; cp $from/crates.txt $d/
(cd $from && find crates -path '*/src/*.rt' | tar cf - -T - ) | tar xf - -C $d
