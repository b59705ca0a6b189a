#!/bin/bash
# count.sh NAME ROW..: instructions of doorquill_read_sections for a write
W=${SCRATCH:?a folder to work in}; n=$1; shift
for r; do
o=$(valgrind --tool=callgrind --callgrind-out-file=/dev/null --toggle-collect=doorquill_read_sections $W/o/$n/compare bench 1 $r 2>&1)
i=$(echo "$o" | sed -n 's/.*Collected : \([0-9]*\).*/\1/p'); w=$(echo "$o" | sed -n 's/.* \([0-9]*\) writes,.*/\1/p' | head -1)
echo "$n row $r: $(python3 -c "print('%.1f'%($i/$w))") (total $i)"
done
