#!/bin/sh
# message on standard input, subject decides
m=$(cat)
case "$m" in
"Unsigned numbers of two bytes are read straight"*) cat <<'M'
Unsigned numbers of two bytes are read straight

Deltas above 127 have two bytes. 1,000 vectors of 4 bits take 41
instructions less for a write, plain signals of kinds 0 and 5 take 19
and 14 less; 400 plain signals in a step take 2 more.
M
;;
"Signed numbers of up to four bytes are read straight"*) cat <<'M'
Signed numbers of up to four bytes are read straight

A delta between steps and a value of kind 5 mostly have two to four
bytes, and the general loop answers by way of memory. Values of kind 5
went from 0.85 to 0.97 of the crate's speed (two runs, a busy machine).
What a signed number that ends is worth stands in one function.
M
;;
*) printf '%s\n' "$m" ;;
esac
