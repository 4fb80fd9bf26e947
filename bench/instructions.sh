#!/usr/bin/env bash
# Counts the instructions of one hwk_call_sheet on sheets of 64 KiB, by valgrind's callgrind: bench/instructions.sh [LIBRARY]
# The counts of two builds can be compared on a busy machine too. LIBRARY is a libhowhakiru.a; without one, this tree's is built.
set -euo pipefail
cd "$(dirname "$0")/.."

library=${1:-target/staticlib/libhowhakiru.a}
[ $# -gt 0 ] || tests/library.sh
mkdir -p target/bench
gcc -std=c99 -O1 -Iinclude -o target/bench/instructions bench/instructions.c "$library"

# counted PIECE TIMES: the instructions of the whole program.
counted() {
    valgrind --tool=callgrind --callgrind-out-file=/dev/null target/bench/instructions "$1" "$2" 2>&1 | sed -n 's/.*Collected : //p'
}

mixed=$'Bar 12 at 9:30. Rack 5mm (21st)\nNo. 7 draw 1,250 ends at 12:05pm, 12.5% of 3kg: A.B. then 0005 -1.5 stop!\n'
echo '| Sheet | Instructions |'
echo '|---|---:|'
for piece in "$mixed" '12 7 1984 250000 ' 'Carriage rack beam gauge draw ' '9:30 ' '9:00 ' '9:00am ' \
    '12-18 7-12 100-250 007-5 ' '5/8 1/2 11/16 8/5 '; do
    name=${piece/$mixed/mixed entries }
    # Three calls less one call are two: what comes before and after does not count.
    echo "| ${name% } | $((($(counted "$piece" 3) - $(counted "$piece" 1)) / 2)) |"
done
