#!/usr/bin/env bash
# Compares the static library with the Rust reference.
#   tests/compare.sh [--long] [SECONDS [SEED]]
# It runs for 60 seconds if no SECONDS are given; --long stands for 1200. From 600 seconds on the fixed groups of texts are larger.
# Without a SEED the clock gives one.
# Without the reference source there is nothing to compare. If CI is set, that is a failure.
set -euo pipefail
cd "$(dirname "$0")/.."

seconds=60
if [ "${1:-}" = --long ]; then
    seconds=1200
    shift
fi
seconds=${1:-$seconds}
seed=${2:-$(date +%s)}

status=0
tests/reference.sh || status=$?
if [ "$status" -eq 3 ] && [ -z "${CI:-}" ]; then
    echo "compare: left out, since the reference source is not at hand"
    exit 0
elif [ "$status" -ne 0 ]; then
    exit "$status"
fi

tests/library.sh
mkdir -p target/compare
rustc --edition 2021 -C opt-level=3 -o target/compare/harness tests/harness/harness.rs \
    -L target/reference --extern reference=target/reference/libreference.rlib \
    -L target/staticlib -l static=howhakiru

target/compare/harness "$seconds" "$seed" || status=$?
if [ "$status" -gt 128 ]; then
    echo "compare: ended by signal $((status - 128)); a call that reads or writes outside of what it was lent ends so"
fi
exit "$status"
