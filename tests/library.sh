#!/usr/bin/env bash
# Builds the static library if it is missing or older than a source; else says nothing.
set -euo pipefail
cd "$(dirname "$0")/.."

library=target/staticlib/libhowhakiru.a
if [ ! -e "$library" ] || [ -n "$(find crates.txt crates -name out -prune -o -newer "$library" -type f -print | head -n 1)" ]; then
    tests/rt_progress.sh lib howhakiru
    mkdir -p target/staticlib
    cp crates/howhakiru/out/libhowhakiru.a "$library"
fi
