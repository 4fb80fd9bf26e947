#!/usr/bin/env bash
# Times both sides and writes Markdown tables: bench/run.sh [shapes] [numbers] [tokens] [calls]
set -euo pipefail
cd "$(dirname "$0")/.."

tests/reference.sh
tests/library.sh
mkdir -p target/bench
rustc --edition 2021 -C opt-level=3 -o target/bench/bench bench/bench.rs \
    -L target/reference --extern reference=target/reference/libreference.rlib \
    -L target/staticlib -l static=howhakiru
target/bench/bench "$@"
