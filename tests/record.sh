#!/usr/bin/env bash
# Records samples of the Rust's answers: tests/record.sh [FOLDER]
# Without a FOLDER each file goes to the data of the program that replays it.
# Status 3: the reference source is not at hand.
set -euo pipefail
cd "$(dirname "$0")/.."

folder=${1:-target/recorded}
tests/reference.sh
mkdir -p target/compare "$folder"
rustc --edition 2021 -C opt-level=1 -o target/compare/record tests/harness/record.rs \
    -L target/reference --extern reference=target/reference/libreference.rlib
target/compare/record "$folder"

if [ $# -eq 0 ]; then
    cp "$folder/patterns.txt" crates/replay_patterns/data/
    cp "$folder/numbers.txt" crates/replay_numbers/data/
    cp "$folder/tokens.txt" crates/replay_tokens/data/
    cp "$folder/calls.txt" crates/replay_calls/data/
fi
