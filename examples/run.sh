#!/usr/bin/env bash
# Builds a C example with gcc's sanitizers and runs it: examples/run.sh voice_unit FILE [NUMBER], or take_apart [NAME.. | --sheet FILE]
set -euo pipefail
from=$PWD
cd "$(dirname "$0")/.."

example=${1:?"which example: voice_unit or take_apart"}
shift
tests/library.sh
mkdir -p target/examples
gcc -std=c99 -pedantic -Wall -Wextra -Werror -g -fsanitize=address,undefined -fno-sanitize-recover=all \
    -Iinclude -o "target/examples/$example" "examples/$example.c" target/staticlib/libhowhakiru.a

program=$PWD/target/examples/$example
cd "$from"
"$program" "$@"
