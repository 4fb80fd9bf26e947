#!/usr/bin/env bash
# The header's bounds on the stack must hold. They are measured on stacks that are filled with one byte before each call.
set -euo pipefail
cd "$(dirname "$0")/.."

tests/library.sh
mkdir -p target/stack
gcc -std=c99 -pedantic -Wall -Wextra -Werror -O1 -Wl,-z,now -Iinclude -o target/stack/stack tests/c/stack.c target/staticlib/libhowhakiru.a
target/stack/stack
