#!/usr/bin/env bash
# Builds the program callsheet and writes the call sheet of a file's first 4,096 bytes: examples/callsheet.sh FILE
set -euo pipefail

sheet=${1:?"which sheet"}
[ -r "$sheet" ] || {
    echo "callsheet: cannot read $sheet" >&2
    exit 1
}
if [ -f "$sheet" ] && [ "$(wc -c <"$sheet")" -gt 4096 ]; then
    echo "callsheet: $sheet is longer than 4,096 bytes; only these are called" >&2
fi
top=$(cd "$(dirname "$0")/.." && pwd)
"$top/tests/rt_progress.sh" run callsheet
"$top/crates/callsheet/out/callsheet" <"$sheet"
