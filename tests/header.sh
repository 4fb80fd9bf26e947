#!/usr/bin/env bash
# The header must compile alone, as C99 and as C++, and its constants, layouts and tokens must be the library's. Of the C library
# the library must need memcpy alone, as the header says.
set -euo pipefail
cd "$(dirname "$0")/.."

strict=(-pedantic -Wall -Wextra -Werror)
gcc -x c -std=c99 "${strict[@]}" -fsyntax-only include/howhakiru.h
if command -v g++ >/dev/null; then
    g++ -x c++ -std=c++11 "${strict[@]}" -fsyntax-only include/howhakiru.h
else
    echo "header: g++ is not installed, so C++ is left out"
fi

tests/library.sh
mkdir -p target/header
needed=$(nm -u target/staticlib/libhowhakiru.a | awk '$1 == "U" { print $2 }' | sort -u | tr '\n' ' ')
if [ "$needed" != "memcpy " ]; then
    echo "header: the library needs $needed"
    exit 1
fi
for program in constants tokens; do
    gcc -std=c99 "${strict[@]}" -g -fsanitize=address,undefined -fno-sanitize-recover=all -Iinclude \
        -o "target/header/$program" "tests/c/$program.c" target/staticlib/libhowhakiru.a
    "target/header/$program"
done
