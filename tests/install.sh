#!/usr/bin/env bash
# Installs into a fresh folder. The quick start of README.md must build from there with the flags that pkg-config answers, as C99
# and as C++, and write what crates/callsheet/stdout has.
set -euo pipefail
cd "$(dirname "$0")/.."

# The makes below must not take over the settings of a make that runs the gate.
unset MAKEFLAGS MAKEOVERRIDES

room=$PWD/target/install
prefix=$room/prefix
rm -rf "$room"
mkdir -p "$room"

# holds FOLDER FILES: the folder has these files and no others.
holds() {
    (cd "$1" && find . ! -type d | sort) | diff - <(printf '%s' "$2") || {
        echo "install: $1 does not hold what it should"
        exit 1
    }
}
files=$'./include/howhakiru.h\n./lib/libhowhakiru.a\n./lib/pkgconfig/howhakiru.pc\n'

make -s install DESTDIR= PREFIX="$prefix"
holds "$prefix" "$files"

export PKG_CONFIG_PATH=$prefix/lib/pkgconfig
read -ra flags < <(pkg-config --cflags --libs howhakiru)
strict=(-pedantic -Wall -Wextra -Werror)

sed -n '/cat >quick.c/,/^    END$/p' README.md | sed '1d;$d;s/^    //' >"$room/quick.c"
gcc -std=c99 "${strict[@]}" -o "$room/quick_c" "$room/quick.c" "${flags[@]}"
"$room/quick_c" | diff crates/callsheet/stdout -
if command -v g++ >/dev/null; then
    g++ -x c++ -std=c++11 "${strict[@]}" -o "$room/quick_cpp" "$room/quick.c" "${flags[@]}"
    "$room/quick_cpp" | diff crates/callsheet/stdout -
else
    echo "install: g++ is not installed, so C++ is left out"
fi

make -s uninstall DESTDIR= PREFIX="$prefix"
holds "$prefix" ''

# A staged copy is for another place: the files stand below DESTDIR, and howhakiru.pc names PREFIX alone.
stage=$room/stage
make -s install DESTDIR="$stage" PREFIX=/opt/howhakiru
holds "$stage/opt/howhakiru" "$files"
holds "$stage" "${files//.\//./opt/howhakiru/}"
export PKG_CONFIG_PATH=$stage/opt/howhakiru/lib/pkgconfig
read -ra flags < <(pkg-config --cflags --libs howhakiru)
[ "${flags[*]}" = '-I/opt/howhakiru/include -L/opt/howhakiru/lib -lhowhakiru' ] || {
    echo "install: a staged howhakiru.pc gives ${flags[*]}"
    exit 1
}

# A relative PREFIX would make a howhakiru.pc that holds in one folder only.
if make -s install DESTDIR= PREFIX=target/install/relative 2>/dev/null || [ -e "$room/relative" ]; then
    echo "install: make takes a relative PREFIX"
    exit 1
fi
