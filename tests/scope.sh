#!/usr/bin/env bash
# Every definition, function and theorem that docs/SCOPE.md has on a reference line must exist where it says.
set -euo pipefail
cd "$(dirname "$0")/.."

kinds='definition|code|theorem|tested'

# A line whose kind or indent is mistyped would not be looked at.
if grep -nE "^ +($kinds)s? " docs/SCOPE.md | grep -vE "^[0-9]+:    ($kinds) " || grep -nE '^    [^ ]' docs/SCOPE.md | grep -vE ":    ($kinds) "; then
    echo "scope: these lines of docs/SCOPE.md are no reference lines"
    exit 1
fi

# has_definition CRATE/FILE NAME
has_definition() {
    grep -Eqs "^(abbrev |unfoldable )?pub (record |data )?$2( |$)" "crates/${1%/*}/specs/${1#*/}.antt"
}

# has_theorem CRATE/FILE NAME
has_theorem() {
    grep -Eqs "^ *pub $2 :" "crates/${1%/*}/proofs/${1#*/}.antt"
}

# has_code CRATE NAME: a function, or TYPE::NAME for one in an impl of that type.
has_code() {
    local type=${2%%::*}
    [ "$type" != "$2" ] || type=
    awk -v type="$type" -v call="fn ${2##*::}" '
        /^impl/ {
            owner = $0
            sub(/^impl(<[^>]*>)? /, "", owner)
            sub(/^.* for /, "", owner)
            sub(/[<{ ].*/, "", owner)
        }
        /^}/ { owner = "" }
        owner == type && (index($0, call "(") || index($0, call "<")) { found = 1 }
        END { exit !found }' crates/"$1"/src/*.rt 2>/dev/null
}

count=0
missing=0
while read -r kind place names; do
    for name in ${names//,/}; do
        count=$((count + 1))
        "has_$kind" "$place" "$name" || {
            echo "scope: no $kind $name in $place"
            missing=1
        }
    done
done < <(grep -E '^    (definition|code|theorem) ' docs/SCOPE.md | grep -v ' CRATE')

if [ "$count" -lt 100 ]; then
    echo "scope: only $count names were found in docs/SCOPE.md, so its form must have changed"
    exit 1
fi
exit "$missing"
