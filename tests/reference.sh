#!/usr/bin/env bash
# Compiles the Rust reference, unchanged, to target/reference/libreference.rlib.
# The source is three files that have the sums of tests/reference.sha256, in the folder HOWHAKIRU_REFERENCE or, if that is not
# set, in any folder beside the repository, whatever its name.
# Status 3: the source is not at hand. Status 1: the files in HOWHAKIRU_REFERENCE are other ones.
set -euo pipefail
cd "$(dirname "$0")/.."

sums=$PWD/tests/reference.sha256
modules=(text patterns numbers)

# not_at_hand WHY
not_at_hand() {
    cat >&2 <<END
reference: $1
reference: get src/text.rs, src/patterns.rs and src/numbers.rs of flite-rs (GabrielVicini/flite-rs, commit fcfd197779)
reference: and set HOWHAKIRU_REFERENCE to the folder that holds the three files
END
    exit 3
}

# is_reference FOLDER: whether its three files have these sums.
is_reference() {
    (cd "$1" && sha256sum --status --check "$sums") 2>/dev/null
}

# The first folder with the reference, at most four folders below the one that holds the repository; nothing if there is none.
find_reference() {
    find .. -maxdepth 5 \( -name .git -o -name target \) -prune -o -name patterns.rs -print 2>/dev/null | sort |
        while IFS= read -r file; do
            if is_reference "${file%/*}"; then
                echo "${file%/*}"
                break
            fi
        done
}

if [ -n "${HOWHAKIRU_REFERENCE:-}" ]; then
    folder=$HOWHAKIRU_REFERENCE
    for module in "${modules[@]}"; do
        [ -r "$folder/$module.rs" ] || not_at_hand "no $module.rs in $folder"
    done
    is_reference "$folder" || {
        echo "reference: the files in $folder are not those of flite-rs at commit fcfd197779, whose sums tests/reference.sha256 has" >&2
        exit 1
    }
else
    folder=$(find_reference || true)
    [ -n "$folder" ] || not_at_hand "no text.rs, patterns.rs and numbers.rs with the sums of tests/reference.sha256 beside the repository"
fi
folder=$(cd "$folder" && pwd)
echo "reference: $folder" >&2

out=target/reference
mkdir -p "$out"
for module in "${modules[@]}"; do
    printf '#[path = "%s/%s.rs"]\npub mod %s;\n' "$folder" "$module" "$module"
done >"$out/lib.rs"

# The warnings of a source that we don't change are of no use here.
rustc --edition 2021 --crate-type rlib --crate-name reference --cap-lints allow \
    -C opt-level=3 --out-dir "$out" "$out/lib.rs"
