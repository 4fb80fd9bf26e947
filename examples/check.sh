#!/usr/bin/env bash
# The examples under the sanitizers must write what examples/*.expected holds.
set -euo pipefail
cd "$(dirname "$0")/.."

mkdir -p target/examples
examples/run.sh take_apart >target/examples/take_apart.out
diff examples/take_apart.expected target/examples/take_apart.out
examples/run.sh voice_unit examples/sheet.txt >target/examples/voice_unit.out
diff examples/voice_unit.expected target/examples/voice_unit.out

# says LINE PROGRAM..: what the program writes has such a line, whatever its exit status.
says() {
    local line=$1
    shift
    { "$@" || true; } | grep -q "$line" || {
        echo "examples: $1 does not say: $line"
        exit 1
    }
}
take_apart=target/examples/take_apart
voice_unit=target/examples/voice_unit
sheet=target/examples/sheet.txt

# No name on a command line is over the limit in daily use, so this one is made for it.
too_long=$(printf '%065537d' 0)
says 'refused: the text is too long' "$take_apart" "$too_long"

# Sheets from files: one to call and to take apart, one over the limit, one cut inside a character, one with a printer's code.
printf 'Bar 12 at 9:30. Rack 5mm (21st)\n' >"$sheet"
says '^  + |Rack|$' "$take_apart" --sheet "$sheet"
says '^   5 - five millimeters$' "$voice_unit" "$sheet" 5
says '^   7 refused: there is no entry of this number$' "$voice_unit" "$sheet" 7
printf '%s' "$too_long" >"$sheet"
says 'refused: the text is too long' "$take_apart" --sheet "$sheet"
says '^refused: the sheet is too long$' "$voice_unit" "$sheet"
printf 'caf\303' >"$sheet"
says 'refused: the text is not UTF-8' "$take_apart" --sheet "$sheet"
says '^refused: the sheet is not UTF-8$' "$voice_unit" "$sheet"
printf 'Bar 12\033 at 9:30.' >"$sheet"
says 'refused: the text holds a control byte' "$take_apart" --sheet "$sheet"
says '^refused: the sheet holds a control byte$' "$voice_unit" "$sheet"

# A name that is too long holds back its own entry, and no other.
printf 'a %04097d 5mm' 0 >"$sheet"
says '^   1 refused: .* too long to be called$' "$voice_unit" "$sheet"
says '^   2 - five millimeters$' "$voice_unit" "$sheet"
