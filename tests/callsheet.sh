#!/usr/bin/env bash
# The program callsheet as a shell uses it: what it reads, what it leaves unread, what it writes.
set -euo pipefail
cd "$(dirname "$0")/.."

tests/rt_progress.sh run callsheet
mkdir -p target/callsheet
program=crates/callsheet/out/callsheet

# check WHAT WANTED: standard input is the sheet, printf's format WANTED what is written, to the byte.
check() {
    "$program" >target/callsheet/out
    # shellcheck disable=SC2059
    printf "$2" | cmp - target/callsheet/out || {
        echo "callsheet: $1"
        exit 1
    }
}

check 'the example of document 01' '+ bar\n- twelve\n- at\n- nine thirty\n+ rack\n- five millimeters\n- twenty first\n' \
    < <(printf 'Bar 12 at 9:30. Rack 5mm (21st)\n')
check 'nothing' '' </dev/null
check 'whitespace alone' '' < <(printf ' \n\t')
check 'lines without words' '+\n-\n' < <(printf '" 000,000')
check 'full hours' "+ nine o'clock\\n- nine\\n- o'clock\\n- nine o'clock per cent\\n- nine _a m\\n" < <(printf '9:00 9 00:00 9:00%% 9:00am')
check 'a range and fractions' "+ twelve to eighteen\\n- five eighth 's\\n- a half\\n- eight slash five\\n" < <(printf '12-18 5/8 1/2 8/5')
check 'a byte that is no UTF-8' 'refused 2\n' < <(printf 'a\377')
check 'a control byte' 'refused 6\n' < <(printf 'Bar 12\033 at 9:30.\n')
check 'a NUL at the end' 'refused 6\n' < <(printf 'Bar 12\0')
check 'a control byte and one that is no UTF-8' 'refused 2\n' < <(printf '\177a\377')
check 'a control byte at 4,096' 'refused 6\n' < <(printf '%04095d\037' 0)
check 'tab and CR, and a character of the bytes 0xC2 0x85' '+ a\n- \302\205b\n' < <(printf 'a\t\302\205B\r')
check 'a name of 4,096 bytes' "+ $(printf '%04096d' 0 | tr 0 x)\\n" < <(printf '%04096d' 0 | tr 0 X)
check 'a byte past 4,096 is not read' "+ $(printf '%04096d' 0 | tr 0 x)\\n" < <(printf '%04096d!? a' 0 | tr 0 X)
check 'a control byte past 4,096 is not read' "+ $(printf '%04096d' 0 | tr 0 x)\\n" < <(printf '%04096d\0' 0 | tr 0 X)
check 'a character cut at 4,096' 'refused 2\n' < <(printf '%04095d\303\251' 0 | tr 0 x)

# A sheet that comes in pieces is read whole.
check 'pieces' '+ one\n- two\n' < <(printf '1'; sleep 0.2; printf ' 2')

# Long call sheets: no sheet of 4,096 bytes is refused for room.
for piece in '777777777777 ' '%' '777777777777e' '7 ' '-7777777777 ' '7-7 ' '7/8 '; do
    yes -- "$piece" | tr -d '\n' | head -c 4096 >target/callsheet/in || true
    "$program" <target/callsheet/in | grep -q '^[+-]'
done

# What follows is left unread.
printf '%04100d' 0 >target/callsheet/in
{ "$program" >/dev/null; cat; } <target/callsheet/in | cmp - <(printf '0000')
