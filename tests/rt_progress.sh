#!/usr/bin/env bash
# Builds a crate and shows on standard error how far rt is: tests/rt_progress.sh lib NAME for a library, run NAME for a program,
# which is run once, without input. Nothing is said if there is nothing to prove.
# All that rt writes goes to a log in target/. If rt fails, its last 40 lines are shown, and the status is rt's.
set -euo pipefail
cd "$(dirname "$0")/.."

log=$PWD/target/rt_$1.log

# The named crate and those of the repository that it stands on, by crates.txt.
crates=$(awk -v name="$2" '
    function visit(crate,    i, n, words) {
        if (!(crate in line)) return
        n = split(line[crate], words)
        delete line[crate]
        for (i = 2; i <= n; i++) visit(words[i])
        print crate
    }
    { sub(/#.*/, ""); sub(/:/, " ") }
    NF { line[$1] = $0 }
    END { visit(name) }' crates.txt)

# A crate that rt has worked on has a folder out. (That it was edited since, only rt finds out.)
total=0
unproved=0
for crate in $crates; do
    total=$((total + 1))
    [ -e "crates/$crate/out" ] || unproved=$((unproved + 1))
done
if [ "$unproved" -gt 0 ]; then
    echo "rt $*: proving $unproved of $total crates; all of them take some minutes" >&2
fi

# show <what rt writes: a line for each crate that it comes to.
show() {
    local count=0 line last='' crate='^rt: (chose --jobs [0-9]+ for )?([a-z0-9_]+)(: .*)?$'
    while IFS= read -r line; do
        if [[ $line =~ $crate ]] && [[ ${BASH_REMATCH[2]} != "$last" ]] && [ -d "crates/${BASH_REMATCH[2]}" ]; then
            last=${BASH_REMATCH[2]}
            count=$((count + 1))
            [ "$unproved" -eq 0 ] || echo "crate $count of $total: $last" >&2
        fi
    done
}

mkdir -p target
status=0
(cd "crates/$2" && rt "$1" </dev/null 2>&1) | tee "$log" | show || status=$?
if [ "$status" -ne 0 ]; then
    tail -n 40 "$log" >&2
    echo "rt $*: status $status; $log has all that it wrote" >&2
fi
exit "$status"
