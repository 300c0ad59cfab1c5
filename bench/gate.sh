#!/bin/sh
# Times the gate crate by crate: a verdict, for which the crates below are checked too, and the must-fail edits. It prints
# the minutes of each crate, slowest first, and those of the whole. One crate at a time, so that the figures compare.
cd "$(dirname "$0")/.." || exit 1
times=$(mktemp)
whole=0
for crate in $(sed -n 's/^\([a-z_]*\)[ :].*/\1/p' crates.txt); do
    begin=$(date +%s)
    (cd "crates/$crate" && rt verdict) > /dev/null 2>&1 && ended=proved || ended=refused
    if [ -d "crates/$crate/must-fail" ]; then
        rt must-fail "$crate" > /dev/null 2>&1 || ended="an edit passed"
    fi
    seconds=$(($(date +%s) - begin))
    whole=$((whole + seconds))
    echo "$seconds $crate $ended" >> "$times"
done
sort -rn "$times" | awk '{ seconds = $1; $1 = ""; printf "%6.1f min %s\n", seconds / 60, $0 }'
awk -v whole="$whole" 'BEGIN { printf "%6.1f min  the whole\n", whole / 60 }'
rm -f "$times"
