#!/usr/bin/env bash
# Refuses each allocation in turn of the calls that take memory: of the readers of traces and of words, the printers of answers and of
# the summary, the generator, and the putting of lines (crates/bc_script_bench, `calls`, which says what each answered). Where an
# allocation of a call is refused, this call has to say so, and every other one has to answer as with ample memory; where one is
# refused before or between the calls, the program ends there; and where it wasn't needed, as for the text of an error that isn't
# printed, all is as with ample memory. Each call has to be met. It prints how often each was, or a line for each run that differs,
# and then ends with status 1.
set -euo pipefail
cd "$(dirname "$0")/.."
folder=$(mktemp -d)
trap 'rm -rf "$folder"' EXIT
"${CC:-cc}" -O2 -Wall -Wextra -fPIC -shared -o "$folder/memory.so" bench/memory.c
cd crates/bc_script_bench
rt run > /dev/null 2> "$folder/proof" || { cat "$folder/proof" >&2; exit 1; }
calls=$PWD/out/bc_script_bench
cd "$folder"

# run_at NUMBER makes the calls with the allocation of this number refused, and sets `ended`.
run_at() {
    rm -f failed
    ended=0
    FAIL_AT=$1 FAILED=failed LD_PRELOAD=./memory.so "$calls" calls > printed 2> errors || ended=$?
}

# refused_one: the lines of the run with ample memory, but for one call that says `memory`; its name goes to `met`.
refused_one() {
    awk 'NR == FNR { ample[++n] = $0; next }
        { k++ } $0 == ample[k] { next }
        $2 == "memory" && $1 " whole" == ample[k] && !name { name = $1; next }
        { bad = 1 }
        END { if (bad || !name || k != n) exit 1; print name >> "met" }' ample printed
}

# cut_short: it ended with an error before the last call, and what it printed is the front of the lines with ample memory.
cut_short() {
    [ "$ended" = 1 ] && [ -s errors ] && cmp -s printed <(head -c "$(stat -c %s printed)" ample) && ! cmp -s printed ample
}

run_at 0
[ "$ended" = 0 ]
mv printed ample
: > met
runs=0
unneeded=0
differing=0
for ((number = 1; ; number++)); do
    run_at "$number"
    [ -e failed ] || break
    runs=$((runs + 1))
    if [ "$ended" = 9 ]; then
        refused_one && continue
    elif [ "$ended" = 0 ] && cmp -s printed ample; then
        unneeded=$((unneeded + 1))
        continue
    else
        cut_short && continue
    fi
    echo "allocation $number: status $ended, printed '$(tr '\n' ' ' < printed)' $(head -c 200 errors)"
    differing=$((differing + 1))
done
while read -r name _; do
    count=$(grep -cx -- "$name" met || true)
    echo "$name $count"
    [ "$count" -gt 0 ] || { echo "no allocation of $name was refused"; differing=$((differing + 1)); }
done < ample
[ "$differing" = 0 ] || exit 1
echo "ok: $runs runs, each with one allocation refused; in $unneeded of them it wasn't needed"
