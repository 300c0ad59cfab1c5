#!/usr/bin/env bash
# Refuses each allocation of the program in turn, on a trace that is served, one with a bad line, an empty one and a flush, and on the
# commands format and show. Each run has to end with status 9 and say `memory`, or as with ample memory; a command that ends so has
# to leave both files as they were. It prints how many runs it made, or a line for each that
# differs, and then ends with status 1.
set -euo pipefail
cd "$(dirname "$0")/.."
bcache=$(bench/program.sh)
make_image=$PWD/bench/image.sh
folder=$(mktemp -d)
trap 'rm -rf "$folder"' EXIT
"${CC:-cc}" -O2 -Wall -Wextra -fPIC -shared -o "$folder/memory.so" bench/memory.c
cd "$folder"

# run_at NUMBER runs the program on the trace with the allocation of this number refused, and sets `ended`.
run_at() {
    : > cache.img
    "$make_image" backing.img 400
    rm -f failed
    ended=0
    FAIL_AT=$1 FAILED=failed LD_PRELOAD=./memory.so "$bcache" cache.img backing.img serve < trace > printed 2> errors || ended=$?
}

# same_lines: `memory` alone, or one line for each of the run with ample memory, of which one at least is `memory`, perhaps behind the
# others. Runs may differ from that run's, since a write that found no memory wrote less.
same_lines() {
    [ "$(cat printed)" = memory ] && return
    awk 'NR == FNR { ample[++n] = $0; next }
        $0 == "memory" { found = 1; next }
        FNR > n || (ample[FNR] ~ /^(done|out-of-range)$/ ? $0 != ample[FNR] : $0 !~ /^([0-9]+|zero)x[0-9]+( ([0-9]+|zero)x[0-9]+)*$/) { bad = 1 }
        END { exit bad || !found || FNR < n || FNR > n + 1 }' ample printed
}

runs=0
differing=0
for trace in '1 w 250 12 1\n1 f\n1 r 248 16\n1 w 0 300 2\n1 r 380 5\n1 r 0 384\n' '1 w 0 1 1\n1 x\n' '' '1 f\n'; do
    printf "$trace" > trace
    run_at 0
    mv printed ample
    mv backing.img ample.img
    wanted=$ended
    for ((number = 1; ; number++)); do
        run_at "$number"
        [ -e failed ] || break
        runs=$((runs + 1))
        if [ "$ended" = 9 ]; then
            same_lines && [ ! -s errors ] && continue
        else
            [ "$ended" = "$wanted" ] && cmp -s printed ample && cmp -s backing.img ample.img && continue
        fi
        echo "'$trace', allocation $number: status $ended, printed '$(head -c 200 printed)' $(head -c 200 errors)"
        differing=$((differing + 1))
    done
done
# pair_at NUMBER WORD.. runs a command over a formatted pair with the allocation of this number refused, and sets `ended`.
pair_at() {
    local number=$1
    shift
    cp cache.pair cache.img
    cp backing.pair backing.img
    rm -f failed
    ended=0
    FAIL_AT=$number FAILED=failed LD_PRELOAD=./memory.so "$bcache" cache.img backing.img "$@" < /dev/null > printed 2> errors || ended=$?
}

format=(format --set 5e70000000000000000000000000005e --cuuid ca000000000000000000000000000ca0
    --buuid ba0000000000000000000000000000ba --block 1 --bucket 64)
truncate -s 4M cache.img
"$make_image" backing.img 400
"$bcache" cache.img backing.img "${format[@]}"
mv cache.img cache.pair
mv backing.img backing.pair
for command in format show; do
    words=("$command")
    [ "$command" = show ] || words=("${format[@]/5e7/5e8}")
    pair_at 0 "${words[@]}"
    mv printed ample
    for ((number = 1; ; number++)); do
        pair_at "$number" "${words[@]}"
        [ -e failed ] || break
        runs=$((runs + 1))
        [ "$ended" = 0 ] && cmp -s printed ample && continue
        [ "$ended" = 9 ] && [ "$(cat printed)" = memory ] && [ ! -s errors ] && cmp -s cache.img cache.pair && cmp -s backing.img backing.pair && continue
        echo "'$command', allocation $number: status $ended, printed '$(head -c 200 printed)' $(head -c 200 errors), or a file was changed"
        differing=$((differing + 1))
    done
done

[ "$runs" -gt 0 ] || { echo "no allocation was refused: is the program linked with the C library's malloc?"; exit 1; }
[ "$differing" = 0 ] || exit 1
echo "ok: $runs runs, each with one allocation refused"
