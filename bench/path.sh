#!/usr/bin/env bash
# The path of a sector, which is the number of the leaf that it lies in, beside a binary search in a sorted array of C: four million
# random sectors in trees of 100, 1,000, 10,000 and 100,000 leaves. Both have to find the same numbers.
#
# For each number of leaves it prints the nanoseconds of processor time of a call in both, and their ratio. What is timed are the calls
# alone, of a program that was proved and built before. A word on the command line gives another number of calls.
set -euo pipefail
cd "$(dirname "$0")/.."

calls=${1:-4000000}
folder=$(mktemp -d)
trap 'rm -rf "$folder"' EXIT
"${CC:-cc}" -O2 -Wall -Wextra -o "$folder/path" bench/path.c
cd crates/bc_spine_bench
rt run > /dev/null 2> "$folder/proof" || { cat "$folder/proof" >&2; exit 1; }
proved=$PWD/out/bc_spine_bench

echo " leaves  proved ns    C ns   ratio"
for leaves in 100 1000 10000 100000; do
    "$proved" "$leaves" "$calls" > "$folder/proved"
    "$folder/path" "$leaves" "$calls" > "$folder/plain"
    cmp <(head -n 1 "$folder/proved") <(head -n 1 "$folder/plain")
    paste <(tail -n 1 "$folder/proved") <(tail -n 1 "$folder/plain") | awk -v leaves="$leaves" -v calls="$calls" '
        { printf "%7d %10.1f %7.1f %7.2f\n", leaves, 1000 * $1 / calls, 1000 * $3 / calls, $1 / $3 }'
done
