#!/usr/bin/env bash
# The checksum beside a plain loop of C with one look-up in a table for each byte, over 64 KiB. Both take a chain of
# checksums, each of which begins with the one before, and have to end with the same.
#
# It prints the megabytes a second of both, and the ratio of the speeds, proved to C: five times over, since one run differs
# from the next. What is timed are the checksums alone, of a program that was proved and built before. A word on the command
# line gives another number of checksums.
set -euo pipefail
cd "$(dirname "$0")/.."

rounds=${1:-4000}
folder=$(mktemp -d)
trap 'rm -rf "$folder"' EXIT
"${CC:-cc}" -O2 -Wall -Wextra -o "$folder/crc64" bench/crc64.c
cd crates/bc_bytes_bench
rt run > /dev/null 2> "$folder/proof" || { cat "$folder/proof" >&2; exit 1; }

echo "proved MB/s  C MB/s  ratio"
for _ in 1 2 3 4 5; do
    ./out/bc_bytes_bench "$rounds" > "$folder/proved"
    "$folder/crc64" "$rounds" > "$folder/plain"
    cmp <(head -n 1 "$folder/proved") <(head -n 1 "$folder/plain")
    awk -v rounds="$rounds" 'FNR == 2 { speed[++files] = rounds * 65536 / $1 } END {
        printf "%11.0f %7.0f %6.2f\n", speed[1], speed[2], speed[1] / speed[2]
    }' "$folder/proved" "$folder/plain"
done
