#!/usr/bin/env bash
# The readers of records beside plain loops of C that take the checksum, by one look-up in a table for each byte, and copy the
# words: over a journal entry of 64 sectors and over a set of keys that fills a node of 512. Both have to find the same
# number of keys. The proved readers make keys of the words besides.
#
# It prints the microseconds of one read for both, and the ratio of the times, proved to C: five times over, since one run
# differs from the next. What is timed are the reads alone, of a program that was proved and built before. A word on the
# command line gives another number of reads.
set -euo pipefail
cd "$(dirname "$0")/.."

rounds=${1:-1000}
folder=$(mktemp -d)
trap 'rm -rf "$folder"' EXIT
"${CC:-cc}" -O2 -Wall -Wextra -o "$folder/records" bench/records.c
cd crates/bc_records_bench
rt run > /dev/null 2> "$folder/proof" || { cat "$folder/proof" >&2; exit 1; }

echo "          entry                     set"
echo "proved us    C us  ratio   proved us    C us  ratio"
for _ in 1 2 3 4 5; do
    ./out/bc_records_bench "$rounds" > "$folder/proved"
    "$folder/records" "$rounds" > "$folder/plain"
    cmp <(head -n 1 "$folder/proved") <(head -n 1 "$folder/plain")
    awk -v rounds="$rounds" 'FNR == 2 { files++; entry[files] = $1 / rounds; set[files] = $2 / rounds } END {
        printf "%9.1f %7.1f %6.2f %11.1f %7.1f %6.2f\n", entry[1], entry[2], entry[1] / entry[2], set[1], set[2], set[1] / set[2]
    }' "$folder/proved" "$folder/plain"
done
