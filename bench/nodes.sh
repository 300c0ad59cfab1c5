#!/usr/bin/env bash
# A leaf beside a plain node of two sorted arrays, in which the same keys are put in the same order: 1,250 keys in nodes of 64 sectors,
# 5,000 of 256 and 10,000 of 512. Each leaf takes its keys, in an order that looks random, writes the set of them into a file, and
# is read again, which is a node that is almost full. Besides as many journal entries of 1,355 keys, all that fit in one, are
# sealed and taken back. Both have to end with the same keys.
#
# For each number of keys it prints the microseconds of processor time in both, and their ratio: of all keys added, of the set
# written, of the node read, and of an entry. A word on the command line gives another number of rounds.
set -euo pipefail
cd "$(dirname "$0")/.."
. bench/beside.sh

rounds=${1:-100}
build_both bc_nodes_bench nodes.cpp
truncate -s 20M "$folder/device"

echo "   keys what            proved us   C++ us   ratio"
for size in "64 1250" "256 5000" "512 10000"; do
    # shellcheck disable=SC2086
    run_both $size "$rounds" "$folder/device"
    paste <(tail -n 4 "$folder/proved") <(tail -n 4 "$folder/plain") | awk -v size="$size" -v rounds="$rounds" '
        BEGIN { split("keys added,set written,node read,entry sealed", name, ","); split(size, of, " ") }
        { printf "%7d %-15s %9.1f %8.1f %7.2f\n", of[2], name[NR], $1 / rounds, $3 / rounds, $1 / $3 }'
done
