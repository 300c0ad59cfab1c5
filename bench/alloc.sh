#!/usr/bin/env bash
# A refill beside a plain program in C++ that chooses the same victims by std::partial_sort: devices of 1,000, 65,536 and
# 1,048,576 buckets with random priorities, whose lists are filled from nothing. Both have to give up the same buckets.
#
# For each number of buckets it prints the microseconds of processor time of a refill in both, their ratio, and the nanoseconds for
# each bucket of the device. The latter would grow with the number of buckets if each victim was searched for anew. A word on the
# command line gives another number of refills, 95 at most.
set -euo pipefail
cd "$(dirname "$0")/.."
. bench/beside.sh

refills=${1:-20}
build_both bc_alloc_bench alloc.cpp

echo "buckets  proved us  C++ us  ratio  ns a bucket"
for buckets in 1000 65536 1048576; do
    run_both "$buckets" "$refills"
    awk -v buckets="$buckets" -v refills="$refills" 'FNR == 2 { micros[++files] = $1 } END {
        printf "%7d %10.0f %7.0f %6.1f %12.1f\n", buckets, micros[1] / refills, micros[2] / refills, micros[1] / (micros[2] + 1e-9), 1000 * micros[1] / refills / buckets
    }' "$folder/proved" "$folder/plain"
done
