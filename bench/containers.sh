#!/usr/bin/env bash
# Buckets, places, claims, candidates and streaks beside plain lists of C++ that do the same: rounds in which a walk finds four keys a
# bucket and is settled; rounds of aging, with hits in a 16th of the buckets; places of 1 to 8 sectors in 16 open buckets until these
# and the plain list are used up; claims of all seats, which end in a random order; candidates that are noted, killed and taken out;
# and streaks of a trace's workers. Both have to come to the same results.
#
# For each size it prints the microseconds of processor time of a round in both, and their ratio. A word on the command line makes the
# number of rounds so many times as large.
set -euo pipefail
cd "$(dirname "$0")/.."
. bench/beside.sh

times=${1:-1}
build_both bc_containers_bench containers.cpp

echo "what          size   proved us      C++ us   ratio"
while read -r what size rounds; do
    run_both "$what" "$size" $((rounds * times))
    paste <(tail -n 1 "$folder/proved") <(tail -n 1 "$folder/plain") | awk -v what="$what" -v size="$size" -v rounds=$((rounds * times)) '
        { printf "%-9s %8d %11.2f %11.2f %7.2f\n", what, size, $1 / rounds, $3 / rounds, $1 / ($3 + 1e-9) }'
done << 'END'
walk 1000 1000
walk 65536 20
walk 1048576 2
age 1000 20000
age 65536 300
age 1048576 10
place 1000 90
place 65536 20
place 1048576 2
claim 16 20000
claim 64 2000
claim 320 100
candidate 8 50000
candidate 32 10000
candidate 64 5000
streak 1 1000
streak 4 1000
streak 16 1000
END
