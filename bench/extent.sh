#!/usr/bin/env bash
# The extent map beside an ordered map of C++, std::map, in which the same calls make the same cuts: a million random inserts of
# extents of 1 to 8 sectors, as many keys looked up and replaced, and as many erases, in maps of 1,000, 10,000 and 100,000 keys.
# After some erases as many inserts bring keys back, which aren't timed. Both have to end with the same keys.
#
# For each number of keys it prints the nanoseconds of processor time of a call in both, and their ratio, and at the end the bytes
# that a key takes in both: the memory that a map of 100,000 keys has above one of 4. A word on the command line gives another number
# of calls.
set -euo pipefail
cd "$(dirname "$0")/.."
. bench/beside.sh

calls=${1:-1000000}
build_both bc_extent_bench extent.cpp
"${CC:-cc}" -O2 -Wall -Wextra -o "$folder/measure" bench/measure.c

echo "   keys call             proved ns  C++ ns   ratio"
for keys in 1000 10000 100000; do
    run_both "$keys" "$calls"
    paste <(tail -n 3 "$folder/proved") <(tail -n 3 "$folder/plain") | awk -v keys="$keys" -v calls="$calls" '
        BEGIN { split("insert,look up and replace,erase", name, ",") }
        { printf "%7d %-19s %6.0f %7.0f %7.2f\n", keys, name[NR], 1000 * $1 / calls, 1000 * $3 / calls, $1 / $3 }'
done

# kilobytes PROGRAM KEYS says how much memory the program has at most.
kilobytes() {
    "$folder/measure" "$1" "$2" 1 2>&1 > /dev/null | awk '{ print $NF }'
}
for program in "$proved" "$plain"; do
    echo $(((1024 * ($(kilobytes "$program" 100000) - $(kilobytes "$program" 4))) / 100000))
done | paste -s | awk '{ printf "bytes a key: %d, in C++ %d\n", $1, $2 }'
