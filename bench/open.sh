#!/usr/bin/env bash
# The opening of a large pair beside bench/survey.c, a plain C program that reads the same records: a cache device of 64 GiB in 131,072
# buckets, whose index has up to a million keys of eight sectors, of which 8,000 in the journal write over others. `serve` with an
# empty trace reads the pair, works out what is known of its buckets, reads its inner nodes, writes the entry of the opening and the
# state of the backing device, and closes the pair again; the C program only reads. Each is run once to bring the files into memory,
# and then five times, of which the least times count. What is timed is a program that was built before: no proof.
#
# It prints the milliseconds of processor time of both, the system's too, with the ratio, and the bytes for each key that the program
# had at most beyond its run over a pair without keys.
set -euo pipefail
cd "$(dirname "$0")/.."

bcache=$(bench/program.sh)
folder=$(mktemp -d)
trap 'rm -rf "$folder"' EXIT
for tool in survey measure; do
    "${CC:-cc}" -O2 -Wall -Wextra -o "$folder/$tool" "bench/$tool.c"
done
cd "$folder"

# best COMMAND WORD.. runs a command six times and prints the least microseconds of processor time of the last five, and the most
# kilobytes.
best() {
    for round in 0 1 2 3 4 5; do
        ./measure "$@" < /dev/null > printed 2> measured || { echo "$1 failed: $(cat printed measured)" >&2; exit 1; }
        [ "$round" = 0 ] || cat measured
    done | awk '{
        if (!work || $2 < work) work = $2
        if ($3 > most) most = $3
    } END { if (NR != 5) exit 1; print work, most }'
}

echo "   keys  proved ms   C ms  ratio  bytes a key"
for keys in 0 100000 1000000; do
    ./survey make cache.img backing.img "$keys" 0
    read -r c_work c_memory < <(best ./survey read cache.img backing.img)
    read -r work memory < <(best "$bcache" cache.img backing.img serve)
    [ "$keys" != 0 ] || idle=$memory
    awk -v keys="$keys" -v a="$work" -v b="$c_work" -v m="$memory" -v idle="$idle" 'BEGIN {
        printf "%7d %10.1f %6.1f %6.2f", keys, a / 1000, b / 1000, a / b
        if (keys) printf " %12.1f", 1024 * (m - idle) / keys
        print ""
    }'
    rm cache.img backing.img
done
