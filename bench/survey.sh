#!/usr/bin/env bash
# The survey of a large pair beside bench/survey.c, a plain C program that reads the same records
# by the same calls: a cache device of 64 GiB in 131,072 buckets, whose index has up to a million
# keys of eight sectors. The C program makes the pair too, in files with holes that take some 35
# MB. `serve` surveys the pair before it answers `unserved`; that is what is timed, with a trace of
# one write. Where there are keys the journal has 8,000 that write over some of them; in the last
# one each fourth key stands in a second set of its leaf.
#
# For each pair it prints the milliseconds of both from start to end, with the ratio; those of
# processor time, the system's too, with the ratio; the most memory that each had; and what each
# had beyond its run over a pair without keys, in bytes for each key. Each is run once to bring
# the files into memory, and then five times, of which the least times count. What is timed is a
# program that was built before: no proof.
#
# Before the last pair is timed both have to print the same line for each bucket in use, the
# program by `check --list`.
set -euo pipefail
cd "$(dirname "$0")/.."

bcache=$(bench/program.sh)
folder=$(mktemp -d)
trap 'rm -rf "$folder"' EXIT
for tool in survey measure; do
    "${CC:-cc}" -O2 -Wall -Wextra -o "$folder/$tool" "bench/$tool.c"
done
cd "$folder"
echo '1 w 0 1 7' > trace

# best STATUS COMMAND WORD.. runs a command six times, each of which has to end with this status
# and print `unserved`, and prints the least microseconds and microseconds of processor time of
# the last five, and the most kilobytes.
best() {
    local status=$1 ended
    shift
    for round in 0 1 2 3 4 5; do
        ended=0
        ./measure "$@" < trace > printed 2> measured || ended=$?
        if [ "$ended" != "$status" ] || [ "$(cat printed)" != unserved ]; then
            echo "$1 failed: $(cat printed measured)" >&2
            exit 1
        fi
        [ "$round" = 0 ] || cat measured
    done | awk '{
        if (!least || $1 < least) least = $1
        if (!work || $2 < work) work = $2
        if ($3 > most) most = $3
    } END { if (NR != 5) exit 1; print least, work, most }'
}

echo "                               wall ms         processor ms            KiB    bytes a key"
echo "   keys  second set  proved     C  ratio  proved     C  ratio  proved      C  proved     C"
for shape in '0 0' '100000 0' '1000000 0' '1000000 4'; do
    read -r keys later <<< "$shape"
    ./survey make cache.img backing.img $shape
    if [ "$later" != 0 ]; then
        ./survey read cache.img backing.img list > c_list
        cmp <("$bcache" cache.img backing.img check --list) c_list
    fi
    read -r c_wall c_work c_memory < <(best 0 ./survey read cache.img backing.img)
    read -r wall work memory < <(best 5 "$bcache" cache.img backing.img serve)
    [ "$keys" != 0 ] || { idle=$memory; c_idle=$c_memory; }
    awk -v keys="$keys" -v later="$later" -v a="$wall" -v b="$c_wall" -v c="$work" -v d="$c_work" \
        -v m="$memory" -v n="$c_memory" -v idle="$idle" -v c_idle="$c_idle" 'BEGIN {
        second = later ? "1 of " later : "none"
        printf "%7d %11s %7.1f %5.1f %6.2f", keys, second, a / 1000, b / 1000, a / b
        printf " %7.1f %5.1f %6.2f %7d %6d", c / 1000, d / 1000, c / d, m, n
        if (keys) printf " %7.1f %5.1f", 1024 * (m - idle) / keys, 1024 * (n - c_idle) / keys
        print ""
    }'
    rm cache.img backing.img
done
