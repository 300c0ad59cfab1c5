#!/usr/bin/env bash
# The proved program beside bench/serve.c, a plain C program that makes the same reads, writes and barriers of the same file,
# on traces of single sectors: half reads, half writes, anywhere on a device of 64 MiB. Both get fresh copies of one image,
# and have to print the same lines and leave the same bytes. Each is timed fifteen times, and the least times count. The two
# take turns, over the trace and over an empty one, so that a slow spell of the machine meets both.
#
# For each number of lines it prints the milliseconds of both from start to end, with the ratio; the microseconds of processor
# time, the system's too, that both take for a line, with the ratio; the most memory that each had; and what the proved program
# had beyond an empty trace, in bytes for each line. What is timed is a program that was built before: no proof.
#
# What a line takes is what the trace takes beyond an empty one, of the same program in the same run, divided by its lines. So
# the start of a process and the wait for the disk are in the milliseconds alone. Both programs have them alike, and in a short
# trace they are most of the time: the ratio of the milliseconds rises with the lines, as less and less of them hides what a
# line takes.
#
# On a disk they aren't all that hides it: the system works for the first write to each of the 16,384 pages of the file, and for
# writing that page out at the last barrier, in a short trace for nearly every line and in a long one for few. So the table is
# printed a second time, with the files in memory. Where a line took more time the longer the trace, it would show there.
set -euo pipefail
cd "$(dirname "$0")/.."

bcache=$(bench/program.sh)
tools=$(mktemp -d)
trap 'rm -rf "$tools"' EXIT
for tool in serve measure; do
    "${CC:-cc}" -O2 -Wall -Wextra -o "$tools/$tool" "bench/$tool.c"
done
sectors=131072
bench/image.sh "$tools/image" "$sectors"

# A trace of so many lines: writes and reads in turn, each of one sector that a multiplicative generator gives.
trace_of() {
    awk -v lines="$1" -v size=$((sectors - 16)) 'BEGIN {
        x = 20201227
        for (i = 1; i <= lines; i++) {
            x = x * 16807 % 2147483647
            print i % 2 ? "1 w " x % size " 1 " i : "1 r " x % size " 1"
        }
    }'
}

# once TRACE PRINTED COMMAND WORD.. runs a command over a fresh copy of the image, backing.img, and prints its microseconds,
# its microseconds of processor time and its kilobytes. The copy has no holes, which a write would have to fill first.
once() {
    local trace=$1 printed=$2
    shift 2
    cp --sparse=never "$tools/image" backing.img
    sync backing.img
    "$tools/measure" "$@" < "$trace" 2>&1 > "$printed" || { echo "$1 failed" >&2; exit 1; }
}

# least FILE prints the least microseconds, the least microseconds of processor time and the most kilobytes of fifteen runs.
least() {
    awk '{ if (!least || $1 < least) least = $1; if (!work || $2 < work) work = $2; if ($3 > most) most = $3 }
        END { if (NR != 15) exit 1; print least, work, most }' "$1"
}

# turns LINES runs both programs by turns, over an empty trace and over one of so many lines, and compares what they print and
# leave over the latter. What each run took stands in c_none, none, c_all and all.
turns() {
    local turn
    rm -f c_none none c_all all
    trace_of 0 > empty
    trace_of "$1" > trace
    for turn in {1..15}; do
        once empty c_printed "$tools/serve" backing.img >> c_none
        once empty printed "$bcache" cache.img backing.img serve >> none
        once trace c_printed "$tools/serve" backing.img >> c_all
        mv backing.img c_backing.img
        once trace printed "$bcache" cache.img backing.img serve >> all
        cmp printed c_printed
        cmp backing.img c_backing.img
    done
}

# table prints a line for each number of lines, of runs over files in the folder in which it is called.
table() {
    local lines c_wall c_work c_memory c_idle wall work memory idle idle_memory
    : > cache.img
    echo "  lines  proved ms       C ms  ratio  proved us/line  C us/line  ratio  proved KiB      C KiB  bytes a line"
    for lines in 1000 10000 100000 262144; do
        turns "$lines"
        read -r _ c_idle _ < <(least c_none)
        read -r _ idle idle_memory < <(least none)
        read -r c_wall c_work c_memory < <(least c_all)
        read -r wall work memory < <(least all)
        awk -v lines="$lines" -v a="$wall" -v b="$c_wall" -v c="$((work - idle))" -v d="$((c_work - c_idle))" \
            -v m="$memory" -v n="$c_memory" -v idle="$idle_memory" 'BEGIN {
            printf "%7d %10.1f %10.1f %6.2f %15.2f %10.2f %6.2f %11d %10d %13.0f\n", lines, a / 1000, b / 1000, a / b,
                c / lines, d / lines, c / d, m, n, 1024 * (m - idle) / lines
        }'
    done
}

for place in "${TMPDIR:-/tmp}" /dev/shm; do
    folder=$(mktemp -d -p "$place")
    trap 'rm -rf "$tools" "$folder"' EXIT
    echo "files in $place, a file system $(stat -f -c %T "$place")"
    (cd "$folder" && table)
    rm -rf "$folder"
done
