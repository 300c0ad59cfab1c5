#!/usr/bin/env bash
# The texts of traces and answers, and the generator, beside plain loops of C: a trace of so many lines is read, the runs of
# eight sectors are printed for each of them, and as many lines are generated. Both have to come to the same numbers of
# lines and of bytes.
#
# It prints the microseconds of both, and the ratio of the times, proved to C, at several sizes in one run, so that a path
# that isn't linear shows; and the generated lines beside the time in which C prints as many. Each time is the least of
# five runs. What is timed are these calls alone, of a program that was proved and built before.
set -euo pipefail
cd "$(dirname "$0")/.."

folder=$(mktemp -d)
trap 'rm -rf "$folder"' EXIT
"${CC:-cc}" -O2 -Wall -Wextra -o "$folder/trace" bench/trace.c
cd crates/bc_script_bench
rt run > /dev/null 2> "$folder/proof" || { cat "$folder/proof" >&2; exit 1; }

# The least of each time over five runs of a command.
least() {
    for _ in 1 2 3 4 5; do
        "$@"
    done | awk 'FNR % 2 == 1 { print; next } { for (i = 1; i < NF; i++) if (FNR == 2 || $i < us[i]) us[i] = $i }
        END { for (i = 1; i < NF; i++) printf "%d ", us[i] < 1 ? 1 : us[i]; print "us" }'
}

echo "           read                      print                     generate                  beside C printing"
echo " lines  proved us    C us  ratio  proved us    C us  ratio  proved us    C us  ratio      C us  ratio"
for lines in 1024 16384 65536 262144; do
    least ./out/bc_script_bench "$lines" > "$folder/proved"
    least "$folder/trace" "$lines" 8 4096 > "$folder/plain"
    cmp <(head -n 1 "$folder/proved") <(head -n 1 "$folder/plain")
    awk -v lines="$lines" '/us$/ { files++; for (i = 1; i < NF; i++) us[files, i] = $i } END {
        printf "%6d", lines
        for (i = 1; i <= 3; i++)
            printf " %10d %7d %6.2f", us[1, i], us[2, i], us[1, i] / us[2, i]
        printf " %9d %6.2f\n", us[2, 4], us[1, 3] / us[2, 4]
    }' "$folder/proved" "$folder/plain"
done
