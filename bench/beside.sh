# Sourced by the benchmarks that run a proved program beside a plain one.
#
# What is timed are the calls alone, of a program that was proved and built before; both programs print in their first line what
# tells their results from others, and behind it their times.

folder=$(mktemp -d)
trap 'rm -rf "$folder"' EXIT

# build_both CRATE SOURCE proves and builds the program of the crate, and compiles the plain one of this file of bench/. The commands
# are in `proved` and `plain` then.
build_both() {
    plain=$folder/beside
    "${CXX:-c++}" -O2 -Wall -Wextra -std=c++17 -o "$plain" "bench/$2"
    (cd "crates/$1" && rt run > /dev/null 2> "$folder/proof") || { cat "$folder/proof" >&2; return 1; }
    proved=$PWD/crates/$1/out/$1
}

# run_both WORD.. runs both with these words, into the files `proved` and `plain` of the folder. Their first lines have to be the same.
run_both() {
    "$proved" "$@" > "$folder/proved"
    "$plain" "$@" > "$folder/plain"
    cmp <(head -n 1 "$folder/proved") <(head -n 1 "$folder/plain")
}
