#!/usr/bin/env bash
# Tries must-fail edits beside those of the gate, which takes few of each crate so that it stays within its time.
# They are in bench/further_edits, by crate: CRATE.. names those to try, else all are. In a clone of what is committed.
set -euo pipefail
cd "$(dirname "$0")/.."
clone=$(mktemp -d)
trap 'rm -rf "$clone"' EXIT
git clone -q . "$clone"
cd "$clone"
crates=("$@")
[ $# -gt 0 ] || mapfile -t crates < <(ls bench/further_edits)
for crate in "${crates[@]}"; do
    rm -f crates/"$crate"/must-fail/*.edit
    cp bench/further_edits/"$crate"/*.edit crates/"$crate"/must-fail/
done
rt must-fail "${crates[@]}"
