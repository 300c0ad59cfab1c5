#!/usr/bin/env bash
# Proves and builds the program, and prints the path of its file. With nothing changed since the last time it proves nothing;
# the very first time takes as long as a proof of all crates below the program.
set -euo pipefail
command -v rt > /dev/null || { echo "missing: rt, the command of the Rattle toolchain that README.md names" >&2; exit 1; }
cd "$(dirname "$0")/.."

folder=$(mktemp -d)
trap 'rm -rf "$folder"' EXIT
: > "$folder/cache.img"
bench/image.sh "$folder/backing.img" 80

# rt builds a program only to run it, so it is given a run that does nothing: an empty trace.
cd crates/bc_prog
rt run -- "$folder/cache.img" "$folder/backing.img" serve < /dev/null > /dev/null 2> "$folder/proof" || {
    cat "$folder/proof" >&2
    exit 1
}
echo "$PWD/out/bc_prog"
