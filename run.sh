#!/usr/bin/env bash
# Builds the proved program, serves sample traces with it, and makes and shows a pair, over image files in a temporary folder. It
# needs the Rattle toolchain that README.md names.
set -euo pipefail
cd "$(dirname "$0")"

command -v rt > /dev/null || { echo "missing: rt, the command of the Rattle toolchain that README.md names"; exit 1; }
echo "Proving and building the program. The first time takes as long as a proof of all crates below it."
bcache=$(bench/program.sh)

folder=$(mktemp -d)
trap 'rm -rf "$folder"' EXIT
cache=$folder/cache.img
backing=$folder/backing.img
: > "$cache"
bench/image.sh "$backing" 80

# serve EXPLANATION LINE.. shows a run of the program on a trace with these lines.
serve() {
    echo
    echo "$1"
    shift
    printf '    %s\n' "$@"
    printf '%s\n' "$@" | "$bcache" "$cache" "$backing" serve | sed 's/^/ -> /'
}

serve "A run that writes sectors 0 to 7 with stamp 7, reads sectors 0 to 9 and flushes, and what it answers line by line:" \
    '1 w 0 8 7' '1 r 0 10' '1 f'
serve "A forced write, which is durable once it says done, and a range that isn't there:" \
    '1 W 10 2 8' '1 W 63 2 9'
serve "One more run over the same files, which reads what the first one wrote and then beyond the last of the 64 data sectors:" \
    '1 r 0 12' '1 r 63 2'

# command WORD.. shows a run of a command over a second pair of files.
command() {
    echo "    bcache CACHE BACKING $*"
    "$bcache" "$folder/cache2.img" "$folder/backing2.img" "$@" | sed 's/^/ -> /'
}

truncate -s 4M "$folder/cache2.img"
truncate -s 2105344 "$folder/backing2.img"
echo
echo "A cache device of 4 MiB and a backing device are formatted as a pair, and shown:"
command format --set 5e70000000000000000000000000005e --cuuid ca000000000000000000000000000ca0 \
    --buuid ba0000000000000000000000000000ba --block 1 --bucket 64
command show
command check --list
echo
echo "Served with a trace that asks for nothing, the pair is opened and closed; its journal has an entry more:"
echo "    bcache CACHE BACKING serve < /dev/null"
"$bcache" "$folder/cache2.img" "$folder/backing2.img" serve < /dev/null
command check
echo
echo "Served with a trace that reads, it is read from both devices, and stays as it is:"
echo "    echo '1 r 0 2' | bcache CACHE BACKING serve"
echo '1 r 0 2' | "$bcache" "$folder/cache2.img" "$folder/backing2.img" serve | sed 's/^/ -> /'
command check
