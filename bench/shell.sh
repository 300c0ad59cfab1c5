#!/usr/bin/env bash
# Tries the built program at the shell with what it has to refuse, and compares what it prints, its status, and both files
# before and after: none of these runs may change a byte. It prints `ok`, or a line for each case that differs, and then ends
# with status 1.
#
# No contract says that a barrier of a real file reaches the medium. So where strace is installed the `fdatasync` calls of a few runs
# are counted, on the file of each device, and how many of them stand behind its last write: a barrier is one such call, on the file
# that it is for, behind what was written.
set -euo pipefail
cd "$(dirname "$0")/.."
bcache=$(bench/program.sh)
make_image=$PWD/bench/image.sh

folder=$(mktemp -d)
trap 'rm -rf "$folder"' EXIT
cd "$folder"
mkdir a_folder
memory=unlimited
through=()
cases=0
differing=0

# new_files SECTORS makes both files anew: an empty cache file, and a backing device of so many sectors.
new_files() {
    : > cache.img
    "$make_image" backing.img "$1"
}

# change BYTE ESCAPES changes the backing device's superblock at this place.
change() {
    printf '%b' "$2" | dd of=backing.img bs=1 seek=$((8 * 512 + $1)) conv=notrunc status=none
}

# try_from INPUT OUTPUT NAME STATUS PRINTED WORD.. runs the program with these words between these files, started by the
# command in `through` where there is one, and with at most so many kilobytes of memory as `memory` says.
try_from() {
    local input=$1 output=$2 name=$3 status=$4 wanted=$5 before ended=0 differs=
    shift 5
    before=$(sha256sum cache.img backing.img)
    (ulimit -v "$memory" && exec "${through[@]}" "$bcache" "$@") < "$input" > "$output" 2>&1 || ended=$?
    [ "$ended" = "$status" ] || differs+=" status $ended and not $status;"
    [ "$output" != printed ] || [ "$(cat printed)" = "$wanted" ] || differs+=" printed '$(cat printed)' and not '$wanted';"
    [ "$(sha256sum cache.img backing.img)" = "$before" ] || differs+=" a file was changed;"
    cases=$((cases + 1))
    if [ -n "$differs" ]; then
        echo "$name:$differs"
        differing=$((differing + 1))
    fi
}

# try_words NAME STATUS PRINTED WORD.. runs it on an empty trace.
try_words() {
    : > trace
    try_from trace printed "$@"
}

# try_trace NAME STATUS PRINTED TRACE serves a trace over the two files.
try_trace() {
    printf '%b' "$4" > trace
    try_from trace printed "$1" "$2" "$3" cache.img backing.img serve
}

new_files 80
try_words 'no words' 2 usage
try_words 'one word' 2 usage cache.img
try_words 'two words' 2 usage cache.img backing.img
try_words 'two words that name no files' 2 usage none.img none.img
try_words 'an unknown command' 2 usage cache.img backing.img fly
try_words 'a word behind the command' 2 usage cache.img backing.img serve now
try_words 'a word that is not UTF-8' 2 usage cache.img backing.img $'\xff'
try_words 'no cache file' 6 'fault cache' none.img backing.img serve
try_words 'no backing file' 6 'fault backing' cache.img none.img serve
try_words 'neither file, and an unknown command' 6 'fault cache' none.img none.img fly
try_words 'a folder in the place of the cache file' 6 'fault cache' a_folder backing.img serve
try_words 'a folder in the place of the backing file' 6 'fault backing' cache.img a_folder serve

ids=(--set 5e70000000000000000000000000005e --cuuid ca000000000000000000000000000ca0 --buuid ba0000000000000000000000000000ba)
try_words 'format with no further word' 2 usage cache.img backing.img format
try_words 'a set of zeros' 2 usage cache.img backing.img format --set 00000000000000000000000000000000 "${ids[@]:2}" --block 1 --bucket 64
try_words 'upper-case digits' 2 usage cache.img backing.img format --set 5E70000000000000000000000000005E "${ids[@]:2}" --block 1 --bucket 64
try_words 'an option twice' 2 usage cache.img backing.img format "${ids[@]}" --block 1 --bucket 64 --block=1
try_words 'an option without its value' 2 usage cache.img backing.img format "${ids[@]}" --bucket 64 --block
try_words 'an unknown mode' 2 usage cache.img backing.img serve --mode fast
try_words 'a cutoff one too large' 2 usage cache.img backing.img serve --cutoff=1099511627777
try_words 'a block of three sectors' 2 usage cache.img backing.img format "${ids[@]}" --block 3 --bucket 64
try_words 'a bucket beyond any number' 2 usage cache.img backing.img format "${ids[@]}" --block 1 --bucket 18446744073709551680
try_words 'an unknown mode of a pair' 2 usage cache.img backing.img format "${ids[@]}" --mode fast
try_words 'a mode twice' 2 usage cache.img backing.img format "${ids[@]}" --mode none --mode=none
try_words 'an offset below 16' 2 usage cache.img backing.img format "${ids[@]}" --offset 15
try_words 'an offset above 2^40' 2 usage cache.img backing.img format "${ids[@]}" --offset=1099511627777
try_words 'a further word behind format' 2 usage cache.img backing.img format "${ids[@]}" --block 1 --bucket 64 now
try_words 'a further word behind show' 2 usage cache.img backing.img show now
try_words 'format over an empty cache file' 4 'superblock cache 7' cache.img backing.img format "${ids[@]}" --block 1 --bucket 64
try_words 'adopt over an empty cache file' 4 'superblock cache 9' cache.img backing.img adopt
try_words 'show over an empty cache file' 4 'superblock cache 9' cache.img backing.img show

try_trace 'an unknown letter behind a write' 3 'trace 2 2' '1 w 0 1 1\n1 x 0 1\n'
try_trace 'a comment behind a space' 3 'trace 1 3' ' # no comment\n1 w 0 1 1\n'
try_trace 'a forced write without a stamp' 3 'trace 2 2' '1 w 0 1 1\n1 W 0 1\n'
try_trace 'another worker behind a write' 3 'trace 2 5' '1 w 0 1 1\n2 w 0 1 1\n'
try_trace 'a stamp of zero behind a write' 3 'trace 2 4' '1 w 0 1 1\n1 w 0 1 0\n'
try_trace 'a line of 81 bytes behind a write' 3 'trace 2 1' "1 w 0 1 1\n1 r 0 1$(printf '%74s' '')\n"
{ echo '1 w 0 1 1'; seq 262144 | sed 's/.*/1 f/'; } > trace
try_from trace printed 'a line too many' 3 'trace 262145 6' cache.img backing.img serve
seq 262144 | sed 's/.*/1 w 0 1 1/' > trace
memory=8000
try_from trace printed 'a trace beyond the memory' 9 memory cache.img backing.img serve
memory=unlimited
try_from a_folder printed 'a trace that cannot be read' 7 'fault source' cache.img backing.img serve
try_trace 'a range that ends beyond the device' 0 'out-of-range' '1 w 63 2 5\n'
echo '1 r 0 1' > trace
try_from trace /dev/full 'answers that nothing takes' 8 '' cache.img backing.img serve
try_from trace /dev/full 'a message that nothing takes' 2 '' cache.img backing.img fly
through=(sh -c 'exec "$@" >&-' sh)
try_from trace printed 'a closed standard output' 8 '' cache.img backing.img serve
through=(sh -c 'exec "$@" <&- 2>&-' sh)
try_from trace printed 'a closed standard input and error' 0 '' cache.img backing.img serve
through=()

for sectors in 0 15; do
    new_files "$sectors"
    truncate -s $((512 * sectors)) backing.img
    try_trace "a backing file of $sectors sectors" 4 'superblock backing 9' '1 w 0 1 1\n'
done
new_files 16
try_trace 'a backing file with no data sector' 4 'superblock backing 14' '1 w 0 1 1\n'
printf 'torn' >> backing.img
try_trace 'and then a torn one' 4 'superblock backing 14' '1 w 0 1 1\n'
new_files 80
printf 'torn' >> backing.img
try_trace 'a torn last sector' 0 $'zerox1\nout-of-range\nout-of-range' '1 r 63 1\n1 r 63 2\n1 w 64 1 5\n'

change 104 '\x01'
try_trace 'a checksum that is wrong' 4 'superblock backing 2' '1 w 0 1 1\n'
change 0 '\x86\xed\xc4\x23\x36\xec\x52\x5a'
try_trace 'a device that asks for a cache, and an empty cache file' 4 'superblock cache 9' '1 w 0 1 1\n'
change 16 '\x02'
change 0 '\x70\x25\x78\xac\xd9\x2c\x7f\x5c'
try_trace 'a version that is not read' 4 'superblock backing 3' '1 w 0 1 1\n'
change 24 '\x00'
try_trace 'no superblock' 4 'superblock backing 1' '1 w 0 1 1\n'
try_trace 'no superblock, and a trace that is refused' 3 'trace 1 3' 'w 0 1 1\n'

new_files 16
truncate -s 4M cache.img
try_words 'format over a backing file with no data sector' 4 'superblock backing 14' cache.img backing.img format "${ids[@]}" --block 1 --bucket 64
new_files 80
truncate -s 4M cache.img
try_words 'an offset behind the last sector' 4 'superblock backing 14' cache.img backing.img format "${ids[@]}" --block 1 --bucket 64 --offset 80
"$bcache" cache.img backing.img format "${ids[@]}" --block 1 --bucket 64 --offset 79 --mode=writeback
"$bcache" cache.img backing.img show | grep -q '^backing version 4 offset 79 size 1 mode writeback state clean$' || { echo 'show of the last offset differs'; exit 1; }
"$bcache" cache.img backing.img format "${ids[@]}" --block 1 --bucket 64
try_words 'adopt of a pair in use' 4 'superblock cache 18' cache.img backing.img adopt
try_words 'show to a sink that takes it' 0 "$("$bcache" cache.img backing.img show)" cache.img backing.img show
try_trace 'a pair with a cache' 5 'unserved' '1 w 0 1 1\n'
# A pair that is read, or of which nothing is asked, is opened and closed: its data stay, and it is sound and clean again.
data=$(tail -c +8193 backing.img | sha256sum)
for trace in '' '# nothing\n-\n' '1 r 0 2\n1 r 63 2\n'; do
    cases=$((cases + 1))
    printed=0
    [ "${trace#1}" = "$trace" ] || printed=$'zerox2\nout-of-range\n0'
    if [ "$(printf '%b' "$trace" | "$bcache" cache.img backing.img serve; echo "$?")" != "$printed" ] || [ "$(tail -c +8193 backing.img | sha256sum)" != "$data" ] ||
        [ "$("$bcache" cache.img backing.img check)" != 'check sound dirty 0 clean 0' ] || ! "$bcache" cache.img backing.img show | grep -q 'state clean$'; then
        echo "a pair that is opened and closed by '$trace' differs"
        differing=$((differing + 1))
    fi
done
# The first sector of bucket 10 has the table of uuids, and that of bucket 1 the journal's only entry.
dd if=/dev/zero of=cache.img bs=32K seek=10 count=1 conv=notrunc status=none
try_trace 'a pair without a table of uuids' 5 'image 11' '1 w 0 1 1\n'
dd if=/dev/zero of=cache.img bs=32K seek=1 count=1 conv=notrunc status=none
try_trace 'a pair without a journal' 5 'image 2' '1 w 0 1 1\n'
try_trace 'such a pair, and a trace that is refused' 3 'trace 1 3' 'w 0 1 1\n'
change 60 '\x01'
try_trace 'a pair whose superblock is torn' 4 'superblock backing 2' '1 w 0 1 1\n'
memory=12000
new_files 80
truncate -s 2G cache.img
try_words 'no memory for a bucket of 16 MiB' 9 memory cache.img backing.img format "${ids[@]}" --block 1 --bucket 32768
memory=unlimited

# try_barriers NAME CACHE BACKING BEHIND WORD.. serves the lines of `trace` and wants so many `fdatasync` calls on each file, and so
# many on the backing file behind its last write.
try_barriers() {
    local name=$1 wanted="$2 $3 $4" counted
    shift 4
    strace -f -y -e trace=fdatasync,fsync,pwrite64 -o calls "$bcache" "$@" < trace > printed || { echo "$name: it ended with $?"; differing=$((differing + 1)); }
    counted=$(awk '/fdatasync\(.*\/cache.img>\) *= 0/ { cache++ } /fdatasync\(.*\/backing.img>\) *= 0/ { backing++; behind++ }
        /pwrite64\(.*\/backing.img>/ { behind = 0 } END { print cache + 0, backing + 0, behind + 0 }' calls)
    cases=$((cases + 1))
    if [ "$counted" != "$wanted" ]; then
        echo "$name: $counted barriers of the cache file, of the backing file and behind its last write, and not $wanted"
        differing=$((differing + 1))
    fi
}

# The opening makes one barrier of each device whose superblock it judges, the closing one, each `f` and each piece of a `W` one.
if command -v strace > /dev/null && strace -o calls true 2> /dev/null; then
    new_files 2064
    : > trace
    try_barriers 'an empty trace' 0 2 2 cache.img backing.img serve
    printf '1 w 0 1 1\n1 r 0 1\n1 w 5 3 2\n' > trace
    try_barriers 'writes' 0 2 1 cache.img backing.img serve
    printf '1 f\n1 w 0 1 1\n1 f\n' > trace
    try_barriers 'two flushes' 0 4 2 cache.img backing.img serve
    printf '1 W 0 1 1\n1 W 255 258 2\n' > trace
    try_barriers 'a forced write of one piece and one of three' 0 6 2 cache.img backing.img serve
    # A pair with a cache: the entry of the opening is written between two barriers, and the state of the backing device is stable
    # after the opening and after the closing.
    truncate -s 4M cache.img
    "$bcache" cache.img backing.img format "${ids[@]}" --block 1 --bucket 64
    : > trace
    try_barriers 'a pair that is opened and closed' 3 4 1 cache.img backing.img serve
else
    echo 'strace is not here, so no barrier was counted'
fi

[ "$differing" = 0 ] || { echo "$differing of $cases cases differ"; exit 1; }
echo "ok: $cases cases"
