#!/usr/bin/env bash
# Tries the program on pairs that the real make-bcache wrote, and the real bcache-super-show on pairs that the program wrote.
# Both are in Debian's package bcache-tools; where they aren't installed this says so and ends. It prints `ok` with the number
# of cases, or a line for each that differs, and then ends with status 1.
set -euo pipefail
cd "$(dirname "$0")/.."
export PATH=$PATH:/usr/sbin:/sbin
for tool in make-bcache bcache-super-show; do
    command -v "$tool" > /dev/null || { echo "skipped: $tool isn't installed (package bcache-tools)"; exit 0; }
done
bcache=$(bench/program.sh)

folder=$(mktemp -d)
trap 'rm -rf "$folder"' EXIT
cd "$folder"
name=
cases=0
differing=0

# expect WHAT FOUND WANTED tests one thing of a case.
expect() {
    cases=$((cases + 1))
    [ "$2" = "$3" ] && return
    echo "$name: $1 is '$2' and not '$3'"
    differing=$((differing + 1))
}

# command_is STATUS PRINTED WORD.. runs a command over the pair.
command_is() {
    local status=$1 wanted=$2 ended=0
    shift 2
    "$bcache" cache.img backing.img "$@" < /dev/null > printed 2>&1 || ended=$?
    expect "the status of $1" "$ended" "$status"
    expect "what $1 prints" "$(cat printed)" "$wanted"
}

# field FILE NAME gives what bcache-super-show says of a field, without what it says in brackets.
field() {
    bcache-super-show "$1" | awk -v name="$2" '$1 == name { print $2 }'
}

# is_accepted FILE VERSION tests that bcache-super-show finds nothing wrong.
is_accepted() {
    bcache-super-show "$1" > said
    expect "the magic of $1" "$(field "$1" sb.magic)" ok
    expect "the place of $1" "$(grep -c 'sb.first_sector.*\[match\]' said)" 1
    expect "the checksum of $1" "$(grep -c 'sb.csum.*\[match\]' said)" 1
    expect "the version of $1" "$(field "$1" sb.version)" "$2"
}

# plain UUID gives its digits.
plain() {
    echo "${1//-/}"
}

# shown VERSION JOURNAL SYNC OFFSET BACKING_VERSION MODE STATE is what show prints by what the real tool says of the files.
shown() {
    local block bucket buckets first
    block=$(field cache.img dev.sectors_per_block)
    bucket=$(field cache.img dev.sectors_per_bucket)
    buckets=$(($(field cache.img dev.cache.total_sectors) / bucket))
    first=$(($(field cache.img dev.cache.first_sector) / bucket))
    echo "cache version $1 block $block bucket $bucket buckets $buckets first $first journal $2 replacement lru sync $3 discard 0"
    echo "cache uuid $(plain "$(field cache.img dev.uuid)") set $(plain "$(field cache.img cset.uuid)")"
    echo "backing version $5 offset $4 size $(($(stat -c %s backing.img) / 512 - $4)) mode $6 state $7"
    echo "backing uuid $(plain "$(field backing.img dev.uuid)") set $(plain "$(field backing.img cset.uuid)")"
}

# new_files CACHE_SECTORS BACKING_SECTORS makes both files anew; the backing file is full of noise.
new_files() {
    rm -f cache.img backing.img
    truncate -s $((512 * $1)) cache.img
    head -c $((512 * $2)) /dev/urandom > backing.img
}

# others gives a sum of all of the backing file but sector 8.
others() {
    { head -c 4096 backing.img; tail -c +4609 backing.img; } | sha256sum
}

# adopted NAME CACHE_SECTORS BACKING_SECTORS JOURNAL BUCKET BLOCK MODE OFFSET OPTION.. lets the real tool make a pair and
# adopts it. JOURNAL is the number of its journal buckets afterwards; the options are those of the backing device.
adopted() {
    name="made by make-bcache, $1"
    local journal=$4 bucket=$5 block=$6 mode=$7 offset=$8 version=1 before uuid set
    new_files "$2" "$3"
    shift 8
    [ "$offset" = 16 ] || version=4
    make-bcache --bucket "$bucket" --block "$block" -C cache.img > /dev/null
    set=$(field cache.img cset.uuid)
    make-bcache --block "$block" --cset-uuid "$set" "$@" -B backing.img > /dev/null
    uuid=$(field backing.img dev.uuid)
    before=$(others)
    command_is 0 "$(shown 0 0 0 "$offset" "$version" "$mode" none)" show
    command_is 4 'superblock cache 15' serve
    command_is 0 '' adopt
    expect 'the backing device but for its superblock' "$(others)" "$before"
    is_accepted cache.img 3
    is_accepted backing.img "$version"
    expect 'the uuid of the backing device' "$(field backing.img dev.uuid)" "$uuid"
    expect 'the set of the cache device' "$(field cache.img cset.uuid)" "$set"
    expect 'the set of the backing device' "$(field backing.img cset.uuid)" "$set"
    expect 'the state' "$(field backing.img dev.data.cache_state)" 1
    command_is 0 "$(shown 3 "$journal" 1 "$offset" "$version" "$mode" clean)" show
    command_is 4 'superblock cache 18' adopt
    command_is 0 '' serve
    expect 'the state of a pair that was opened and closed' "$(field backing.img dev.data.cache_state)" 1
    command_is 0 'check sound dirty 0 clean 0' check
    expect 'the backing device but for its superblock, at the end' "$(others)" "$before"
}

# formatted NAME CACHE_SECTORS BACKING_SECTORS JOURNAL BLOCK BUCKET MODE OFFSET formats a pair.
formatted() {
    name="made by format, $1"
    new_files "$2" "$3"
    local before set=0123456789abcdef0123456789abcdef mode=$7 offset=$8 version=1 number
    [ "$offset" = 16 ] || version=4
    case $mode in
        writethrough) number=0 ;;
        writeback) number=1 ;;
        writearound) number=2 ;;
        *) number=3 ;;
    esac
    before=$(others)
    command_is 0 '' format --set "$set" --cuuid 11111111111111111111111111111111 --buuid 22222222222222222222222222222222 --block "$5" --bucket "$6" \
        --mode "$mode" --offset "$offset"
    expect 'the backing device but for its superblock' "$(others)" "$before"
    is_accepted cache.img 3
    is_accepted backing.img "$version"
    expect 'the set' "$(plain "$(field cache.img cset.uuid)") $(plain "$(field backing.img cset.uuid)")" "$set $set"
    expect 'the sizes' "$(field cache.img dev.sectors_per_block) $(field cache.img dev.sectors_per_bucket)" "$5 $6"
    expect 'the data' "$(field backing.img dev.data.first_sector)" "$offset"
    expect 'the mode and the state' "$(field backing.img dev.data.cache_mode) $(field backing.img dev.data.cache_state)" "$number 1"
    command_is 0 "$(shown 3 "$4" 1 "$offset" "$version" "$mode" clean)" show
    command_is 0 'check sound dirty 0 clean 0' check
}

adopted 'small'                 8192   4112 8  32k   512 writethrough 16
adopted 'blocks of 4 KiB'      65536  16384 8  64k   4k  writeback    16   --writeback
adopted 'a data offset'         8192   8192 8  32k   2k  writethrough 2048 --data-offset 2048
adopted 'large buckets'       524288  16384 8  1024k 512 writeback    64   --writeback --data-offset 64
adopted 'many buckets'        131072   4112 16 32k   512 writethrough 16
formatted 'small'               8192   4112 8  1 64   writethrough 16
formatted 'blocks of 4 KiB'    65536  16384 8  8 128  writeback    16
formatted 'the default bucket' 262144 16384 8  1 1024 writearound  2064
formatted 'many buckets'       131072  4112 16 2 64   none         17

[ "$differing" = 0 ] || { echo "$differing of $cases tests differ"; exit 1; }
echo "ok: $cases tests"
