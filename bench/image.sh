#!/usr/bin/env bash
# image.sh FILE SECTORS makes a backing device: so many sectors of 512 bytes, all zero but for the superblock in sector 8 of
# a device that is used without a cache. Its numbers are little-endian. The checksum is the one that `write_backing` of
# bc_super writes for these fields.
set -euo pipefail
[ $# = 2 ] || { echo "usage: image.sh FILE SECTORS" >&2; exit 2; }

# put BYTE ESCAPES puts bytes at this place of sector 8.
put() {
    printf "$2" | dd of="$file" bs=1 seek=$((8 * 512 + $1)) conv=notrunc status=none
}

file=$1
rm -f "$file"
truncate -s $((512 * $2)) "$file"
put 0 '\x14\x99\xd1\x3d\x05\xc6\xe8\xb3'                                   # the checksum
put 8 '\x08'                                                                # the sector that it stands in
put 16 '\x01'                                                               # version 1: the data begins at sector 16
put 24 '\xc6\x85\x73\xf6\x4e\x1a\x45\xca\x82\x65\xf5\x7f\x48\xba\x6d\x81'   # the magic
put 40 "$(printf '\\x0b%.0s' {1..16})"                                      # the uuid
put 104 '\x03'                                                              # mode none, state none
put 192 '\x01'                                                              # blocks of one sector
