#!/usr/bin/env bash
# Random lines of traces through the reader of traces and through the plain one of crates/bc_plain, whose contract is the
# grammar itself: LINES of them, 100,000 where it isn't set. It prints how many both read, how many both refused for the
# same reason, and at how many they differed, and fails where they did. The gate reads some hundreds of them.
set -euo pipefail
cd "$(dirname "$0")/../crates/bc_script_bench"
proof=$(mktemp)
trap 'rm -f "$proof"' EXIT
rt run > /dev/null 2> "$proof" || { cat "$proof" >&2; exit 1; }
./out/bc_script_bench random "${LINES:-100000}"
