#!/usr/bin/env bash
# Pairs with random changes in their metadata through the check and through the slow programs of crates/bc_plain_pair, of
# which each computes a part of soundness from the bytes alone: EDITS of them, 10,000 where it isn't set. It prints how many
# were judged differently, and of how many what was said, and fails where some were. The gate judges some hundreds of them.
set -euo pipefail
cd "$(dirname "$0")/../crates/bc_edits"
proof=$(mktemp)
trap 'rm -f "$proof"' EXIT
rt run > /dev/null 2> "$proof" || { cat "$proof" >&2; exit 1; }
./out/bc_edits "${EDITS:-10000}"
