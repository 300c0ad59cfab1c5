#!/usr/bin/env bash
# What a run in parts costs under contention: sixteen threads commit 10,000 events each to one run, and then put as many into
# the same kind of Book under one lock, in one run of one proved program. It prints both counts of events, both times and
# the ratio parts/mutex, five times over, since one run differs from the next by a fifth and more.
set -euo pipefail
cd "$(dirname "$0")/../crates/bc_parts_bench"
proof=$(mktemp)
trap 'rm -f "$proof"' EXIT
for _ in 1 2 3 4 5; do
    rt run -- --time 2> "$proof" || { cat "$proof" >&2; exit 1; }
done
