#!/usr/bin/env bash
# Builds the proved programs and the second ones and compares what they print: `prices`, and on generated journals
# `lines`, `statements` of all months, and two calls of `gasaccount` on each, one for a statement and one for late
# charges, for which payments may be put behind the journal. Each output and exit status is compared to
# the byte, and of `gasaccount` standard error too.
#
#     checks/second/compare.sh [COUNT [SEED]]
#
# The first journal that differs is saved in checks/second/difference/ with what both made of it. The status is 0 only
# if all agree.
set -eu
cd "$(dirname "$0")/../.."
count=${1:-1000}
seed=${2:-1}
checks/second/build.sh
rm -rf checks/second/difference
work=$(mktemp -d)
trap 'rm -rf "$work"' EXIT
crates/prices/out/prices > "$work/ours"
checks/second/target/release/prices > "$work/second"
if [ "$(wc -l < "$work/ours")" -ne 271 ]; then
    echo "prices: no header with 270 rows"
    exit 2
fi
if ! diff "$work/ours" "$work/second"; then
    echo "prices: they differ"
    exit 1
fi
echo "prices: the same"
second=checks/second/target/release
"$second/compare" \
    crates/lines/out/lines crates/statements/out/statements crates/gasaccount/out/gasaccount \
    "$second/lines" "$second/statements" "$second/gasaccount" \
    --count "$count" --seed "$seed" --save checks/second/difference
