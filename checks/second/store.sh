#!/usr/bin/env bash
# Chooses anew the journals that the programs `batch` and `statements` are tried on, and stores what the second program
# makes of them as what these must print; so too what `gasaccount` must print of the worked November. The journals of
# `statements` are some of those of `batch`, by the same names. The worked November comes first. The proved programs are
# not asked.
#
#     checks/second/store.sh [SEED]
set -eu
cd "$(dirname "$0")/../.."
(cd checks/second && cargo build --quiet --release --offline --target-dir target)
second=$PWD/checks/second/target/release
batch=crates/batch
statements=crates/statements
gasaccount=crates/gasaccount
rm -rf "$batch/data" "$statements/data"
mkdir -p "$batch/data" "$statements/data" "$gasaccount"
{
    echo "journal november.journal"
    "$second/lines" < crates/lines/stdin
    "$second/cases" "$second/lines" "$batch/data" --seed "${1:-1}"
} > "$batch/stdout"
cp crates/lines/stdin "$batch/data/november.journal"
(cd "$batch/data" && echo november.journal && ls [0-9]*.journal) > "$batch/args"
wc -l < "$batch/args"
{
    echo november.journal
    "$second/sample" "$second/lines" "$batch/data"
} > "$statements/args"
xargs -I{} cp "$batch/data/{}" "$statements/data/{}" < "$statements/args"
# None of these has a sum of just half a cent below zero, and this one has.
"$second/generate" 1 586 > "$statements/data/half.journal"
echo half.journal >> "$statements/args"
(cd "$statements/data" && xargs "$second/statements") < "$statements/args" > "$statements/stdout"
wc -l < "$statements/args"
printf '%s\n' statement --lines 0 > "$gasaccount/args"
cp crates/lines/stdin "$gasaccount/stdin"
xargs -a "$gasaccount/args" "$second/gasaccount" < "$gasaccount/stdin" > "$gasaccount/stdout"
