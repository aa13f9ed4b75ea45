#!/bin/sh
# Runs the built program to each of its ends, on rows of files and on files at fault, and compares them with checks/ends.cases,
# checks/rows.cases and checks/faults.cases. Another program may be named.
cd "$(dirname "$0")/.." || exit 1
program=${1:-$(pwd)/crates/licence_main/out/licence_main}
wrong=0

for cases in checks/ends.cases checks/rows.cases checks/faults.cases; do
    python3 -B checks/ends.py "$program" "$cases" || wrong=1
done
exit "$wrong"
