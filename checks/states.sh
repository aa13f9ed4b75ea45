#!/bin/sh
# Counts the states of the k-assignment machine once more, and compares with what crates/kex_search prints, which the gate runs.
cd "$(dirname "$0")/.." || exit 1
exec python3 -B checks/states.py
