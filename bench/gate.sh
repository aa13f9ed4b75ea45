#!/bin/sh
# How many pairs of enter and leave a second there are on the seats of a tree and on those behind a fast gate, by 1, 4
# and 16 threads, and what a pair costs in processor time. The runs of the two alternate, so that what else the
# machine does disturbs both.
# It wants crates/desk_bench built, as `rt run -- tree 16 4 4 500` in that folder leaves it; two other programs may
# be named, the first for the tree.
cd "$(dirname "$0")/.." || exit 1
exec python3 -B bench/gate.py "$@"
