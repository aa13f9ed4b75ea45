#!/bin/sh
# How many pairs of enter and leave a second there are on the seats of a chain and of a tree, by 1, 4 and 16 threads,
# and how much memory the seats take.
# It wants crates/desk_bench built, as `rt run -- tree 16 4 4 500` in that folder leaves it; another program may be
# named.
cd "$(dirname "$0")/.." || exit 1
exec python3 bench/seats.py "$@"
