#!/bin/sh
# What a publishing and a glance cost on a board with 1, 16 and 256 passes.
# It wants crates/desk_bench built, as `rt run -- publish 16 1000` in that folder leaves it; another program may be
# named.
# Each figure is processor time: the least of five runs, less that of five with fewer rounds.
cd "$(dirname "$0")/.." || exit 1
exec python3 bench/board.py "$@"
