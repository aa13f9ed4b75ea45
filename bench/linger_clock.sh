#!/bin/sh
# What a call of the clock of lingering seats costs, full at 16, 256 and 4,096 deadlines.
# It wants crates/desk_bench built, as `rt run -- settle 16 1000` in that folder leaves it; another program may be
# named.
# Each figure is processor time: the least of five runs, less that of five with a million rounds fewer; a round is two calls.
cd "$(dirname "$0")/.." || exit 1
exec python3 bench/linger_clock.py "$@"
