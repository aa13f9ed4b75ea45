#!/bin/sh
# Times `check` on the files of a large site, of half the bytes that a file may have and of nearly all 1,048,576, and
# prints lines a second and the ratio of the two times. It ends with 0 only where the ratio is at most 2.3, so that
# files of twice the length take about twice the time. Another program may be named.
# Build the program first: (cd crates/licence_main && rt run -- check data/licence data/options)
cd "$(dirname "$0")/.." || exit 1
exec python3 -B bench/check.py "$@"
