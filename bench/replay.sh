#!/bin/sh
# Times `replay` on scripts of 5,000 and 10,000 lines with every verb, over a site of ten features with groups and rules
# of every kind, and prints lines a second and the ratio of the two times. It ends with 0 only where the ratio is at most
# 2.3, so that a script of twice the length takes about twice the time. Another program may be named.
# Build the program first: (cd crates/licence_main && rt run -- check data/licence data/options)
cd "$(dirname "$0")/.." || exit 1
exec python3 -B bench/replay.py "$@"
