#!/bin/sh
# Times `audit` and `usage` on a log of two pools with every kind of request but REREAD, of half the bytes that a file may have
# and of nearly all 1,048,576, and prints lines a second and the ratio of the two times. It ends with 0 only where the ratio is at
# most 2.2, so that a log of twice the length takes about twice the time, and the longer one takes less than 0.1 seconds. Another
# program may be named.
# Build the program first: (cd crates/licence_main && rt run -- check data/licence data/options)
cd "$(dirname "$0")/.." || exit 1
exec python3 -B bench/audit.py "$@"
