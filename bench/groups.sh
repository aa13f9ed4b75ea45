#!/bin/sh
# Times `replay` on options files with long groups: 4,096 users who take a seat and give it back, once each, under a MAX line
# of a group of 1,000, with a linger time; 4,000 EXCLUDE lines of a group of 65,536, with 20 users in the queue; and 64 pools
# under an options file at its limits, and under four of them, whose rule lines are MAX lines over 63 features, MAX lines of
# one feature, or EXCLUDEALL lines. It prints the time a line of the first two, and time and resident memory of the others,
# and ends with 0 only where no line takes over 5 ms and none of the others with one options file 0.2 s. Another program may
# be named.
# Build the program first: (cd crates/licence_main && rt run -- check data/licence data/options)
cd "$(dirname "$0")/.." || exit 1
exec python3 -B bench/groups.py "$@"
