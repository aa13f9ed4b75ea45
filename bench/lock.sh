#!/bin/sh
# How many calls a second 1, 4, 16 and 256 threads make through the ticket lock, beside a plain `Mutex` round the same
# sum (bench/peers/sum_mutex.rs, which rustc builds here without a network).
# It wants crates/desk_bench built, as `rt run -- lock 4 500` in that folder leaves it. `sh bench/lock.sh busy`
# measures while four other programs keep the processors busy.
cd "$(dirname "$0")/.." || exit 1
peer=$(mktemp -d) || exit 1
trap 'rm -rf "$peer"' EXIT
rustc -O bench/peers/sum_mutex.rs -o "$peer/sum_mutex" || exit 1
python3 bench/lock.py "$peer/sum_mutex" "$@"
