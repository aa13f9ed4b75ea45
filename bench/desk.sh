#!/bin/sh
# How many pairs of a checkout and a check-in 1, 4, 16 and 256 threads make on one desk of 300 licences, beside plain
# Rust with a mutex round a map of the holders and a list of the free seats (bench/peers/seat_map.rs, which rustc
# builds here without a network).
# It wants crates/desk_bench built, as `rt run -- desk 4 500 4` in that folder leaves it.
cd "$(dirname "$0")/.." || exit 1
peer=$(mktemp -d) || exit 1
trap 'rm -rf "$peer"' EXIT
rustc -O bench/peers/seat_map.rs -o "$peer/seat_map" || exit 1
python3 -B bench/desk.py "$peer/seat_map"
