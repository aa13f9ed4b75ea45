#!/bin/sh
# What the book by rows costs, by the built program: `trial-replay` of a million events, and `replay` of a script of 1 MiB, each beside
# the same in plain Rust with hash maps (bench/peers/book.rs, which rustc builds here without a network); a script of twice the length;
# a line of `replay` with many lingering seats, holders, members and waiting parties; and memory. Another program may be named.
# Build the program first: (cd crates/licence_main && rt run -- trial-replay 8)
cd "$(dirname "$0")/.." || exit 1
peer=$(mktemp -d) || exit 1
trap 'rm -rf "$peer"' EXIT
for program in book peak; do
    rustc -O "bench/peers/$program.rs" -o "$peer/$program" || exit 1
done
python3 -B bench/book.py "$peer" "$@"
