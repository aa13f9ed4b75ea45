#!/bin/sh
# Twenty million requests over 64 sessions that come and go, every tenth killed (bench/peers/soak.rs, which rustc
# builds here without a network).
# Build the program first: (cd crates/licence_main && rt run -- check data/licence data/options)
cd "$(dirname "$0")/.." || exit 1
peers=$(mktemp -d) || exit 1
trap 'rm -rf "$peers"' EXIT
rustc -O bench/peers/soak.rs -o "$peers/soak" || exit 1
python3 -B hostile/soak.py "$peers/soak" "$@"
