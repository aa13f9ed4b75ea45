#!/bin/sh
# What two daemons serve beside one, and what a forwarder between clients and a daemon costs: bench/peers/ask.rs asks,
# which rustc builds here without a network, and systemd-socket-proxyd forwards.
# Build the program first: (cd crates/licence_main && rt run -- check data/licence data/options)
cd "$(dirname "$0")/.." || exit 1
peers=$(mktemp -d) || exit 1
trap 'rm -rf "$peers"' EXIT
rustc -O bench/peers/ask.rs -o "$peers/ask" || exit 1
python3 -B bench/scale.py "$peers" "$@"
