#!/bin/sh
# What the daemon serves, 1, 16 and 256 clients that ask CHECKOUT and CHECKIN in turn, beside a bare echo server and a
# small licence daemon in plain Rust with a thread for each connection (bench/peers/echo.rs, plain.rs and ask.rs, which
# rustc builds here without a network), at one pool, at 64, and under 1,000 lines of options; and what the daemon takes
# at rest. In each turn all clients ask for a second before it counts, and then for one that counts. A turn in which others
# took more than 3 % of the processors is asked again, up to seven times. A run is six starts of all servers with two turns
# each; it prints the best of five runs, after an hour and a half where others take little.
# `serve.sh turns`: 16 and 256 clients in many short turns of servers that are started anew twelve times, and of each server
# the mean of its parts of the echo's requests in the same turns, with its error, and how much of a best of five starts is
# luck; it takes an hour. `serve.sh first`: the same counted from the first request on, in half an hour. `serve.sh one`: the
# same where all share one processor, with 4 and 64 clients.
# Build the program first: (cd crates/licence_main && rt run -- check data/licence data/options)
cd "$(dirname "$0")/.." || exit 1
peers=$(mktemp -d) || exit 1
trap 'rm -rf "$peers"' EXIT
for peer in echo plain ask; do
    rustc -O "bench/peers/$peer.rs" -o "$peers/$peer" || exit 1
done
bench=serve
case $1 in turns | first | one)
    bench=$1
    shift
    ;;
esac
python3 -B "bench/$bench.py" "$peers" "$@"
