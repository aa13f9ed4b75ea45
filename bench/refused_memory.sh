#!/bin/sh
# Makes each allocation of the built programs fail in turn. The offline commands on the example sites, `trial-threads`, `licence_lint` and
# `licence_client` have to end by status 8, the line `no memory` and nothing on standard output, or as ever where they can do without what was
# refused; `serve` too, or it answers a client, ends by SHUTDOWN and leaves its log as ever. `trial-threads` and `serve` may also say that there
# was no room for a session (status 9). Past the last allocation each ends as ever. It prints how many allocations there were, and how often
# each end came of a refused one. It needs a C compiler, for a small library that refuses one call of malloc or realloc. Another licence_main
# may be named; licence_lint and licence_client are taken from beside it.
# Build the three programs first: (cd crates/licence_main && rt run -- check data/licence data/options), and so the two others.
cd "$(dirname "$0")/.." || exit 1
exec python3 -B bench/refused_memory.py "$@"
