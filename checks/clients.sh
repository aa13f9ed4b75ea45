#!/bin/sh
# Runs the clients of examples/clients against the built daemon. Another program may be named.
cd "$(dirname "$0")/.." || exit 1
exec python3 -B checks/clients.py "$@"
