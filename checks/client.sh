#!/bin/sh
# Runs the built licence_client against the built daemon. Other programs may be named: the daemon, and then the client.
cd "$(dirname "$0")/.." || exit 1
exec python3 -B checks/client.py "$@"
