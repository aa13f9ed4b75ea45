#!/bin/sh
# Runs the built program as a daemon with clients of several kinds. Another program may be named.
cd "$(dirname "$0")/.." || exit 1
exec python3 -B checks/serve.py "$@"
