#!/bin/sh
# Tries what stands in contrib with the built program. Another program may be named.
cd "$(dirname "$0")/.." || exit 1
exec python3 -B checks/contrib.py "$@"
