#!/bin/sh
# Looks that each function and clause that docs/PROOFS.md names is there.
cd "$(dirname "$0")/.." || exit 1
exec python3 -B checks/ledger.py
