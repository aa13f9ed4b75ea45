#!/bin/sh
# What a push into a log's queue and a take out of it cost, in one thread and in two.
# It wants crates/desk_bench built, as `rt run -- log 2 2` in that folder leaves it.
cd "$(dirname "$0")/.." || exit 1
python3 -B bench/log.py
