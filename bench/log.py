"""Prints what a push and a take of a log's queue cost together, in nanoseconds: the least of some runs, less that of as many runs of one round."""

import os
import subprocess
import sys
import time

LOG = "crates/desk_bench/out/desk_bench"
ENTRIES, ROUNDS, RUNS = 4096, 500, 7


def seconds(threads, rounds):
    """The least seconds of some runs, in each of which every entry comes out."""
    best = None
    for _ in range(RUNS):
        begun = time.perf_counter()
        told = subprocess.run([LOG, "log", str(threads), str(rounds)], stdout=subprocess.PIPE, check=True)
        spent = time.perf_counter() - begun
        if int(told.stdout) != rounds * ENTRIES:
            sys.exit("an entry was lost")
        best = spent if best is None else min(best, spent)
    return best


def main():
    if not os.access(LOG, os.X_OK):
        sys.exit(f"bench: {LOG} isn't built")
    for threads in (1, 2):
        spent = seconds(threads, ROUNDS + 1) - seconds(threads, 1)
        print(f"{threads} threads: {spent / ROUNDS / ENTRIES * 1e9:.0f} ns for a push and a take")


main()
