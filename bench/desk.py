"""Prints pairs of a checkout and a check-in a second on one desk, beside a map behind a mutex, the best of some runs taken in turns, and the ratio."""

import os
import subprocess
import sys
import time

DESK = ("crates/desk_bench/out/desk_bench", "desk")
THREADS = (1, 4, 16, 256)
PAIRS = 1_000_000
SEATS = 300
RUNS = 5


def seconds(program, threads, parties):
    """Seconds of one run, which has to grant each seat that is asked for."""
    rounds = PAIRS // parties
    begun = time.perf_counter()
    told = subprocess.run([*program, str(threads), str(rounds), str(SEATS)], stdout=subprocess.PIPE, check=True)
    spent = time.perf_counter() - begun
    if int(told.stdout) != parties * rounds:
        sys.exit("a grant was lost")
    return spent


def main():
    peer = (sys.argv[1],)
    if not os.access(DESK[0], os.X_OK):
        sys.exit(f"bench: {DESK[0]} isn't built")
    print("threads: million pairs a second, desk and map, ratio of the best and of the middle")
    for threads in THREADS:
        runs = {DESK: [], peer: []}
        for _ in range(RUNS):
            for program, taken in runs.items():
                taken.append(seconds(program, threads, max(threads, 2) if program == DESK else threads))
        ours, theirs = (sorted(taken) for taken in runs.values())
        middle = RUNS // 2
        print(f"{threads}: {PAIRS / ours[0] / 1e6:.2f} {PAIRS / theirs[0] / 1e6:.2f} {theirs[0] / ours[0]:.2f} {theirs[middle] / ours[middle]:.2f}", flush=True)


main()
