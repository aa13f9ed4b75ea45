"""Prints calls a second and processor time a call of both programs, the best of some runs taken in turns, and the ratios."""

import os
import subprocess
import sys
import time

from timing import processor_seconds

LOCK = ("crates/desk_bench/out/desk_bench", "lock")
THREADS = (1, 4, 16, 256)
CALLS = 24_000_000
RUNS = 5
BUSY = 4


def run(program, threads, rounds):
    """Seconds and processor seconds of one run, which has to count each call."""
    worked, begun = processor_seconds(), time.perf_counter()
    told = subprocess.run([*program, str(threads), str(rounds)], stdout=subprocess.PIPE, check=True)
    spent, worked = time.perf_counter() - begun, processor_seconds() - worked
    if int(told.stdout) != threads * rounds:
        sys.exit("a call was lost")
    return spent, worked


def compare(mutex, threads):
    """Best and middle seconds, and least processor seconds, of either program."""
    rounds = CALLS // threads
    runs = {LOCK: [], mutex: []}
    for _ in range(RUNS):
        for program, taken in runs.items():
            taken.append(run(program, threads, rounds))
    figures = []
    for taken in runs.values():
        spent = sorted(seconds for seconds, _ in taken)
        figures.append((spent[0], spent[RUNS // 2], min(worked for _, worked in taken)))
    return figures


def tell(mutex):
    """A line for each number of threads: the lock, then the mutex."""
    print("threads: million calls a second, best (middle), ratio best (middle); ns of processor time a call, ratio")
    for threads in THREADS:
        ours, theirs = compare(mutex, threads)
        rates = [f"{CALLS / best / 1e6:.1f} ({CALLS / middle / 1e6:.1f})" for best, middle, _ in (ours, theirs)]
        faster = f"{theirs[0] / ours[0]:.2f} ({theirs[1] / ours[1]:.2f})"
        work = [f"{worked / CALLS * 1e9:.0f}" for _, _, worked in (ours, theirs)]
        cheaper = f"{theirs[2] / ours[2]:.2f}"
        print(f"{threads}: {' : '.join(rates)}, {faster}; {' : '.join(work)}, {cheaper}", flush=True)


def main():
    mutex, busy = (sys.argv[1],), "busy" in sys.argv[2:]
    if not os.access(LOCK[0], os.X_OK):
        sys.exit(f"bench: {LOCK[0]} isn't built")
    spin = [sys.executable, "-c", "while True: pass"]
    others = [subprocess.Popen(spin) for _ in range(BUSY if busy else 0)]
    try:
        tell(mutex)
    finally:
        for other in others:
            other.kill()
            other.wait()


main()
