"""Prints pairs a second, the most of five runs, and resident memory by GNU time, the middle of nine runs."""
import subprocess
import sys
import time

PROGRAM = sys.argv[1] if len(sys.argv) > 1 else "crates/desk_bench/out/desk_bench"


def words(kind, n, k, threads, rounds):
    return [PROGRAM, kind, str(n), str(k), str(threads), str(rounds)]


def seconds(kind, n, k, threads, rounds):
    """The time of one run, which has to count each pair."""
    begun = time.perf_counter()
    told = subprocess.run(words(kind, n, k, threads, rounds), stdout=subprocess.PIPE, check=True)
    spent = time.perf_counter() - begun
    if int(told.stdout) != threads * rounds:
        sys.exit("a pair was lost")
    return spent


def rate(kind, n, k, threads):
    """Pairs a second, by as many rounds as take about half a second."""
    rounds = 64
    while seconds(kind, n, k, threads, rounds) < 0.25 and rounds < 1 << 24:
        rounds *= 2
    return max(threads * rounds / seconds(kind, n, k, threads, rounds) for _ in range(5))


def memory(kind, n, k):
    told = [
        subprocess.run(
            ["/usr/bin/time", "-f", "%M"] + words(kind, n, k, 0, 0),
            stdout=subprocess.DEVNULL,
            stderr=subprocess.PIPE,
            check=True,
        ).stderr
        for _ in range(9)
    ]
    return sorted(map(int, told))[4]


for n, k in [(16, 4), (256, 16)]:
    for kind in ["chain", "tree"]:
        rates = [round(rate(kind, n, k, threads)) for threads in (1, 4, 16)]
        print(f"{kind}({n}, {k})", *rates)
for kind, n, k in [("chain", 2, 2), ("chain", 256, 65535), ("chain", 256, 16), ("tree", 256, 16)]:
    print(f"{kind}({n}, {k}) {memory(kind, n, k)} KB")
