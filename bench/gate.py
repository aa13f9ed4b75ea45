"""Prints, for the tree and for the gate, the most pairs a second and the least processor time a pair of five runs that alternate."""
import os
import resource
import subprocess
import sys
import time

TREE = sys.argv[1] if len(sys.argv) > 1 else "crates/desk_bench/out/desk_bench"
GATE = sys.argv[2] if len(sys.argv) > 2 else "crates/desk_bench/out/desk_bench"
RUNS = 5
HALF_A_SECOND = 0.5


def processor_seconds():
    usage = resource.getrusage(resource.RUSAGE_CHILDREN)
    return usage.ru_utime + usage.ru_stime


def run(words, threads, rounds):
    """Seconds, processor seconds and what was told, of one run that has to count each pair."""
    began, used = time.perf_counter(), processor_seconds()
    told = subprocess.run(words + [str(threads), str(rounds)], stdout=subprocess.PIPE, check=True).stdout.split()
    spent = time.perf_counter() - began, processor_seconds() - used
    if int(told[0]) != threads * rounds:
        sys.exit("a pair was lost")
    return *spent, told


def rounds_of(words, threads):
    """As many rounds a thread as take about half a second."""
    rounds = 64
    while run(words, threads, rounds)[0] < HALF_A_SECOND / 2 and rounds < 1 << 24:
        rounds *= 2
    return rounds


def told_of(kind, runs, pairs):
    rate = max(pairs / seconds for seconds, _, _ in runs)
    cost = min(used / pairs for _, used, _ in runs) * 1e9
    return rate, f"{kind} {rate:,.0f} ({cost:,.0f} ns)"


for path in (TREE, GATE):
    if not os.access(path, os.X_OK):
        sys.exit(f"bench: {path} isn't built")
for n, k in [(16, 4), (64, 4), (240, 16)]:
    for threads in (1, 4, 16):
        tree, gate = [TREE, "tree", str(n), str(k)], [GATE, "gate", str(n), str(k)]
        of_tree, of_gate = rounds_of(tree, threads), rounds_of(gate, threads)
        runs = [(run(tree, threads, of_tree), run(gate, threads, of_gate)) for _ in range(RUNS)]
        tree_rate, tree_told = told_of("tree", [t for t, _ in runs], threads * of_tree)
        gate_rate, gate_told = told_of("gate", [g for _, g in runs], threads * of_gate)
        fast = sum(int(g[2][2]) for _, g in runs) / (RUNS * threads * of_gate)
        print(f"({n}, {k}) {threads} threads: {tree_told}, {gate_told}, {fast:.0%} fast, ratio {gate_rate / tree_rate:.2f}")
