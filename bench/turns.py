"""Prints what a daemon serves beside a bare echo server and a small daemon in plain Rust, by many short turns of servers that are started anew."""

from random import choices
from statistics import mean, median, stdev

from serve import BEFORE, ECHO, SITES, asked, words

CLIENTS = (16, 256)
RUNS = 12
TURNS = 5
MILLISECONDS = 500
WANTED = 0.8
DRAWS = 4000
DRAWN = 5


def with_error(parts):
    """A mean, and its error."""
    return f"{mean(parts):.3f} +- {stdev(parts) / len(parts) ** 0.5:.3f}"


def line_of(name, runs):
    """What a server's requests are of the echo's in the same turns, and in how many runs the best of its turns had what is wanted of the best of the echo's."""
    parts = [mean(figures[0] / echo[0] for figures, echo in zip(found[name], found[ECHO])) for found in runs]
    bests = [max(figures[0] for figures in found[name]) / max(echo[0] for echo in found[ECHO]) for found in runs]
    p99 = {of: median(figures[2] for found in runs for figures in found[of]) for of in (name, ECHO)}
    enough = sum(WANTED <= best for best in bests)
    return f"{with_error(parts)} of the echo's requests, the best {with_error(bests)}, {enough} of {len(runs)} times {WANTED}; {p99[name] / p99[ECHO]:.2f} of its p99"


def luck(names, runs):
    """Of a hundred draws of five of the runs, in how many the best run of each of these servers had what is wanted of the echo's best."""
    rates = [{name: mean(figures[0] for figures in found[name]) for name in (ECHO, *names)} for found in runs]
    enough = 0
    for _ in range(DRAWS):
        drawn = choices(rates, k=DRAWN)
        best = {name: max(run[name] for run in drawn) for name in drawn[0]}
        enough += all(WANTED * best[ECHO] <= best[name] for name in names)
    return enough * 100 / DRAWS


def compare(program, peers, clients, before=BEFORE):
    """Asks all servers, which are started anew for each run."""
    runs, taken = zip(*(asked(program, peers, clients, TURNS, MILLISECONDS, before) for _ in range(RUNS)))
    for name in runs[0]:
        print(f"{clients}, {name}: {line_of(name, runs)}", flush=True)
    each = [luck([site], runs) for site in SITES]
    print(f"{clients}: the best of {DRAWN} starts drawn has {WANTED} in {min(each):.0f} to {max(each):.0f} of 100 draws at one site, at all in {luck(SITES, runs):.0f}", flush=True)
    print(f"{clients}: others took {max(taken) * 100:.1f} % of the processors in a turn, at most", flush=True)


def main():
    peers, program = words()
    for clients in CLIENTS:
        compare(program, peers, clients)


if __name__ == "__main__":
    main()
