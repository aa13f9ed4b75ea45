"""Prints what a daemon serves beside a bare echo server and a small daemon in plain Rust, what it takes at rest, and how soon it answers."""

import os
import subprocess
import sys
import tempfile
import time
from contextlib import ExitStack, contextmanager
from random import sample

sys.path.insert(0, "checks")
from daemon import Daemon

CLIENTS = (1, 16, 256)
RUNS = 5
STARTS = 6
TURNS = 2
MILLISECONDS = 1000
BEFORE = 1000
DISTURBED = 0.03
TRIES = 8
ECHO = "the echo"
PERMANENT = "FEATURE f{} acme 1.0 permanent 300 SIGN=00AB\n"
SITES = {
    "one pool": (1, ""),
    "64 pools": (64, ""),
    "1,000 EXCLUDE lines": (1, "".join(f"EXCLUDE f0 USER nobody{n}\n" for n in range(1000))),
    "1,000 INCLUDE lines, those of the clients last": (1, "".join(f"INCLUDE f0 USER u{n}\n" for n in reversed(range(1000)))),
    "64 pools, 1,000 EXCLUDE lines over them": (64, "".join(f"EXCLUDE f{n % 64} USER nobody{n}\n" for n in range(1000))),
}
PLAIN = {site: f"plain Rust, {site}" for site in SITES}
TICKS = os.sysconf("SC_CLK_TCK")


def mean(numbers):
    return sum(numbers) / len(numbers)


def ask(peers, path, clients, pools, milliseconds, before=0):
    """Requests a second, and three percentiles of the time to an answer in microseconds, once all have asked for so long before."""
    words = [f"{peers}/ask", path, str(clients), str(milliseconds), str(pools), str(before)]
    told = subprocess.run(words, stdout=subprocess.PIPE, check=True)
    return [float(word) for word in told.stdout.split()]


def processors():
    """The time of all processors so far, and the part of it that others on the machine took."""
    with open("/proc/stat") as file:
        times = [int(word) for word in file.readline().split()[1:9]]
    return sum(times), times[7]


def turn(*words):
    """What others took of the processors in a turn, and what `ask` told of it: of the first turn in which they took little, or of the least disturbed."""
    turns = []
    for _ in range(TRIES):
        whole, others = processors()
        figures = ask(*words)
        whole_then, others_then = processors()
        turns.append(((others_then - others) / (whole_then - whole), figures))
        if turns[-1][0] <= DISTURBED:
            break
    return min(turns)


@contextmanager
def peer(peers, name, *words, options=None):
    """The socket of a server in plain Rust, which may have an options file."""
    with tempfile.TemporaryDirectory() as folder:
        path, named = f"{folder}/socket", []
        if options is not None:
            named = [f"{folder}/options"]
            with open(named[0], "w") as file:
                file.write(options)
        server = subprocess.Popen([f"{peers}/{name}", path, *words, *named])
        try:
            while not os.path.exists(path):
                time.sleep(0.001)
            yield path
        finally:
            server.kill()
            server.wait()


@contextmanager
def daemon(program, clients, pools, options):
    """The socket of a daemon on such a site."""
    licence = "".join(PERMANENT.format(n) for n in range(pools))
    with Daemon(program, licence, options, sessions=min(clients + 1, 256)) as served:
        served.is_up()
        yield served.path
        status, _, err = served.stopped()
        if status:
            sys.exit(f"bench: status {status}, {err}")


def all_up(up, program, peers, clients):
    """The name, the socket and the pools of each server, the echo first: the peers and a daemon on each site, as long as `up` is open."""
    servers = [(ECHO, up.enter_context(peer(peers, "echo")), 1)]
    for site, (pools, options) in SITES.items():
        servers.append((site, up.enter_context(daemon(program, clients, pools, options)), pools))
        servers.append((PLAIN[site], up.enter_context(peer(peers, "plain", str(pools), options=options)), pools))
    return servers


def asked(program, peers, clients, turns, milliseconds, before=BEFORE):
    """Of each server, all started for this, the figures of its turns, each turn of all in an order of its own; and the most that others took in one."""
    with ExitStack() as up:
        servers = all_up(up, program, peers, clients)
        found = {name: [] for name, _, _ in servers}
        most_taken = 0
        for _ in range(turns):
            for name, path, pools in sample(servers, len(servers)):
                taken, figures = turn(peers, path, clients, pools, milliseconds, before)
                found[name].append(figures)
                most_taken = max(most_taken, taken)
    return found, most_taken


def run(program, peers, clients):
    """Of the peers and the daemon on each site the mean of what the turns of all starts found, and the most that others took in one."""
    starts, taken = zip(*(asked(program, peers, clients, TURNS, MILLISECONDS) for _ in range(STARTS)))
    found = {name: [turn for start in starts for turn in start[name]] for name in starts[0]}
    return {name: [mean(figure) for figure in zip(*turns)] for name, turns in found.items()}, max(taken)


def best(runs):
    """The most requests a second, and the least of each percentile."""
    return [max(run[0] for run in runs), *(min(run[n] for run in runs) for n in (1, 2, 3))]


def parts(runs, others):
    """Of another's requests a second, the best of the best and the mean of the mean."""
    means = [mean([run[0] for run in each]) for each in (runs, others)]
    return f"{best(runs)[0] / best(others)[0]:.2f} {means[0] / means[1]:.2f}"


def line_of(name, found):
    """Requests a second, the best and the mean, and what these are of the echo's and of plain Rust's; the percentiles, and what the 99th is of the echo's."""
    runs, echoes = found[name], found[ECHO]
    rate, p50, p99, p999 = best(runs)
    plain = f"; of plain Rust's {parts(runs, found[PLAIN[name]])}" if name in PLAIN else ""
    usual = mean([run[0] for run in runs])
    return f"{rate:.0f} {usual:.0f}, of the echo's {parts(runs, echoes)}{plain}; {p50:.1f} {p99:.1f} {p999:.1f}, {p99 / best(echoes)[2]:.2f}"


def compare(program, peers):
    """The peers and the daemon on each site."""
    print("clients: requests a second, the best and the mean, and what they are of others'; p50, p99, p999 in us, and p99 of the echo's")
    for clients in CLIENTS:
        runs, taken = zip(*(run(program, peers, clients) for _ in range(RUNS)))
        found = {name: [it[name] for it in runs] for name in runs[0]}
        for name in found:
            print(f"{clients}, {name}: {line_of(name, found)}", flush=True)
        print(f"{clients}: others took {max(taken) * 100:.1f} % of the processors in a turn, at most", flush=True)


def status_of(process, field):
    with open(f"/proc/{process.pid}/status") as file:
        return next(line.split()[1] for line in file if line.startswith(field + ":"))


def ticks(process):
    with open(f"/proc/{process.pid}/stat") as file:
        fields = file.read().rpartition(")")[2].split()
    return int(fields[11]) + int(fields[12])


def at_rest(program):
    """On the site of examples/site: what is resident, what an idle daemon works, and how soon the first answer comes."""
    texts = [open(f"examples/site/{name}").read() for name in ("licence", "options")]
    for sessions in (16, 256):
        begun = time.monotonic()
        with Daemon(program, *texts, sessions=sessions) as served:
            served.is_up()
            with served.session() as asked:
                reply = asked.ask("QUIT")
            first = time.monotonic() - begun
            if reply != "BYE":
                sys.exit(f"bench: QUIT was answered {reply}")
            links = [served.session("u h d p") for _ in range(sessions)]
            resident = int(status_of(served.process, "VmRSS"))
            before = ticks(served.process)
            time.sleep(10)
            worked = (ticks(served.process) - before) / TICKS
            print(f"{sessions} sessions: {resident} KB resident, {worked:.2f} s of processor time in 10 s at rest, first answer after {first * 1000:.1f} ms", flush=True)
            for link in links:
                link.close()


def words():
    """The folder of the peers, and the program."""
    peers = sys.argv[1]
    program = os.path.abspath(sys.argv[2] if len(sys.argv) > 2 else "crates/licence_main/out/licence_main")
    if not os.access(program, os.X_OK):
        sys.exit(f"bench: {program} isn't built")
    return peers, program


def main():
    peers, program = words()
    at_rest(program)
    compare(program, peers)


if __name__ == "__main__":
    main()
