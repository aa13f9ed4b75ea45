"""Prints what the book by rows costs: seconds of processor time, the least of some runs that are taken in turns."""

import os
import subprocess
import sys
import tempfile

PROGRAM = "crates/licence_main/out/licence_main"
RUNS = 15
MIB = 1_048_576
EVENTS = 1_000_000
LICENCE = "FEATURE bench v 1.0 permanent {}\n"
OPTIONS = (
    "GROUP even u0 u2 u4 u6\nEXCLUDE bench USER u7\nRESERVE 1 bench USER u1\n"
    "MAX 2 bench GROUP even\nLINGER bench 40\nTIMEOUT bench 900\n"
)
VERBS = ("CHECKOUT", "CHECKIN", "BEAT", "LOOK")
# So many lines are measured, by a script with so many more than another.
LINES = 20_000


def write(name, text):
    with open(name, "w") as file:
        file.write(text)


def run(words):
    """Processor seconds of one run, and what it wrote."""
    child = subprocess.Popen(words, stdout=subprocess.PIPE, stderr=subprocess.PIPE)
    out = child.stdout.read()
    _, status, used = os.wait4(child.pid, 0)
    child.returncode = os.waitstatus_to_exitcode(status)
    if child.returncode != 0:
        sys.exit(f"bench: status {child.returncode} of {' '.join(words)}: {child.stderr.read().decode()}")
    return used.ru_utime + used.ru_stime, out


def least(*commands):
    """The least seconds of each of these commands, which are run in turns and all write the same."""
    best = [None] * len(commands)
    for _ in range(RUNS):
        outs = set()
        for i, words in enumerate(commands):
            taken, out = run(words)
            best[i] = taken if best[i] is None else min(best[i], taken)
            outs.add(out)
        if len(outs) > 1:
            sys.exit("bench: the programs write different texts")
    return best


def event(i):
    """A line of a script: event i of the trial."""
    mixed = i * 2654435761 % 2**32
    party, verb = mixed >> 28, VERBS[(mixed >> 24) % 4]
    version = " 1.0" if verb == "CHECKOUT" else ""
    return f"{10 * i} {party} u{party % 8} h{party} d p {verb} bench{version}\n"


def events_of(size):
    """As many events as this many bytes hold."""
    lines, left = [], size
    while len(event(len(lines))) <= left:
        lines.append(event(len(lines)))
        left -= len(lines[-1])
    return "".join(lines)


def beside_the_peer(ours, theirs):
    taken = least([PROGRAM, "trial-replay", str(EVENTS)], [theirs, "trial", str(EVENTS)])
    print(f"trial-replay {EVENTS}: {taken[0] * 1000:.1f} ms, plain Rust {taken[1] * 1000:.1f} ms, ratio {taken[0] / taken[1]:.2f}", flush=True)
    write("licence", LICENCE.format(4))
    write("options", OPTIONS)
    write("script", events_of(MIB))
    taken = least(ours("script"), [theirs, "replay", "script"])
    print(f"replay of 1 MiB: {taken[0] * 1000:.1f} ms, plain Rust {taken[1] * 1000:.1f} ms, ratio {taken[0] / taken[1]:.2f}", flush=True)
    write("half", events_of(MIB // 2))
    full, half = least(ours("script"))[0], least(ours("half"))[0]
    print(f"replay of 1 MiB and of half: {full * 1000:.1f} ms, {half * 1000:.1f} ms, ratio {full / half:.2f}", flush=True)


def line(at, party, user, verb):
    words = "bench 1.0" if verb in ("CHECKOUT", "QUEUE") else "bench"
    return f"{at} {party} u{user} h d p {verb} {words}\n"


def cost(ours, count, options, before, round_of):
    """Microseconds of a line of rounds, each of which gives the lines of its number, behind these lines."""
    write("licence", LICENCE.format(count))
    write("options", options)
    for name, rounds in (("few", 0), ("many", LINES)):
        lines, i = [], 0
        while len(lines) < rounds:
            lines += round_of(i)
            i += 1
        write(name, before + "".join(lines))
    few, many = (least(ours(name))[0] for name in ("few", "many"))
    return (many - few) / LINES * 1e6


def steps(ours):
    for entries in (16, 256, 4096):
        before = "".join(line(0, 0, i, verb) for i in range(entries) for verb in ("CHECKOUT", "CHECKIN")) + line(0, 1, "x", "CHECKOUT")
        options = "LINGER bench 900000\n"
        full = cost(ours, entries + 1, options, before, lambda i: [line(1, 2, "y", "CHECKOUT")])
        again = cost(ours, entries + 1, options, before, lambda i: [line(1, 0, i % entries, verb) for verb in ("CHECKOUT", "CHECKIN")])
        print(f"{entries} lingering: NOSEAT {full:.2f} us, RETAKEN or LINGERING {again:.2f} us", flush=True)
    for holders in (1, 16, 256):
        before = "".join(line(0, i, i, "CHECKOUT") for i in range(holders))
        options = "TIMEOUT bench 900000\n"
        beat = cost(ours, 300, options, before, lambda i: [line(1, i % holders, i % holders, "BEAT")])
        pair = cost(ours, 300, options, before, lambda i: [line(1, i % holders, i % holders, verb) for verb in ("CHECKIN", "CHECKOUT")])
        print(f"{holders} holders: BEATEN {beat:.2f} us, RETURNED or GRANTED {pair:.2f} us", flush=True)
    for members in (16, 1024, 65536):
        rows = "".join("GROUP g " + " ".join(f"u{i}" for i in range(at, min(at + 1024, members))) + "\n" for at in range(0, members, 1024))
        options = rows + "MAX 200 bench GROUP g\n"
        pair = cost(ours, 300, options, "", lambda i: [line(1, 0, i % members, verb) for verb in ("CHECKOUT", "CHECKIN")])
        print(f"a group of {members}: GRANTED or RETURNED {pair:.2f} us", flush=True)
    for waiting in (0, 16, 250):
        parties = waiting + 1
        before = line(0, 0, 0, "CHECKOUT") + "".join(line(0, i, i, "QUEUE") for i in range(1, parties))
        beat = cost(ours, 1, "", before, lambda i: [line(1, 0, 0, "BEAT")])
        turn = cost(ours, 1, "", before, lambda i: [line(1, i % parties, i % parties, verb) for verb in ("CHECKIN", "QUEUE")])
        print(f"{waiting} waiting: BEATEN {beat:.2f} us, RETURNED or QUEUED {turn:.2f} us", flush=True)


def memory(peak, ours):
    write("options", "LINGER bench 40\n")
    write("script", line(0, 0, 0, "CHECKOUT"))
    for count in (4, 256, 65535):
        write("licence", LICENCE.format(count))
        print(f"a pool of {count}: {int(run([peak, *ours('script')])[1])} KiB", flush=True)


def main():
    global PROGRAM
    theirs, peak = (f"{sys.argv[1]}/{name}" for name in ("book", "peak"))
    PROGRAM = os.path.abspath(sys.argv[2] if len(sys.argv) > 2 else PROGRAM)
    if not os.access(PROGRAM, os.X_OK):
        sys.exit(f"bench: {PROGRAM} isn't built")
    def ours(script):
        return [PROGRAM, "replay", "licence", "options", script]
    with tempfile.TemporaryDirectory() as folder:
        os.chdir(folder)
        beside_the_peer(ours, theirs)
        steps(ours)
        memory(peak, ours)


main()
