"""Stops single threads of the daemon, as a debugger does, until some stood in a desk's turn: `python3 hostile/stopped.py [TURNS] [SEED] [PROGRAM]`.

Eight sessions ask one desk without pause. One thread of the daemon after another is stopped. Where nobody is answered at the desk any more, the
thread stands in its turn there, or waits in front of it with a ticket that is served. It stays so for a second. Then

- nobody is answered at that desk, and the other desk and the glances at this one go on;
- once the thread goes on, everybody is answered again;
- no place of the desk's history is given twice, and a session's places rise;
- at the end the log is one that `audit` answers YES to, and the cards of the seats were used as often as a seat was granted.

It has to be allowed to trace the daemon, as the user who started it mostly is."""

import ctypes
import os
import random
import re
import sys
import threading
import time

sys.path.insert(0, os.path.join(os.path.dirname(__file__), "..", "checks"))
from daemon import Daemon

SESSIONS = 8
LICENCE = "FEATURE edit acme 1.0 permanent 3 SIGN=00AB\nFEATURE draw acme 1.0 permanent 3 SIGN=00AB\n"
LINES = b"CHECKOUT edit 1.0\nCHECKIN edit\n" * 60
PLACE = re.compile(rb"#(\d+)$")
SEIZE, INTERRUPT, DETACH, ANY_THREAD = 0x4206, 0x4207, 17, 0x40000000
STILL, STOPPED = 0.1, 1.0
ATTEMPTS = 20_000

libc = ctypes.CDLL(None, use_errno=True)
libc.ptrace.argtypes = (ctypes.c_long, ctypes.c_long, ctypes.c_void_p, ctypes.c_void_p)
libc.ptrace.restype = ctypes.c_long


def trace(request, thread):
    if libc.ptrace(request, thread, None, None) != 0:
        raise OSError(ctypes.get_errno(), "ptrace")


class Stop:
    """A thread that stands still."""

    def __init__(self, thread):
        self.thread = thread

    def __enter__(self):
        trace(SEIZE, self.thread)
        trace(INTERRUPT, self.thread)
        os.waitpid(self.thread, ANY_THREAD)

    def __exit__(self, *_):
        trace(DETACH, self.thread)


class Asker(threading.Thread):
    """A session that asks the desk without pause, and keeps the places of its replies."""

    def __init__(self, daemon, number):
        super().__init__(daemon=True)
        self.session = daemon.session(f"u{number} h{number} d p")
        self.places, self.over = [], threading.Event()

    def run(self):
        while not self.over.is_set():
            self.session.link.sendall(LINES)
            for _ in range(LINES.count(b"\n")):
                self.places.append(int(PLACE.search(self.session.line().encode())[1]))
        self.session.ask("QUIT")
        self.session.close()


def answered(askers):
    return sum(len(asker.places) for asker in askers)


def stands_still(askers, seconds):
    """Whether nobody is answered for so long."""
    before, end = answered(askers), time.monotonic() + seconds
    while time.monotonic() < end:
        time.sleep(0.002)
        if answered(askers) != before:
            return False
    return True


def goes_on(askers):
    """Whether each session is answered again."""
    before = [len(asker.places) for asker in askers]
    end = time.monotonic() + 20
    while time.monotonic() < end:
        if all(len(asker.places) > count for asker, count in zip(askers, before)):
            return True
        time.sleep(0.01)
    return False


def look(others, faults):
    """The other desk, and glances at the one that stands, while it does."""
    for request, wanted in (("CHECKOUT draw 1.0", "GRANTED SEAT 0 OPEN"), ("CHECKIN draw", "RETURNED"), ("GLANCE edit", "GLANCE FRONT")):
        reply = others.ask(request)
        if not (reply or "").startswith(wanted):
            faults.append(f"{request}: {reply}")


def stop_one(thread, askers, others, faults):
    """Stops a thread, and says whether that stood in the desk's turn."""
    with Stop(thread):
        time.sleep(0.005)
        if not stands_still(askers, STILL):
            return False
        look(others, faults)
        stood = stands_still(askers, STOPPED)
        look(others, faults)
    if not stood:
        faults.append("somebody was answered in another's turn")
    if not goes_on(askers):
        faults.append("not everybody was answered afterwards")
    return True


def check_places(askers, faults):
    seen = set()
    for asker in askers:
        if any(later <= place for place, later in zip(asker.places, asker.places[1:])):
            faults.append("a session's places don't rise")
        seen.update(asker.places)
    if len(seen) != answered(askers):
        faults.append("a place was given twice")


def check_end(daemon, calls, faults):
    status, log, err = daemon.stopped()
    if (status, err) != (0, ""):
        faults.append(f"the end: {status} {err}")
    status, said = daemon.audited(log)
    if status != 0 or not said.startswith("YES"):
        faults.append(f"audit: {status} {said.splitlines()[0]}")
    for tally in re.findall(r"^TALLY (\d+) CALLS (\d+) GRANTS (\d+) CARD USES (\d+)$", log, re.M):
        pool, made, grants, uses = map(int, tally)
        if grants != uses or pool == 0 and made < calls:
            faults.append(f"the tally: {tally}")


def main():
    turns = int(sys.argv[1]) if len(sys.argv) > 1 else 10
    seed = int(sys.argv[2]) if len(sys.argv) > 2 else random.randrange(1_000_000)
    program = os.path.abspath(sys.argv[3] if len(sys.argv) > 3 else "crates/licence_main/out/licence_main")
    randoms, faults, found, attempts = random.Random(seed), [], 0, 0
    with Daemon(program, LICENCE, sessions=SESSIONS + 2) as daemon:
        if not daemon.is_up():
            sys.exit(f"stopped: {daemon.ended()}")
        askers = [Asker(daemon, number) for number in range(SESSIONS)]
        with daemon.session("otto h d p") as others:
            for asker in askers:
                asker.start()
            while found < turns and attempts < ATTEMPTS and not faults:
                attempts += 1
                threads = os.listdir(f"/proc/{daemon.process.pid}/task")
                found += stop_one(int(randoms.choice(threads)), askers, others, faults)
            for asker in askers:
                asker.over.set()
            for asker in askers:
                asker.join()
        check_places(askers, faults)
        check_end(daemon, answered(askers), faults)
    if found < turns:
        faults.append(f"{attempts} stops, and only {found} in a turn")
    print(f"seed {seed}: {attempts} stops, {found} of them in a turn, {answered(askers)} calls of the desk")
    for fault in faults[:20]:
        print("FAULT", fault)
    sys.exit(1 if faults else 0)


main()
