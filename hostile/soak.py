"""Millions of requests over sessions that come and go, every tenth killed: what is resident, how many files are open, and what is left at the
end: `hostile/soak.sh [REQUESTS] [PROGRAM]`."""

import os
import subprocess
import sys
import time

sys.path.insert(0, os.path.join(os.path.dirname(__file__), "..", "checks"))
from daemon import Daemon

CLIENTS = 64
POOLS = 4
OPTIONS = "LINGER f1 2\nMAX 8 f2 USER u1\nRESERVE 2 f3 USER u2\n"
SEATS = 24
# So many requests fill the logs of all pools. They are taken out of their queues within so many seconds, 320 entries a
# second of each, and the room for the 4,096 that each keeps becomes resident meanwhile.
FIRST = 200_000
LOG_SECONDS = 15


def resident(process):
    with open(f"/proc/{process.pid}/status") as file:
        return next(int(line.split()[1]) for line in file if line.startswith("VmRSS:"))


def open_files(process):
    return len(os.listdir(f"/proc/{process.pid}/fd"))


def left(daemon):
    """What STATUS says of each pool, once nobody else is there."""
    with daemon.session("last h d p") as last:
        return [last.ask(f"STATUS f{pool}") for pool in range(POOLS)]


def words(soak, daemon, requests):
    return [soak, daemon.path, str(CLIENTS), str(requests), str(POOLS), "1"]


def fill_logs(soak, daemon):
    subprocess.run(words(soak, daemon, FIRST), stdout=subprocess.DEVNULL, check=True)
    time.sleep(LOG_SECONDS)


def watch(daemon, soaking):
    """Resident memory and open files, every half second while the clients ask."""
    taken = []
    while soaking.poll() is None:
        taken.append((resident(daemon.process), open_files(daemon.process)))
        time.sleep(0.5)
    return taken


def main():
    soak, requests = sys.argv[1], int(sys.argv[2]) if len(sys.argv) > 2 else 20_000_000
    program = os.path.abspath(sys.argv[3] if len(sys.argv) > 3 else "crates/licence_main/out/licence_main")
    licence = "".join(f"FEATURE f{pool} acme 1.0 permanent {SEATS} SIGN=00AB\n" for pool in range(POOLS))
    faults = []
    with Daemon(program, licence, OPTIONS, sessions=CLIENTS + 2) as daemon:
        daemon.is_up()
        time.sleep(1)
        files = open_files(daemon.process)
        fill_logs(soak, daemon)
        begun = time.monotonic()
        with subprocess.Popen(words(soak, daemon, requests), stdout=subprocess.PIPE, text=True) as soaking:
            taken = watch(daemon, soaking)
            told = soaking.stdout.read().split()
        seconds = time.monotonic() - begun
        if soaking.returncode or len(told) != 4:
            sys.exit(f"soak: the clients ended with {soaking.returncode}")
        sent, replies, sessions, killed = map(int, told)
        time.sleep(3)
        ends = left(daemon)
        for pool, status in enumerate(ends):
            if not status.startswith("COUNTS HELD 0 LINGERING 0 "):
                faults.append(f"pool {pool} at the end: {status}")
        files_left = open_files(daemon.process)
        status, log, err = daemon.stopped()
        if (status, err) != (0, ""):
            faults.append(f"the end: {status} {err}")
        status, said = daemon.audited(log)
        if not said.startswith("YES"):
            faults.append(f"audit: {said.splitlines()[0]}")
    early = max(kilobytes for kilobytes, _ in taken[: max(len(taken) // 10, 2)])
    most = max(kilobytes for kilobytes, _ in taken)
    print(f"{sent} requests, {replies} replies, {sessions} sessions of which {killed} were killed, in {seconds:.0f} s")
    print(f"resident: {early} KB in the first tenth, {most} KB at most; open files: {files} before, {max(n for _, n in taken)} at most, {files_left} after")
    if most > early * 1.05:
        faults.append("resident memory grew by more than 5 %")
    if files_left > files + 1:
        faults.append("files stay open")
    if replies < sent:
        faults.append("replies are missing")
    for fault in faults:
        print("FAULT", fault)
    sys.exit(1 if faults else 0)


main()
