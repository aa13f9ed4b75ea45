"""Prints what two daemons serve beside one, and what one serves through a forwarder, and through two with TCP between."""

import contextlib
import os
import shutil
import socket
import subprocess
import sys
import tempfile
import time
from concurrent.futures import ThreadPoolExecutor

from serve import PERMANENT, ask, best

sys.path.insert(0, "checks")
from daemon import Daemon

CLIENTS = (1, 16, 128)
RUNS = 3
MILLISECONDS = 1500
PATIENCE = 10
PROXY = "/lib/systemd/systemd-socket-proxyd"
ACTIVATE = "systemd-socket-activate"


@contextlib.contextmanager
def daemons(program, count, pools):
    """Daemons, each of so many pools, that are stopped at the end."""
    licence = "".join(PERMANENT.format(n) for n in range(pools))
    with contextlib.ExitStack() as running:
        served = [running.enter_context(Daemon(program, licence, sessions=256)) for _ in range(count)]
        for each in served:
            each.is_up()
        yield served
        for each in served:
            status, _, err = each.stopped()
            if status:
                sys.exit(f"bench: status {status}, {err}")


def asked_at_once(peers, served, clients, pools):
    """What clients at all daemons get at once: requests a second in all, and of each percentile the larger one."""
    with ThreadPoolExecutor() as at_once:
        found = list(at_once.map(lambda each: ask(peers, each.path, clients, pools, MILLISECONDS), served))
    return [sum(it[0] for it in found), *(max(it[n] for it in found) for n in (1, 2, 3))]


def free_port():
    with socket.socket() as found:
        found.bind(("127.0.0.1", 0))
        return f"127.0.0.1:{found.getsockname()[1]}"


def connected(near):
    """A connection to the path of a socket, or to a host and a port."""
    host, colon, port = near.partition(":")
    link = socket.socket(socket.AF_INET if colon else socket.AF_UNIX, socket.SOCK_STREAM)
    try:
        link.connect((host, int(port)) if colon else near)
    except OSError:
        link.close()
        raise
    return link


def wait_for(near):
    end = time.monotonic() + PATIENCE
    while time.monotonic() < end:
        try:
            return connected(near).close()
        except OSError:
            time.sleep(0.01)
    sys.exit(f"bench: the forwarder at {near} doesn't listen")


@contextlib.contextmanager
def forwarder(near, far):
    """A forwarder that listens at `near` and hands on to `far`, each the path of a socket or a host and a port."""
    process = subprocess.Popen([ACTIVATE, "-l", near, PROXY, far], stderr=subprocess.DEVNULL)
    try:
        wait_for(near)
        yield
    finally:
        process.terminate()
        process.wait()


@contextlib.contextmanager
def reached(way, far):
    """The path by which clients reach the socket `far`."""
    with tempfile.TemporaryDirectory() as folder, contextlib.ExitStack() as running:
        near = os.path.join(folder, "near")
        if way == "direct":
            yield far
            return
        if way == "two forwarders and TCP":
            port = free_port()
            running.enter_context(forwarder(port, far))
            far = port
        running.enter_context(forwarder(near, far))
        yield near


def tell(what, measure):
    rate, *tails = best([measure() for _ in range(RUNS)])
    print(f"{what}: {rate:.0f} requests a second; p50, p99, p999 {', '.join(f'{it:.1f}' for it in tails)} us", flush=True)


def several(program, peers):
    for count, pools, clients in ((1, 64, 256), (2, 32, 128), (2, 32, 256)):
        what = f"{count} daemons of {pools} pools, {clients} clients at each"
        with daemons(program, count, pools) as served:
            tell(what, lambda: asked_at_once(peers, served, clients, pools))


def forwarded(program, peers):
    if not os.access(PROXY, os.X_OK) or not shutil.which(ACTIVATE):
        sys.exit(f"bench: nothing was forwarded, since there is no {PROXY} or no {ACTIVATE}")
    for way in ("direct", "one forwarder", "two forwarders and TCP"):
        with daemons(program, 1, 1) as (served,), reached(way, served.path) as path:
            for clients in CLIENTS:
                tell(f"{way}, {clients} clients", lambda: ask(peers, path, clients, 1, MILLISECONDS))


def main():
    peers = sys.argv[1]
    program = os.path.abspath(sys.argv[2] if len(sys.argv) > 2 else "crates/licence_main/out/licence_main")
    if not os.access(program, os.X_OK):
        sys.exit(f"bench: {program} isn't built")
    several(program, peers)
    forwarded(program, peers)


main()
