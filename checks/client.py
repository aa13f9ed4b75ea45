"""Runs the built client against the built daemon: each command, and each end that a daemon or its want brings about."""

import faulthandler
import os
import re
import select
import shutil
import socket
import subprocess
import sys
import tempfile
import threading
import time

from daemon import PATIENCE, Daemon

LICENCE = "FEATURE edit acme 2.0 permanent 2 SIGN=00AB\nFEATURE draft acme 1.0 permanent 5 SIGN=00AB\n"
OPTIONS = "RESERVE 1 draft USER ann\nEXCLUDE draft USER eve\n"
WHO = ["--user", "ann", "--host", "h1", "--display", "d1", "--project", "p1"]

# After so many seconds without an end the check tells where it waits, and fails.
LIMIT = 600

faults = []


def same(what, found, wanted):
    if found != wanted:
        faults.append(f"{what}: {found!r} and not {wanted!r}")


def client(program, path, *words, who=WHO, stdin=subprocess.DEVNULL, **more):
    """What a run of the client ends with: its status, and what it writes."""
    ran = subprocess.run([program, *who, path, *words], stdin=stdin, capture_output=True, text=True, timeout=60, **more)
    return ran.returncode, ran.stdout, ran.stderr


def asks(program, daemon):
    same("ask", client(program, daemon.path, "ask", "CHECKOUT edit 1.0"), (0, "GRANTED SEAT 0 OPEN #0\n", ""))
    same("ask of another feature", client(program, daemon.path, "ask", "CHECKOUT none 1.0"), (0, "UNKNOWN\n", ""))
    same("ask no request", client(program, daemon.path, "ask", "JUMP"), (2, "", "no request: unknown word\n"))
    same("ask two lines", client(program, daemon.path, "ask", "LOOK edit\nQUIT"), (2, "", "no request: bad byte\n"))


def refuses(program):
    """Words that will not do are told before anybody is connected to: there is no daemon here."""
    nobody = "/nowhere/socket"
    blank = "no request: the user has a blank or another byte that isn't from 33 to 126: see --user and USER\n"
    for what, words, who, wanted in (
        ("no command", ["jump"], WHO, "usage\n"),
        ("too few words", ["hold", "edit"], WHO, "usage\n"),
        ("no seconds", ["hold", "edit", "1.0"], ["--every", "0"], "usage\n"),
        ("an empty user", ["ask", "LOOK edit"], ["--user", ""], "no request: the user is empty: see --user and USER\n"),
        ("a user of two words", ["ask", "LOOK edit"], ["--user", "a b"], blank),
        ("a long project", ["status", "edit"], ["--project", "p" * 65], "no request: the project has more than 64 bytes: see --project and LM_PROJECT\n"),
        ("a version for a feature", ["hold", "edit 1.0", ""], WHO, "no request: word count\n"),
        ("a set that is no number", ["reread", "one"], WHO, "no request: bad number\n"),
        ("1,024 bytes", ["ask", "LOOK " + "e" * 1019], WHO, "no request: bad name\n"),
        ("1,025 bytes", ["ask", "LOOK " + "e" * 1020], WHO, "no request: more than 1,024 bytes\n"),
    ):
        same(what, client(program, nobody, *words, who=who), (2, "", wanted))
    same("no daemon", client(program, nobody, "shutdown"), (3, "", "no daemon at the socket\n"))
    display = client(program, nobody, "ask", "LOOK edit", who=["--host", "h1"], env={"USER": "ann", "DISPLAY": ""})
    same("an empty DISPLAY", display, (2, "", "no request: the display is empty: see --display and DISPLAY\n"))


def forbidden(program):
    """A socket in a folder that another user may not enter. Root may enter every folder, so there the client runs as nobody."""
    with tempfile.TemporaryDirectory() as open_folder, tempfile.TemporaryDirectory() as folder:
        os.chmod(open_folder, 0o755)
        copy = shutil.copy(program, open_folder)
        nobody = {"user": 65534, "group": 65534} if os.geteuid() == 0 else {}
        with socket.socket(socket.AF_UNIX, socket.SOCK_STREAM) as door:
            path = os.path.join(folder, "socket")
            door.bind(path)
            door.listen(1)
            os.chmod(folder, 0o700 if nobody else 0)
            same("a forbidden socket", client(copy, path, "ask", "QUIT", **nobody), (10, "", "permission denied at the socket\n"))
            os.chmod(folder, 0o700)


def shows(program, daemon):
    with daemon.session("bob h2 d2 p2") as bob:
        bob.ask("CHECKOUT edit 1.0")
        wanted = (
            "FEATURE                  IN USE     LINGERING  FREE       WAITING\n"
            "edit                     1          0          1          0\n"
            "draft                    0          0          4          0\n"
        )
        end = time.monotonic() + 5
        while (found := client(program, daemon.path, "status", "edit", "draft")) != (0, wanted, "") and time.monotonic() < end:
            time.sleep(0.05)
        same("status", found, (0, wanted, ""))
    same("status of no feature", client(program, daemon.path, "status", "edit", "none"), (1, "", "GLANCE none\nUNKNOWN\n"))


def wait_for_seats(daemon):
    """Waits until the clients that left have given their seats of edit back: a daemon sees the end of a link a little later."""
    with daemon.session("watch h0 d0 p0") as watch:
        end = time.monotonic() + PATIENCE
        while not (found := watch.ask("STATUS edit")).startswith("COUNTS HELD 0 ") and time.monotonic() < end:
            time.sleep(0.02)
    same("seats given back", found.rpartition(" #")[0], "COUNTS HELD 0 LINGERING 0 OPEN 0 OF 2 OWN 0")


def holds(program, daemon):
    wait_for_seats(daemon)
    words = [program, *WHO, "--every", "1", daemon.path, "hold", "edit", "1.0"]
    with subprocess.Popen(words, stdin=subprocess.PIPE, stdout=subprocess.PIPE, stderr=subprocess.PIPE, text=True) as held:
        granted = held.stdout.readline()
        same("hold: granted", re.sub(r"#\d+", "#n", granted), "GRANTED SEAT 0 OPEN #n\n")
        with daemon.session("bob h2 d2 p2") as bob:
            time.sleep(3)
            before = bob.ask("STATUS edit")
            same("hold: a seat", before.rpartition(" #")[0], "COUNTS HELD 1 LINGERING 0 OPEN 1 OF 2 OWN 0")
            held.stdin.close()
            given = held.stdout.read()
            same("hold: given back", re.sub(r"#\d+", "#n", given), "RETURNED #n\n")
            beats = int(given.rpartition("#")[2]) - int(granted.rpartition("#")[2])
            same("hold: beats", beats >= 3, True)
            same("hold: no seat", bob.ask("STATUS edit").rpartition(" #")[0], "COUNTS HELD 0 LINGERING 0 OPEN 0 OF 2 OWN 0")
        same("hold: end", (held.wait(30), held.stderr.read()), (0, ""))
    wait_for_seats(daemon)
    with daemon.session("bob h2 d2 p2") as bob, daemon.session("cy h3 d3 p3") as cy:
        bob.ask("CHECKOUT edit 1.0")
        cy.ask("CHECKOUT edit 1.0")
        status, out, err = client(program, daemon.path, "hold", "edit", "1.0")
        same("hold without a seat", (status, out, re.sub(r"#\d+", "#n", err)), (1, "", "CHECKOUT edit 1.0\nNOSEAT TAKEN 2 OF 2 #n\n"))


def told(lines):
    """The next line, with its place left open."""
    return re.sub(r"#\d+", "#n", lines.readline())


def waits(program, daemon):
    """Of two seats both are had: who waits is granted one once it is given back; who ends its input before gives its place back."""
    wait_for_seats(daemon)
    words = [program, *WHO, "--wait", "--every", "1", daemon.path, "hold", "edit", "1.0"]
    pipes = {"stdin": subprocess.PIPE, "stdout": subprocess.PIPE, "stderr": subprocess.PIPE, "text": True}
    with daemon.session("bob h2 d2 p2") as bob, daemon.session("cy h3 d3 p3") as cy:
        bob.ask("CHECKOUT edit 1.0")
        cy.ask("CHECKOUT edit 1.0")
        with subprocess.Popen(words, **pipes) as held, subprocess.Popen(words, **pipes) as left:
            places = {told(held.stdout), told(left.stdout)}
            same("hold --wait: places", places, {"QUEUED 1 #n\n", "QUEUED 2 #n\n"})
            left.stdin.close()
            same("hold --wait: left", (told(left.stdout), left.wait(30), left.stderr.read()), ("UNQUEUED #n\n", 0, ""))
            bob.ask("CHECKIN edit")
            same("hold --wait: granted", told(held.stdout), "GRANTED SEAT 0 OPEN #n\n")
            time.sleep(3)
            same("hold --wait: a seat", cy.ask("STATUS edit").rpartition(" #")[0], "COUNTS HELD 2 LINGERING 0 OPEN 2 OF 2 OWN 1")
            held.stdin.close()
            same("hold --wait: given back", (told(held.stdout), held.wait(30), held.stderr.read()), ("RETURNED #n\n", 0, ""))
    wait_for_seats(daemon)
    free = [program, *WHO, "--wait", daemon.path, "hold", "edit", "1.0"]
    ran = subprocess.run(free, stdin=subprocess.DEVNULL, capture_output=True, text=True, timeout=60)
    same("hold --wait where a seat is free", (ran.returncode, re.sub(r"#\d+", "#n", ran.stdout)), (0, "GRANTED SEAT 0 OPEN #n\nRETURNED #n\n"))
    denied = [program, "--user", "eve", "--wait", daemon.path, "hold", "draft", "1.0"]
    ran = subprocess.run(denied, stdin=subprocess.DEVNULL, capture_output=True, text=True, timeout=60)
    same("hold --wait where a line denies it", (ran.returncode, ran.stdout), (1, ""))
    same("hold --wait: the line", re.sub(r"#\d+", "#n", ran.stderr), "QUEUE draft 1.0\nDENIED LINE 2 #n\n")


def names_host(program):
    """The host that a client names: HOSTNAME, and else the system's."""

    def hears(line):
        def hear(link):
            same("the HELLO", link.recv(4096).decode(), line)

        return hear

    who = ["--user", "ann", "--display", "d1", "--project", "p1"]
    closed = (4, "", "the daemon closed the link\n")
    for name, environment in (("keel", {"HOSTNAME": "keel"}), (socket.gethostname(), {})):
        meets(f"host {name}", program, hears(f"HELLO ann {name} d1 p1\n"), ("ask", "LOOK edit"), closed, who=who, env=environment)


def ends(program, daemon):
    same("reread", client(program, daemon.path, "reread", "1"), (0, "REREAD 1\n", ""))
    same("reread of no set", client(program, daemon.path, "reread", "2"), (1, "", "REREAD 2\nNORULES 2\n"))
    words = [program, *WHO, daemon.path, "hold", "edit", "1.0"]
    with subprocess.Popen(words, stdin=subprocess.PIPE, stdout=subprocess.PIPE, stderr=subprocess.PIPE, text=True) as held:
        held.stdout.readline()
        same("shutdown", client(program, daemon.path, "shutdown"), (0, "STOPPING\n", ""))
        same("hold at a shutdown", (held.wait(30), held.stderr.read()), (4, "the daemon closed the link\n"))
    same("the daemon's end", (daemon.ended()[0]), 0)
    same("no daemon", client(program, daemon.path, "status", "edit"), (3, "", "no daemon at the socket\n"))


def meets(what, program, serve, words, wanted, **more):
    """What the client does where a daemon that isn't ours serves its link, and then closes it."""
    with tempfile.TemporaryDirectory() as folder, socket.socket(socket.AF_UNIX, socket.SOCK_STREAM) as door:
        path = os.path.join(folder, "socket")
        door.bind(path)
        door.listen(1)

        def serve_one():
            link, _ = door.accept()
            with link:
                serve(link)

        server = threading.Thread(target=serve_one)
        server.start()
        same(what, client(program, path, *words, **more), wanted)
        server.join()


def answers(program, replies, wanted, words=("ask", "LOOK edit"), **more):
    """A daemon that isn't ours answers each line with these bytes, and closes the link."""

    def serve(link):
        for reply in replies:
            link.recv(4096)
            link.sendall(reply)

    meets(f"answers {[reply[:40] for reply in replies]!r}", program, serve, words, wanted, **more)


def lost_links(program):
    """A daemon that says nothing for half a minute, one that closes the link on what it didn't read, and one that speaks unasked."""

    def hear(link):
        while link.recv(4096):
            pass

    def wait(link):
        select.select([link], [], [], PATIENCE)

    silent = threading.Thread(target=meets, args=("silence", program, hear, ("ask", "QUIT"), (6, "", "no reply\n")))
    silent.start()
    meets("a link that fails", program, wait, ("ask", "QUIT"), (5, "", "link fault\n"))
    granted = [b"WELCOME 0\n", b"GRANTED SEAT 0 OPEN #0\n"]

    def speak(link):
        for reply in granted:
            link.recv(4096)
            link.sendall(reply)
        time.sleep(0.5)
        link.sendall(b"BEATEN #1\n")
        link.recv(4096)

    reads, writes = os.pipe()
    meets("an unasked reply", program, speak, ("hold", "edit", "1.0"), (9, granted[1].decode(), "an unasked reply\n"), stdin=reads)
    os.close(reads)
    os.close(writes)
    silent.join()


def full_device(program, daemon):
    words = [program, daemon.path, "status", "edit"]
    with open("/dev/full", "w") as full:
        ran = subprocess.run(words, stdin=subprocess.DEVNULL, stdout=full, stderr=subprocess.PIPE, text=True)
    same("a full device", (ran.returncode, ran.stderr), (7, "write fault\n"))


def main():
    faulthandler.dump_traceback_later(LIMIT, exit=True)
    daemon_program = sys.argv[1] if len(sys.argv) > 1 else os.path.abspath("crates/licence_main/out/licence_main")
    program = sys.argv[2] if len(sys.argv) > 2 else os.path.abspath("crates/licence_client/out/licence_client")
    for built in (daemon_program, program):
        if not os.access(built, os.X_OK):
            sys.exit(f"client: {built} isn't built: rt ci builds it")
    same("version", client(program, "--version", who=[]), (0, "licence_client 1\n", ""))
    refuses(program)
    forbidden(program)
    with Daemon(daemon_program, LICENCE, OPTIONS, sessions=6, more=["EXCLUDE edit USER eve\n"]) as daemon:
        same("up", daemon.is_up(), True)
        asks(program, daemon)
        shows(program, daemon)
        holds(program, daemon)
        waits(program, daemon)
        full_device(program, daemon)
        ends(program, daemon)
    answers(program, [b""], (4, "", "the daemon closed the link\n"))
    answers(program, [b"WELCOME 0\nHELD #0\n"], (9, "", "not a reply\n"))
    answers(program, [b"x" * 2000], (9, "", "not a reply\n"))
    answers(program, [b"GREETED\n"], (1, "", "HELLO ann h1 d1 p1\nGREETED\n"))
    answers(program, [b"WELCOME 0\n", b"GLANCE many\n"], (9, "", "no numbers: GLANCE many\n"), words=("status", "edit"))
    names_host(program)
    lost_links(program)
    for fault in faults:
        print(f"client: {fault}")
    return 1 if faults else 0


sys.exit(main())
