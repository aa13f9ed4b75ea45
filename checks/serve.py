"""Runs the built program as a daemon, and looks at what sessions are told, at what is left where a client goes, and at how it ends."""

import contextlib
import os
import re
import socket
import subprocess
import sys
import threading
import time

from daemon import PATIENCE, Daemon, Session

EDIT = "FEATURE edit acme 2.0 permanent {} SIGN=00AB\n"
DRAW = "FEATURE draw acme 1.0 permanent {} SIGN=01CD\n"
ANN, BOB, CY = "ann h1 d1 p1", "bob h2 d2 p2", "cy h3 d3 p3"

# Within how many seconds a daemon ends whatever its clients do, on a machine with other work too.
SOON = 10

faults = []


def same(what, found, wanted):
    if found != wanted:
        faults.append(f"{what}: {found!r} and not {wanted!r}")


def eventually(what, ask, wanted, seconds=5):
    """Asks again until the answer is the wanted one."""
    end = time.monotonic() + seconds
    while (found := ask()) != wanted and time.monotonic() < end:
        time.sleep(0.05)
    same(what, found, wanted)


def counts(session, feature="edit"):
    """What STATUS tells, without its place."""
    return session.ask(f"STATUS {feature}").rpartition(" #")[0]


def ends_well(what, daemon, seconds=PATIENCE):
    """Shuts the daemon down: in time status 0, nothing on standard error, no socket left, and a log that is a run. Gives its output."""
    status, out, err = daemon.stopped(seconds)
    same(f"{what}: end", (status, err), (0, ""))
    same(f"{what}: the socket file is left", os.path.exists(daemon.path), False)
    audit = daemon.audited(out)
    same(f"{what}: audit", (audit[0], audit[1].split(" ")[0]), (0, "YES"))
    return out


def seats_lost(log, pool):
    """How many seats a pool's whole log has granted and not had back."""
    replies = re.findall(rf"^ENTRY {pool} .* (GRANTED|RETURNED)\b", log, re.MULTILINE)
    return replies.count("GRANTED") - replies.count("RETURNED")


@contextlib.contextmanager
def going_on(*acts):
    """Does each of these again and again in a thread of its own, whatever becomes of its link, as long as the block runs."""
    over = threading.Event()

    def go_on(act):
        while not over.is_set():
            try:
                act()
            except OSError:
                over.wait(0.01)

    for act in acts:
        threading.Thread(target=go_on, args=(act,), daemon=True).start()
    try:
        yield
    finally:
        over.set()


def a_whole_session(program):
    """The session that the page on the protocol shows."""
    page = open("docs/PROTOCOL.md").read().partition("## A whole session")[2]
    talk = re.findall(r"^    ([<>]) (.*)$", page, re.MULTILINE)
    with Daemon(program, EDIT.format(2)) as daemon:
        same("a session: up", daemon.is_up(), True)
        with daemon.session() as session:
            for mark, line in talk:
                if mark == ">":
                    session.send(line + "\n")
                else:
                    same("a session", re.sub(r"^WELCOME \d+$", "WELCOME 0", session.line()), line)
            same("a session: closed at its end", session.line(), None)
        ends_well("a session", daemon)
    same("a session: lines on the page", len(talk) > 10, True)


def the_log_and_the_tallies(program):
    with Daemon(program, EDIT.format(2) + DRAW.format(1), sessions=2) as daemon:
        daemon.is_up()
        with daemon.session(ANN) as session:
            same("a log: granted", session.ask("CHECKOUT edit 1.0"), "GRANTED SEAT 0 OPEN #0")
            session.ask("CHECKIN edit")
        out = ends_well("a log", daemon)
    lines = [re.sub(r"(ENTRY 0 #\d) \d+ \d+ ", r"\1 MOMENT PARTY ", line) for line in out.splitlines()]
    same("a log", lines, [
        "ENTRY 0 #0 MOMENT PARTY ann h1 d1 p1 CHECKOUT GRANTED OPEN",
        "ENTRY 0 #1 MOMENT PARTY ann h1 d1 p1 CHECKIN RETURNED",
        "LOG 0 ENTRIES 2 WHOLE",
        "LOG 1 ENTRIES 0 WHOLE",
        "TALLY 0 CALLS 2 GRANTS 1 CARD USES 1",
        "TALLY 1 CALLS 0 GRANTS 0 CARD USES 0",
    ])


def seats_and_denials(program):
    """Seats differ, a line of the options file denies, and who goes without a word gives the seat back."""
    with Daemon(program, EDIT.format(2), "EXCLUDE edit USER cy\n") as daemon:
        daemon.is_up()
        with daemon.session(ANN) as ann, daemon.session(BOB) as bob, daemon.session(CY) as cy:
            replies = [it.ask("CHECKOUT edit 1.0") for it in (ann, bob, cy)]
            same("seats", replies, ["GRANTED SEAT 0 OPEN #0", "GRANTED SEAT 1 OPEN #1", "DENIED LINE 1 #2"])
            ann.send("BEAT ed")
            ann.close()
            eventually("who goes in mid-line", lambda: counts(cy), "COUNTS HELD 1 LINGERING 0 OPEN 1 OF 2 OWN 0")
            bob.send("x" * 1025)
            same("a long line has no reply", bob.line(), None)
            eventually("who sends a long line", lambda: counts(cy), "COUNTS HELD 0 LINGERING 0 OPEN 0 OF 2 OWN 0")
        ends_well("seats", daemon)


def more_clients_than_sessions(program):
    """Who finds no session free waits, and is served when one is."""
    with Daemon(program, EDIT.format(2), sessions=2) as daemon:
        daemon.is_up()
        first = [daemon.session(ANN), daemon.session(BOB)]
        waiting = [Session(daemon.path) for _ in range(10)]
        for session in waiting:
            session.send(f"HELLO {CY}\nQUIT\n")
        time.sleep(0.2)
        for session in first:
            same("a full house: still served", session.ask("CHECKOUT edit 1.0").split(" ")[0], "GRANTED")
            same("a full house: quit", session.ask("QUIT"), "BYE")
        for session in waiting:
            same("who waited for a session", [session.line().split(" ")[0], session.line()], ["WELCOME", "BYE"])
        ends_well("a full house", daemon)


def a_queue(program):
    with Daemon(program, EDIT.format(1)) as daemon:
        daemon.is_up()
        with daemon.session(ANN) as ann, daemon.session(BOB) as bob:
            ann.ask("CHECKOUT edit 1.0")
            same("a queue: waits", bob.ask("QUEUE edit 1.0"), "QUEUED 1 #1")
            same("a queue: still waits", bob.ask("BEAT edit"), "QUEUED 1 #2")
            ann.ask("CHECKIN edit")
            same("a queue: served", bob.ask("BEAT edit"), "GRANTED SEAT 0 OPEN #4")
        ends_well("a queue", daemon)


def rule_sets(program):
    with Daemon(program, EDIT.format(2), more=["EXCLUDE edit USER ann\n"]) as daemon:
        daemon.is_up()
        with daemon.session(ANN) as ann, daemon.session(BOB) as bob:
            replies = [ann.ask("CHECKOUT edit 1.0"), bob.ask("REREAD 1"), ann.ask("CHECKIN edit"), ann.ask("CHECKOUT edit 1.0"), bob.ask("REREAD 2")]
            same("rule sets", replies, ["GRANTED SEAT 0 OPEN #0", "REREAD 1", "RETURNED #2", "DENIED LINE 1 #3", "NORULES 2"])
        ends_well("rule sets", daemon)


def wrong_lines(program):
    """Each request with a word too few and too many, in small letters, with a tab, a DEL and a name of 65 bytes, and words of other kinds."""
    requests = {
        "HELLO": "ann h1 d1 p1", "CHECKOUT": "edit 1.0", "QUEUE": "edit 1.0", "CHECKIN": "edit", "BEAT": "edit", "LOOK": "edit",
        "STATUS": "edit", "GLANCE": "edit", "REREAD": "1", "QUIT": "", "SHUTDOWN": "",
    }
    lines = [("CHECKOUT edit 1.x", 5), ("QUEUE edit 12345678901", 5), ("REREAD one", 7), ("REREAD 4294967296", 7), ("  ", 1), ("JUMP", 2)]
    for verb, words in requests.items():
        whole = f"{verb} {words}".rstrip()
        lines += [(f"{whole} more", 3), (whole.lower(), 2), (f"{verb}\t{words}", 6), (f"{whole}\x7f", 6)]
        if words:
            lines.append((whole.rpartition(" ")[0], 3))
        if words and verb != "REREAD":
            lines.append((f"{verb} {'x' * 65}{words[words.find(' '):] if ' ' in words else ''}", 4))
    with Daemon(program, EDIT.format(1)) as daemon:
        daemon.is_up()
        with daemon.session() as session:
            for line, number in lines:
                same(f"the line {line!r}", session.ask(line), f"BAD {number}")
        ends_well("wrong lines", daemon)


def one_path(program):
    """A second daemon doesn't take a socket that is served; a socket that nobody serves any more is replaced; another file is left."""
    with Daemon(program, EDIT.format(1)) as first:
        first.is_up()
        with Daemon(program, EDIT.format(1), folder=first.folder) as second:
            same("a socket that is served", second.ended(), (9, "", "site fault\n"))
        with first.session(ANN) as session:
            same("the first daemon goes on", session.ask("CHECKOUT edit 1.0"), "GRANTED SEAT 0 OPEN #0")
        first.kill()
        same("a daemon that is killed leaves its socket", os.path.exists(first.path), True)
        with Daemon(program, EDIT.format(1), folder=first.folder) as third:
            same("a socket that nobody serves", third.is_up(), True)
            ends_well("the third daemon", third)
        with open(first.path, "w") as file:
            file.write("not a socket\n")
        with Daemon(program, EDIT.format(1), folder=first.folder) as fourth:
            same("a file that is no socket", fourth.ended(), (9, "", "site fault\n"))
        same("the file that is no socket", open(first.path).read(), "not a socket\n")


def others_are_not_held_up(program):
    """A client that sends a byte now and then, one that never reads, and one that floods hold up neither the others nor the end."""
    with Daemon(program, EDIT.format(2), sessions=6) as daemon:
        daemon.is_up()
        slow, silent, flood = (daemon.session(client) for client in (ANN, BOB, CY))
        with slow, silent, flood, daemon.session(CY) as other:
            slow.send("CHECK")
            silent.send("STATUS edit\n" * 200)

            def pour():
                try:
                    flood.send("STATUS edit\n" * 100_000)
                except OSError:
                    pass

            pouring = threading.Thread(target=pour, daemon=True)
            pouring.start()
            time.sleep(0.5)
            begun = time.monotonic()
            for _ in range(100):
                other.ask("LOOK edit")
            same("others are served meanwhile", time.monotonic() - begun < 5, True)
            slow.send("OUT edit 1.0\n")
            same("a slow line is answered", slow.line().split(" ")[0], "GRANTED")
            other.send("LOOK edit\n" * 5000)
            same("many lines at once", {other.line().split(" ")[0] for _ in range(5000)}, {"NOTHELD"})
            slow.send("CHECKIN ed")
            status, out, err = daemon.stopped()
            same("the end is not held up", (status, err), (0, ""))
            same("the log is cut", "LOG 0 ENTRIES 4096 CUT" in out, True)
            same("the cut log is a run", daemon.audited(out)[1].split(" ")[0], "YES")
            pouring.join(5)


def no_seat_is_lost_where_255_are_killed(program):
    """Sessions that check out and in, and then, most of them with a seat, go in mid-line, half of them with replies that they never read."""
    with Daemon(program, EDIT.format(200), sessions=256) as daemon:
        daemon.is_up()
        for _ in range(3):
            clients = [daemon.session(f"u{n} h d p") for n in range(255)]
            for client in clients:
                client.send("CHECKOUT edit 1.0\nCHECKIN edit\nCHECKOUT edit 1.0\nCHECK")
            for number, client in enumerate(clients):
                if number % 2:
                    replies = [client.line().split(" ")[0] for _ in range(3)]
                    same("who is killed was served", replies[1], {"GRANTED": "RETURNED", "NOSEAT": "NOTHELD"}.get(replies[0]))
                client.close()
        with daemon.session(ANN) as last:
            eventually("after 255 were killed", lambda: counts(last), "COUNTS HELD 0 LINGERING 0 OPEN 0 OF 200 OWN 0")
        same("255 are killed: seats lost", seats_lost(ends_well("255 are killed", daemon, SOON), 0), 0)


def a_byte_now_and_then_holds_up_no_end(program):
    """A client sends a byte each half second, and goes on so through SHUTDOWN."""
    with Daemon(program, EDIT.format(1)) as daemon:
        daemon.is_up()
        with daemon.session(ANN) as slow:
            slow.ask("CHECKOUT edit 1.0")
            with going_on(lambda: (slow.send("x"), time.sleep(0.5))):
                out = ends_well("a byte now and then", daemon, SOON)
    same("a byte now and then: seats lost", seats_lost(out, 0), 0)


def a_slow_reader_holds_up_no_end(program):
    """A client sends many lines at once, and reads the replies as slowly as writes of the daemon wait for, also through SHUTDOWN."""
    with Daemon(program, EDIT.format(1)) as daemon:
        daemon.is_up()
        with daemon.session(ANN) as slow:
            slow.ask("CHECKOUT edit 1.0")
            slow.send("\n" * 1024)
            with going_on(lambda: (time.sleep(5), slow.link.recv(65536))):
                time.sleep(0.2)
                out = ends_well("a slow reader", daemon, SOON)
    same("a slow reader: seats lost", seats_lost(out, 0), 0)


def requests_without_pause_hold_up_no_end(program):
    """Clients ask and read without pause, one says BEAT each second, and one comes back whenever its link is closed, all of them through SHUTDOWN."""
    with Daemon(program, EDIT.format(2) + DRAW.format(6), sessions=8) as daemon:
        daemon.is_up()

        def come_back():
            with daemon.session(CY) as again:
                again.ask("CHECKOUT draw 1.0")
                again.line()

        with contextlib.ExitStack() as links:
            busy = [links.enter_context(daemon.session(f"u{n} h d p")) for n in range(4)]
            beating = links.enter_context(daemon.session(BOB))
            for session in [*busy, beating]:
                session.ask("CHECKOUT draw 1.0")
            asks = [lambda it=session: (it.ask("CHECKOUT edit 1.0"), it.ask("CHECKIN edit")) for session in busy]
            with going_on(*asks, lambda: (beating.ask("BEAT draw"), time.sleep(0.9)), come_back):
                time.sleep(0.5)
                out = ends_well("under load", daemon, SOON)
    same("under load: its log is whole", re.search("^LOG 1 ENTRIES [0-9]+ ([A-Z]+)$", out, re.MULTILINE)[1], "WHOLE")
    same("under load: seats lost", seats_lost(out, 1), 0)


def main():
    program = os.path.abspath(sys.argv[1] if len(sys.argv) > 1 else "crates/licence_main/out/licence_main")
    if not os.access(program, os.X_OK):
        sys.exit(f"serve: {program} isn't built: rt ci builds it")
    cases = (
        a_whole_session, the_log_and_the_tallies, seats_and_denials, more_clients_than_sessions, a_queue, rule_sets, wrong_lines, one_path, others_are_not_held_up,
        no_seat_is_lost_where_255_are_killed, a_byte_now_and_then_holds_up_no_end, a_slow_reader_holds_up_no_end, requests_without_pause_hold_up_no_end,
    )
    for case in cases:
        try:
            case(program)
        except (OSError, socket.timeout, subprocess.TimeoutExpired, AttributeError) as fault:
            faults.append(f"{case.__name__}: {fault!r}")
    for fault in faults:
        print(f"serve: {fault}")
    print(f"serve: {len(cases)} cases, {len(faults)} differences")
    return 1 if faults else 0


sys.exit(main())
