"""Sixteen clients ask a daemon at random for a while, and every line is kept with its times. Then the log and what the clients saw are held
against each other: `python3 hostile/histories.py [SECONDS] [SEED] [PROGRAM]`.

It says of the run that
- the log is one that `audit` answers YES to;
- each client's replies are its own entries of the log, each once and in order, with the reply that the log has;
- entries of a party that no client asked for are the daemon's own, looks and the giving back at an end;
- seats that were surely held at the same time differ, and all are below the number of seats;
- no glance of a session goes back, nor stands for less than the entries that the session was told of before;
- replies come in real-time order: who was answered before another asked has the earlier entry."""

import os
import random
import re
import sys
import threading
import time

sys.path.insert(0, os.path.join(os.path.dirname(__file__), "..", "checks"))
from daemon import Daemon

CLIENTS = 16
COUNTS = {"one": 1, "few": 4, "many": 12, "kept": 6}
OPTIONS = """GROUP crew u1 u2 u3 u4
RESERVE 2 kept GROUP crew
MAX 2 many GROUP crew
EXCLUDE few USER u5
LINGER many 1
"""
MORE = "GROUP crew u1 u2 u3 u4\nMAX 1 many GROUP crew\nRESERVE 1 kept USER u9\n"
ANSWER = re.compile(r"(.*) #(\d+)$")
SEAT = re.compile(r"^(GRANTED|RETAKEN) SEAT (\d+) ")
MOST_ENTRIES = 4096


class Asked:
    """One request with its reply, and when each went by."""

    def __init__(self, party, words, request, sent, reply, came):
        self.party, self.words, self.request, self.sent, self.reply, self.came = party, words, request, sent, reply, came
        found = ANSWER.match(reply or "")
        self.place = int(found[2]) if found else None
        self.said = found[1] if found else reply


def one_session(daemon, number, randoms, seen, requests):
    """A session of some requests. Now and then it goes without a word."""
    who = f"u{number} h{number % 3} d p"
    link = daemon.session()
    party = int(link.ask(f"HELLO {who}").split()[1])
    told = []
    seen.append(told)

    def ask(request):
        sent = time.monotonic()
        reply = link.ask(request)
        told.append(Asked(party, who, request, sent, reply, time.monotonic()))

    for _ in range(requests):
        feature = randoms.choice(list(COUNTS))
        verb = randoms.choices(["CHECKOUT", "QUEUE", "CHECKIN", "BEAT", "LOOK", "STATUS", "GLANCE", "REREAD"], [6, 3, 6, 3, 2, 2, 4, 0.1])[0]
        ask({"CHECKOUT": f"CHECKOUT {feature} 1.0", "QUEUE": f"QUEUE {feature} 1.0", "REREAD": f"REREAD {randoms.randrange(2)}"}.get(verb, f"{verb} {feature}"))
        if randoms.random() < 0.5:
            time.sleep(randoms.random() * 0.3)
    if randoms.random() < 0.3:
        link.send("BEAT fe")
    else:
        ask("QUIT")
    link.close()


def client(daemon, number, seed, end, seen):
    randoms = random.Random(seed * 1000 + number)
    while time.monotonic() < end:
        one_session(daemon, number, randoms, seen, randoms.randrange(5, 60))


def kind_of(request):
    verb = request.split()[0]
    return {"STATUS": "COUNT"}.get(verb, verb)


def entries_of(log):
    """The entries of each pool: party, client, kind and reply words."""
    pools = {}
    for line in log.splitlines():
        words = line.split(" ")
        if words[0] == "ENTRY":
            pool = pools.setdefault(int(words[1]), [])
            if words[2] != f"#{len(pool)}":
                sys.exit(f"histories: a place is missing before {line}")
            pool.append((int(words[4]), " ".join(words[5:9]), words[9], " ".join(words[10:]).partition(" REREAD ")[0]))
    return pools


def logged(said):
    """The words of a reply as the log has them: without its seat."""
    return SEAT.sub(r"\1 ", said)


def check_replies(sessions, pools, names, faults):
    """Each reply with a place is the entry at that place, and no entry is two clients'."""
    claimed = {}
    for told in sessions:
        last = {}
        for asked in told:
            if asked.place is None:
                continue
            pool = names.index(asked.request.split()[1])
            if asked.place >= MOST_ENTRIES:
                continue
            entry = pools[pool][asked.place]
            wanted = (asked.party, asked.words, kind_of(asked.request), logged(asked.said))
            if entry != wanted:
                faults.append(f"pool {pool} #{asked.place}: the log has {entry}, the client {wanted}")
            if (pool, asked.place) in claimed:
                faults.append(f"pool {pool} #{asked.place}: two replies")
            claimed[pool, asked.place] = asked
            if asked.place <= last.get(pool, -1):
                faults.append(f"pool {pool} #{asked.place}: behind #{last[pool]} of the same session")
            last[pool] = asked.place
    return claimed


def check_own(claimed, pools, sessions, faults):
    """What no client has a reply of is the daemon's own: a look, the giving back at an end, a REREAD, or the one request of a session that went without reading."""
    asked_rereads = sum(asked.request.startswith("REREAD") for told in sessions for asked in told)
    for pool, entries in pools.items():
        own = [kind for place, (_, _, kind, _) in enumerate(entries) if (pool, place) not in claimed]
        others = [kind for kind in own if kind not in ("LOOK", "QUIT", "REREAD")]
        if others:
            faults.append(f"pool {pool}: entries that nobody has a reply of: {others[:5]}")
        if own.count("REREAD") != asked_rereads and len(entries) < MOST_ENTRIES:
            faults.append(f"pool {pool}: {own.count('REREAD')} REREAD and not {asked_rereads}")


def check_real_time(claimed, faults):
    """Of two replies the earlier one, where it came before the other was asked for, has the smaller place."""
    pools = {}
    for (pool, place), asked in claimed.items():
        pools.setdefault(pool, []).append((place, asked))
    for pool, all_asked in pools.items():
        latest_sent = -1.0
        for place, asked in sorted(all_asked, key=lambda it: it[0]):
            if asked.came < latest_sent:
                faults.append(f"pool {pool} #{place}: it was over before an earlier entry was asked for")
            latest_sent = max(latest_sent, asked.sent)


def holdings(told, names):
    """From when to when the session surely had which seat."""
    have = {}
    for asked in told:
        pool = names.index(asked.request.split()[1]) if " " in asked.request and not asked.request.startswith("REREAD") else None
        seat = SEAT.match(asked.reply or "")
        if seat:
            have[pool] = (int(seat[2]), asked.came)
        elif pool in have and asked.request.startswith("CHECKIN"):
            number, since = have.pop(pool)
            yield pool, number, since, asked.sent
        elif asked.request == "QUIT":
            for pool, (number, since) in have.items():
                yield pool, number, since, asked.sent
            have = {}


def check_seats(sessions, names, faults):
    held = {}
    for told in sessions:
        for pool, number, since, until in holdings(told, names):
            if number >= min(list(COUNTS.values())[pool], CLIENTS + 2):
                faults.append(f"pool {pool}: there is no seat {number}")
            held.setdefault((pool, number), []).append((since, until))
    for (pool, number), times in held.items():
        times.sort()
        for (_, until), (since, _) in zip(times, times[1:]):
            if since < until:
                faults.append(f"pool {pool}: two had seat {number} at once")
    return sum(map(len, held.values()))


def check_glances(sessions, faults):
    glances = 0
    for told in sessions:
        known = {}
        for asked in told:
            feature = asked.request.split()[-1]
            if asked.request.startswith("GLANCE"):
                front = int(asked.reply.split()[2])
                glances += 1
                if front < known.get(feature, 0):
                    faults.append(f"a glance of {feature} went back from {known[feature]} to {front}")
                known[feature] = front
    return glances


def main():
    seconds = float(sys.argv[1]) if len(sys.argv) > 1 else 60
    seed = int(sys.argv[2]) if len(sys.argv) > 2 else random.randrange(1_000_000)
    program = os.path.abspath(sys.argv[3] if len(sys.argv) > 3 else "crates/licence_main/out/licence_main")
    licence = "".join(f"FEATURE {name} acme 1.0 permanent {count} SIGN=00AB\n" for name, count in COUNTS.items())
    names, sessions, faults = list(COUNTS), [], []
    with Daemon(program, licence, OPTIONS, sessions=CLIENTS + 2, more=[MORE]) as daemon:
        if not daemon.is_up():
            sys.exit(f"histories: {daemon.ended()}")
        end = time.monotonic() + seconds
        clients = [threading.Thread(target=client, args=(daemon, number, seed, end, sessions)) for number in range(CLIENTS)]
        for thread in clients:
            thread.start()
        for thread in clients:
            thread.join()
        status, log, err = daemon.stopped()
        if (status, err) != (0, ""):
            faults.append(f"the end: {status} {err}")
        status, said = daemon.audited(log)
        if status != 0 or not said.startswith("YES"):
            faults.append(f"audit: {status} {said.splitlines()[0]}")
    pools = entries_of(log)
    claimed = check_replies(sessions, pools, names, faults)
    check_own(claimed, pools, sessions, faults)
    check_real_time(claimed, faults)
    seats, glances = check_seats(sessions, names, faults), check_glances(sessions, faults)
    asked = sum(map(len, sessions))
    print(f"seed {seed}: {len(sessions)} sessions, {asked} requests, {sum(map(len, pools.values()))} entries, {len(claimed)} replies held against them, {seats} holdings, {glances} glances")
    for fault in faults[:20]:
        print("FAULT", fault)
    sys.exit(1 if faults else 0)


main()
