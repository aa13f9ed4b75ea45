import os
import random
import subprocess
import sys
import tempfile

from timing import least_seconds, program, tell, write

FULL = 1_048_576
REQUESTS = 16_500
PARTIES = 200
FEATURES = ("draft", "render")
# Of a hundred requests so many have each verb.
SHARES = {"CHECKOUT": 46, "CHECKIN": 20, "BEAT": 10, "LOOK": 8, "QUEUE": 8, "STATUS": 4, "QUIT": 4}
VERBS = [verb for verb, share in SHARES.items() for _ in range(share)]
MOST_RATIO = 2.2
MOST_SECONDS = 0.1

LICENCE = "".join(f"INCREMENT {feature} maker 2.0 permanent 40 SIGN=00AB\n" for feature in FEATURES)


def options():
    """A group of 40 users and one of 20, and for each feature a rule of most kinds."""
    rows = ["GROUP team " + " ".join(f"u{i}" for i in range(40)) + "\n"]
    rows.append("GROUP guests " + " ".join(f"u{i}" for i in range(40, 60)) + "\n")
    for feature in FEATURES:
        rows.append(f"RESERVE 10 {feature} GROUP team\nMAX 8 {feature} GROUP guests\nEXCLUDE {feature} USER u60\n")
        rows.append(f"LINGER {feature} 60\nTIMEOUT {feature} 3600\n")
    return "".join(rows)


def request(i):
    """A request by chance, which is the same in each run: its pool, what stands before its verb, and its verb. It is some
    days from the first to the last."""
    chance = random.Random(i)
    party, verb, pool = chance.randrange(PARTIES), chance.choice(VERBS), chance.randrange(len(FEATURES))
    return pool, f"{1790030000 + 30 * i} {party} u{party % 80} h{party % 30} :{party} work", verb


def script_line(pool, said, verb):
    version = " 2.0" if verb in ("CHECKOUT", "QUEUE") else ""
    return f"{said} {verb} {FEATURES[pool]}{version}\n"


def log_line(pool, said, verb, reply):
    """The entry of a request with this reply, which ends in the place of the entry."""
    words, place = reply.rsplit(" ", 1)
    kind = "COUNT" if verb == "STATUS" else verb
    return f"ENTRY {pool} {place} {said} {kind} {words}\n"


def log():
    """The log of the requests, as they are answered in a replay."""
    requests = [request(i) for i in range(REQUESTS)]
    write("script", "".join(script_line(*asked) for asked in requests))
    run = subprocess.run([tool, "replay", "licence", "options", "script"], capture_output=True, text=True, check=True)
    return [log_line(*asked, reply) for asked, reply in zip(requests, run.stdout.splitlines(), strict=True)]


def cut(lines, size):
    """As many lines as there is room for."""
    count, length = 0, 0
    while count < len(lines) and length + len(lines[count]) <= size:
        length += len(lines[count])
        count += 1
    return lines[:count]


def measured(command, lines):
    """A number of lines, and the time that a command takes on them."""
    write("log", "".join(lines))
    begins = {"audit": f"YES ENTRIES {len(lines)}\n", "usage": "USAGE 0 draft 2.0\n"}[command].encode()
    return len(lines), least_seconds([tool, command, "licence", "options", "log"], lambda out: out.startswith(begins))


tool = program()
too_much = False
with tempfile.TemporaryDirectory() as folder:
    os.chdir(folder)
    write("licence", LICENCE)
    write("options", options())
    lines = log()
    half, full = cut(lines, FULL // 2), cut(lines, FULL)
    if len(full) == len(lines):
        sys.exit("bench: the log is too short")
    for command in ("audit", "usage"):
        print(command)
        short, long = measured(command, half), measured(command, full)
        too_much |= tell(short, long, MOST_RATIO) or long[1] >= MOST_SECONDS
sys.exit(too_much)
