import os
import random
import sys
import tempfile

from timing import least_seconds, program, tell, write

FEATURES = ("draft", "render", "stress", "flow", "mill", "view", "convert", "batch", "plot", "mesh")
PARTIES = 200
# Of a hundred lines so many have each verb.
SHARES = {"CHECKOUT": 45, "CHECKIN": 20, "BEAT": 10, "LOOK": 8, "QUEUE": 8, "STATUS": 4, "QUIT": 4, "REREAD": 1}
VERBS = [verb for verb, share in SHARES.items() for _ in range(share)]


def licence():
    """A new and an old pool of each feature, of which the first three expire within the script."""
    rows = ["SERVER keel 0a1b2c3d4e5f 27015\nVENDOR maker\nUSE_SERVER\n"]
    for i, feature in enumerate(FEATURES):
        expiry = "21-sep-2026" if i < 3 else "permanent"
        rows.append(f'INCREMENT {feature} maker 2.0 {expiry} 10 ISSUED=01-apr-2026 SIGN="4F0C 91AA"\n')
        rows.append(f'INCREMENT {feature} maker 1.0 permanent 5 ISSUED=01-apr-2026 SIGN="91BB 0431"\n')
    return "".join(rows)


def options(kept, lingers):
    """A group of 40 users, one of 20 and one of 10 hosts, and for each feature a rule of each kind."""
    rows = ["REPORTLOG +/var/log/maker.rl\n"]
    rows.append("GROUP team " + " ".join(f"u{i}" for i in range(40)) + "\n")
    rows.append("GROUP guests " + " ".join(f"u{i}" for i in range(40, 60)) + "\n")
    rows.append("HOST_GROUP shop " + " ".join(f"h{i}" for i in range(10)) + "\n")
    for feature in FEATURES:
        rows.append(f"RESERVE {kept} {feature} GROUP team\nMAX 2 {feature} GROUP guests\n")
        rows.append(f"EXCLUDE {feature} USER u60\nLINGER {feature} {lingers}\nTIMEOUT {feature} 900\n")
    rows.append("INCLUDE mill GROUP team\nINCLUDE mill HOST_GROUP shop\nEXCLUDEALL DISPLAY kiosk\n")
    return "".join(rows)


def script_line(i):
    """A line by chance, which is the same in each run; four of five are for the feature that the party works with."""
    chance = random.Random(i)
    party, verb = chance.randrange(PARTIES), chance.choice(VERBS)
    feature = FEATURES[party % len(FEATURES)] if chance.randrange(5) else chance.choice(FEATURES)
    asks = {
        "CHECKOUT": f"{feature} {chance.choice((1, 2))}.0",
        "QUEUE": f"{feature} 1.0",
        "REREAD": f"{chance.randrange(3)}",
    }.get(verb, feature)
    # The day of the first pools ends within the 5,000 lines.
    return f"{1790030000 + 2 * i} {party} u{party % 80} h{party % 30} :{party} work {verb} {asks}\n"


def measured(lines):
    """A number of lines, and the time that their replies take, of which there is one for each."""
    write("script", "".join(script_line(i) for i in range(lines)))
    words = [tool, "replay", "licence", "options", "script", "more"]
    return lines, least_seconds(words, lambda out: out.count(b"\n") == lines)


tool = program()
with tempfile.TemporaryDirectory() as folder:
    os.chdir(folder)
    write("licence", licence())
    write("options", options(3, 60))
    write("more", options(1, 0))
    too_much = tell(measured(5_000), measured(10_000))
sys.exit(too_much)
