"""Random input for the built program: `python3 hostile/fuzz.py WHAT [SECONDS] [SEED] [PROGRAM]`, WHAT being

protocol-bytes     lines of random and mended bytes to a daemon, in random pieces: each line has its reply, BAD with the number that
                   docs/PROTOCOL.md says, and a line that is too long closes the session without one
protocol-grammar   the same with requests that are nearly right
licence, options, script, log
                   the files of examples/ with random bytes, lines and words changed: the program ends with a status that docs/FORMATS.md
                   names, with its line on standard error, and never by a signal; what `check` prints as canonical text reads back as itself
files-grammar      licences, options files and scripts made by their grammars: `check` and `replay` take them, and the log that the
                   replies make is one that `audit` answers YES to"""

import os
import random
import re
import subprocess
import sys
import tempfile
import time

sys.path.insert(0, os.path.join(os.path.dirname(__file__), "..", "checks"))
from daemon import Daemon, connected

NAMES = {"HELLO": 4, "CHECKOUT": 1, "QUEUE": 1, "CHECKIN": 1, "BEAT": 1, "LOOK": 1, "STATUS": 1, "GLANCE": 1, "REREAD": 0, "QUIT": 0, "SHUTDOWN": 0}
LENGTH = {"HELLO": 5, "CHECKOUT": 3, "QUEUE": 3, "QUIT": 1, "SHUTDOWN": 1}
VERSION = re.compile(rb"\d+(\.\d+)?")
MOST_BYTES = 1024
REPLY = {
    "HELLO": r"WELCOME \d+|GREETED",
    "CHECKOUT": r"(GRANTED SEAT \d+ (OPEN|RESERVE \d+)|RETAKEN SEAT \d+ (OPEN|RESERVE \d+)|DENIED LINE \d+|NOSEAT TAKEN \d+ OF \d+|ALREADYHELD|QUEUED \d+) #\d+|UNKNOWN|EXPIRED .*",
    "CHECKIN": r"(RETURNED|LINGERING UNTIL \d+|UNQUEUED|NOTHELD) #\d+|UNKNOWN",
    "BEAT": r"(BEATEN|NOTHELD|GRANTED SEAT \d+ (OPEN|RESERVE \d+)|QUEUED \d+|DENIED LINE \d+) #\d+|UNKNOWN",
    "LOOK": r"(HELD|NOTHELD|GRANTED SEAT \d+ (OPEN|RESERVE \d+)|QUEUED \d+|DENIED LINE \d+) #\d+|UNKNOWN",
    "STATUS": r"COUNTS HELD \d+ LINGERING \d+ OPEN \d+ OF \d+ OWN [012] #\d+|UNKNOWN",
    "GLANCE": r"GLANCE FRONT \d+ HELD \d+ LINGERING \d+ OPEN \d+ OF \d+ QUEUED \d+|UNKNOWN",
    "REREAD": r"(REREAD|NORULES) \d+",
    "QUIT": "BYE",
    "SHUTDOWN": "STOPPING",
}
REPLY["QUEUE"] = REPLY["CHECKOUT"]
LICENCE = "FEATURE edit acme 2.0 permanent 3 SIGN=00AB\nFEATURE draw acme 1.5 permanent 1 SIGN=00AB\n"
STATUS = {2: r"usage", 3: r"licence: line \d+: .+", 4: r"options( \d)?: line \d+: .+", 5: r"(script|log): line \d+: .+", 10: r"\w+( \d)?: longer than 1048576 bytes", 11: r"log: not a run"}


def wrong(line):
    """Which BAD a line has, by the page on the protocol; 0 where it is a request."""
    if any(byte < 32 or byte > 126 for byte in line):
        return 6
    words = line.split()
    if not words:
        return 1
    verb = words[0].decode()
    if verb not in NAMES:
        return 2
    if len(words) != LENGTH.get(verb, 2):
        return 3
    if any(len(word) > 64 for word in words[1 : 1 + NAMES[verb]]):
        return 4
    if verb in ("CHECKOUT", "QUEUE") and not (VERSION.fullmatch(words[2]) and len(words[2]) <= 10):
        return 5
    if verb == "REREAD" and not (words[1].isdigit() and int(words[1]) < 2**32):
        return 7
    return 0


def expected(lines):
    """A pattern for the reply to each line, until one closes the session."""
    greeted = False
    for line in lines:
        if len(line) > MOST_BYTES:
            return
        bad = wrong(line)
        if bad:
            yield f"BAD {bad}"
            continue
        verb = line.split()[0].decode()
        if verb in ("QUIT", "SHUTDOWN"):
            yield REPLY[verb]
            return
        if verb == "HELLO":
            yield "GREETED" if greeted else r"WELCOME \d+"
            greeted = True
        else:
            yield REPLY[verb] if greeted else "NOHELLO"


def good_line(randoms):
    verb = randoms.choice(["CHECKOUT", "QUEUE", "CHECKIN", "BEAT", "LOOK", "STATUS", "GLANCE", "REREAD", "HELLO"])
    feature = randoms.choice(["edit", "draw", "none", "x" * 64])
    words = {"HELLO": ["ann", "h1", ":0", "p"], "REREAD": [str(randoms.randrange(4))]}.get(verb, [feature])
    if verb in ("CHECKOUT", "QUEUE"):
        words = [feature, randoms.choice(["1.0", "2", "2.0", "3", "0000000000", "1.5"])]
    return " ".join([verb, *words]).encode()


def nearly_good(randoms):
    """A request with a word dropped, doubled, lengthened, put into lower case or set apart by more spaces."""
    words = good_line(randoms).split(b" ")
    at = randoms.randrange(len(words))
    match randoms.randrange(9):
        case 0: del words[at]
        case 1: words.insert(at, words[at])
        case 2: words[at] += b"x" * randoms.choice([1, 53, 63, 64, 65])
        case 3: words[at] = words[at].lower()
        case 4: words[at] = b" " + words[at] + b"  "
        case 5: words[at] = str(randoms.choice([0, 2**32 - 1, 2**32, 10**12])).encode()
        case 6: words[at] = randoms.choice([b".", b"1.", b".1", b"1.2.3", b"-1", b"12345678901", b"\xc3\xa9"])
        case 7: words.append(b"y" * randoms.choice([1, 900, 1010, 1100]))
    return b" ".join(words)


def random_bytes(randoms):
    match randoms.randrange(4):
        case 0: return bytes(randoms.choice([randoms.randrange(256), randoms.randrange(32, 127)]) for _ in range(randoms.randrange(40))).replace(b"\n", b"")
        case 1: return bytes(randoms.randrange(32, 127) for _ in range(randoms.choice([0, 1, 20, 1023, 1024, 1025, 3000])))
        case 2:
            line = bytearray(good_line(randoms))
            line[randoms.randrange(len(line))] = randoms.choice([0, 9, 13, 31, 127, 128, 255, randoms.randrange(32, 127)])
            return bytes(line).replace(b"\n", b"")
    return good_line(randoms)


def in_pieces(randoms, data):
    while data:
        size = randoms.choice([1, 2, 7, 100, 5000])
        yield data[:size]
        data = data[size:]


def talk(daemon, randoms, lines):
    """Sends the lines in pieces, without QUIT at the end, and gives all that comes back until the daemon closes or nothing is owed."""
    link = connected(daemon.path)
    wanted = list(expected(lines))
    closes = len(wanted) < len(lines)
    try:
        for piece in in_pieces(randoms, b"".join(line + b"\n" for line in lines)):
            link.sendall(piece)
    except OSError:
        pass
    got = b""
    while got.count(b"\n") < len(wanted) or closes:
        try:
            more = link.recv(65536)
        except ConnectionResetError:
            break
        if not more:
            break
        got += more
    link.close()
    return wanted, got.decode().splitlines()


def fuzz_protocol(program, randoms, end, make):
    rounds = lines_sent = 0
    with Daemon(program, LICENCE, "LINGER edit 1\nMAX 1 edit USER ann\n", sessions=8, more=["EXCLUDE draw USER ann\n"]) as daemon:
        daemon.is_up()
        while time.monotonic() < end:
            lines = [line for line in ([b"HELLO ann h1 :0 p"] * randoms.randrange(2) + [make(randoms) for _ in range(randoms.randrange(1, 30))]) if wrong(line) or line.split()[0] != b"SHUTDOWN"]
            wanted, got = talk(daemon, randoms, lines)
            if len(wanted) != len(got) or not all(re.fullmatch(pattern, reply) for pattern, reply in zip(wanted, got)):
                sys.exit(f"FAULT: sent {lines}\nwanted {wanted}\ngot {got}")
            rounds, lines_sent = rounds + 1, lines_sent + len(lines)
        status, log, err = daemon.stopped()
        audit = daemon.audited(log)
        if (status, err) != (0, "") or not audit[1].startswith("YES"):
            sys.exit(f"FAULT: the end: {status} {err} {audit}")
    return f"{rounds} sessions, {lines_sent} lines"


def mutated(randoms, data):
    """The bytes with some changes."""
    data = bytearray(data)
    for _ in range(randoms.choice([1, 1, 2, 5])):
        lines = bytes(data).split(b"\n")
        at, other = randoms.randrange(len(lines)), randoms.randrange(len(lines))
        match randoms.randrange(8):
            case 0 if data: data[randoms.randrange(len(data))] = randoms.randrange(256)
            case 1 if data: del data[randoms.randrange(len(data)) :][: randoms.randrange(1, 50)]
            case 2: data[randoms.randrange(len(data) + 1) : 0] = bytes(randoms.randrange(256) for _ in range(randoms.randrange(1, 9)))
            case 3: lines[at] = lines[other]; data = bytearray(b"\n".join(lines))
            case 4:
                words = lines[at].split(b" ")
                words[randoms.randrange(len(words))] = randoms.choice([b"", b"0", b"65535", b"65536", b"99999999999999999999", b"x" * 64, b"x" * 65, b"ALL", b"GROUP", b"\\", b"#"])
                lines[at] = b" ".join(words); data = bytearray(b"\n".join(lines))
            case 5: lines[at] += randoms.choice([b"\\", b"\r", b"\t", b" ", b"\x00"]); data = bytearray(b"\n".join(lines))
            case 6: del lines[at]; data = bytearray(b"\n".join(lines))
            case 7: data = data[: randoms.randrange(len(data) + 1)]
    return bytes(data)


class Files:
    """The program in a folder of its own."""

    def __init__(self, program, folder):
        self.program, self.folder = program, folder

    def run(self, command, **files):
        for name, data in files.items():
            with open(os.path.join(self.folder, name), "wb") as file:
                file.write(data)
        ran = subprocess.run([self.program, command, *files], cwd=self.folder, stdin=subprocess.DEVNULL, capture_output=True, timeout=60)
        err = ran.stderr.decode("ascii").removesuffix("\n")
        if ran.returncode != 0 and not re.fullmatch(STATUS.get(ran.returncode, "there is no such status"), err) or ran.returncode == 0 and err:
            self.keep(f"status {ran.returncode}, {err!r}", files)
        return ran.returncode, ran.stdout

    def keep(self, what, files):
        """Ends with what was wrong, and leaves the files that showed it."""
        kept = tempfile.mkdtemp(prefix="fuzz-")
        for name, data in files.items():
            with open(os.path.join(kept, name), "wb") as file:
                file.write(data)
        sys.exit(f"FAULT: {what}: {kept}")


def example(name):
    with open(os.path.join("examples", "site", name), "rb") as file:
        return file.read()


def fuzz_file(files, randoms, end, which):
    texts = {name: example(name) for name in ("licence", "options", "script", "log")}
    statuses = {}
    while time.monotonic() < end:
        made = dict(texts, **{which: mutated(randoms, texts[which])})
        command = {"script": "replay", "log": randoms.choice(["audit", "usage"])}.get(which, "check")
        named = ["licence", "options"] + [which] * (which in ("script", "log"))
        more = {"more": example("more")} if which in ("script", "log") else {}
        status, out = files.run(command, **{name: made[name] for name in named}, **more)
        statuses[status] = statuses.get(status, 0) + 1
        if command == "check" and status == 0:
            canonical = out.split(b"\nOPTIONS\n", 1)[1]
            again, second = files.run("check", licence=made["licence"], options=canonical)
            if again != 0 or second.split(b"\nOPTIONS\n", 1)[1] != canonical:
                files.keep("the canonical text doesn't read back as itself", made)
    return ", ".join(f"status {status}: {many}" for status, many in sorted(statuses.items()))


def made_files(randoms):
    """A licence of permanent pools of different features, an options file for them, and a script, with the order of its pools."""
    features = [f"f{n}" for n in range(randoms.randrange(1, 6))]
    users = [f"u{n}" for n in range(8)]
    licence = "".join(f"{randoms.choice(['FEATURE', 'increment'])} {name} acme 1.{n} permanent {randoms.randrange(1, 5)} SIGN=00AB\n" for n, name in enumerate(features))
    groups = [f"GROUP g{n} {' '.join(randoms.sample(users, randoms.randrange(1, 5)))}" for n in range(3)]

    def rule():
        feature, who = randoms.choice(features), randoms.choice(["USER " + randoms.choice(users), "GROUP g" + randoms.choice("012"), "HOST h1", "display d", "PROJECT p2"])
        return randoms.choice([f"EXCLUDE {feature} {who}", f"INCLUDE {feature} {who}", f"RESERVE {randoms.randrange(4)} {feature} {who}", f"MAX {randoms.randrange(4)} {feature} {who}",
                               f"LINGER {feature} {randoms.randrange(90)}", f"TIMEOUT {feature} {randoms.randrange(2000)}", f"EXCLUDEALL USER {randoms.choice(users)}", "TIMEOUTALL 1000", "# nothing", ""])

    options = groups + [rule() for _ in range(randoms.randrange(12))]
    randoms.shuffle(options)
    moment, script = 1000, []
    for _ in range(randoms.randrange(1, 80)):
        moment += randoms.choice([0, 0, 1, 30, 500])
        party = randoms.randrange(8)
        verb, feature = randoms.choice(["CHECKOUT", "CHECKOUT", "QUEUE", "CHECKIN", "BEAT", "LOOK", "STATUS", "QUIT"]), randoms.choice(features)
        tail = f" {feature} 0.9" if verb in ("CHECKOUT", "QUEUE") else f" {feature}"
        script.append((moment, party, f"u{randoms.choice([party, party, randoms.randrange(8)])} h{party % 3} d p{party % 4}", verb, features.index(feature), tail))
    return licence, "\n".join(options) + "\n", script


def fuzz_grammar(files, randoms, end):
    rounds = 0
    while time.monotonic() < end:
        licence, options, script = made_files(randoms)
        texts = {"licence": licence.encode(), "options": options.encode()}
        text = "".join(f"{moment} {party} {who} {verb}{tail}\n" for moment, party, who, verb, _, tail in script)
        made = dict(texts, script=text.encode())
        if files.run("check", **texts)[0] != 0:
            files.keep("check refuses files made by the grammar", made)
        status, out = files.run("replay", **made)
        replies = out.decode().splitlines()
        if status != 0 or len(replies) != len(script):
            files.keep("replay refuses files made by the grammar", made)
        log = ""
        for (moment, party, who, verb, pool, _), reply in zip(script, replies):
            words, _, place = reply.rpartition(" #")
            log += f"ENTRY {pool} #{place} {moment} {party} {who} {'COUNT' if verb == 'STATUS' else verb} {words}\n"
        status, said = files.run("audit", **texts, log=log.encode())
        if status != 0 or not said.startswith(f"YES ENTRIES {len(script)}\n".encode()):
            files.keep("audit says no to what replay answered", dict(made, log=log.encode()))
        rounds += 1
    return f"{rounds} sites"


def main():
    what = sys.argv[1] if len(sys.argv) > 1 else ""
    seconds = float(sys.argv[2]) if len(sys.argv) > 2 else 600
    seed = int(sys.argv[3]) if len(sys.argv) > 3 else random.randrange(1_000_000)
    program = os.path.abspath(sys.argv[4] if len(sys.argv) > 4 else "crates/licence_main/out/licence_main")
    randoms, end = random.Random(seed), time.monotonic() + seconds
    print(f"{what}, seed {seed}, {seconds:.0f} s", flush=True)
    if what.startswith("protocol-"):
        print(fuzz_protocol(program, randoms, end, {"protocol-bytes": random_bytes, "protocol-grammar": nearly_good}[what]))
        return
    with tempfile.TemporaryDirectory() as folder:
        files = Files(program, folder)
        if what == "files-grammar":
            print(fuzz_grammar(files, randoms, end))
        elif what in ("licence", "options", "script", "log"):
            print(fuzz_file(files, randoms, end, what))
        else:
            sys.exit(__doc__)


main()
