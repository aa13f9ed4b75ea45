import os
import re
import subprocess
import sys
import tempfile

from timing import program

sys.path.insert(0, os.path.join(os.path.dirname(__file__), "..", "checks"))
from daemon import PATIENCE, Daemon

REFUSING = r"""
#define _GNU_SOURCE
#include <dlfcn.h>
#include <fcntl.h>
#include <stdatomic.h>
#include <stdlib.h>
#include <unistd.h>

static atomic_long left;

__attribute__((constructor)) static void begin(void) {
    char *number = getenv("REFUSED");
    left = number ? atol(number) : 0;
}

/* Whether this call is the one that is refused. The file that REFUSED_MARK names is made then. */
static int refuses(void) {
    if (atomic_load(&left) <= 0 || atomic_fetch_sub(&left, 1) != 1) return 0;
    int mark = open(getenv("REFUSED_MARK"), O_CREAT | O_WRONLY, 0600);
    if (mark >= 0) close(mark);
    return 1;
}

void *malloc(size_t size) {
    static void *(*real)(size_t);
    if (!real) real = dlsym(RTLD_NEXT, "malloc");
    return refuses() ? NULL : real(size);
}

void *realloc(void *block, size_t size) {
    static void *(*real)(void *, size_t);
    if (!real) real = dlsym(RTLD_NEXT, "realloc");
    return refuses() ? NULL : real(block, size);
}
"""
SITE = "examples/site"
FIRST = "examples/first"
# Each offline command, where its files and the text that it prints stand, and which files these are.
COMMANDS = (
    ("replay", SITE, ("licence", "options", "script", "more")),
    ("check", SITE, ("licence", "options")),
    ("report", FIRST, ("licence", "options", "script")),
    ("audit", SITE, ("licence", "options", "log", "more")),
    ("usage", SITE, ("licence", "options", "log", "more")),
)
ADVICE = "options: line 9: RESERVE is cut to 2 at pool 2\noptions: line 15: a timeout of 600 counts as 900\n"
TRIAL = "CLIENTS 4 SEATS 2 ROUNDS 50\nGRANTS 200\nCARD USES 200\n"
LICENCE = "FEATURE edit acme 2.0 permanent 1 SIGN=00AB\n"
# What a daemon answers and leaves, its moments and parties put aside.
ASKED = (("HELLO ann h1 d1 p1", r"WELCOME \d"), ("CHECKOUT edit 1.0", "GRANTED SEAT 0 OPEN #0"), ("GLANCE edit", "GLANCE FRONT 1 HELD 1 LINGERING 0 OPEN 1 OF 1 QUEUED 0"), ("SHUTDOWN", "STOPPING"))
LOG = (
    "ENTRY 0 #0 T P ann h1 d1 p1 CHECKOUT GRANTED OPEN\n"
    "ENTRY 0 #1 T P ann h1 d1 p1 QUIT RETURNED\n"
    "LOG 0 ENTRIES 2 WHOLE\n"
    "TALLY 0 CALLS 2 GRANTS 1 CARD USES 1\n"
)
NO_MEMORY = (8, "", "no memory\n")
MOST = 1_000_000


def library(folder):
    """Builds the library that refuses one allocation."""
    source, built = f"{folder}/refusing.c", f"{folder}/refusing.so"
    with open(source, "w") as file:
        file.write(REFUSING)
    subprocess.run([os.environ.get("CC", "cc"), "-shared", "-fPIC", "-o", built, source, "-ldl"], check=True)
    return built


class Refusals:
    """Runs of one command, each of which has one allocation refused, from the first on until none is left to refuse."""

    def __init__(self, folder, refusing):
        self.mark, self.refusing = f"{folder}/mark", refusing

    def given(self, number):
        """The environment in which allocation `number` is refused."""
        if os.path.exists(self.mark):
            os.remove(self.mark)
        return {**os.environ, "LD_PRELOAD": self.refusing, "REFUSED": str(number), "REFUSED_MARK": self.mark}

    def ends(self, ends):
        """How many allocations a run makes, and how often each end came of a refused one. The run past the last of them has to end as `usual`."""
        counts = {}
        for number in range(1, MOST):
            end = ends(number)
            if not os.path.exists(self.mark):
                if end != "usual":
                    sys.exit(f"with nothing refused: {end}")
                return number - 1, counts
            counts[end] = counts.get(end, 0) + 1
        sys.exit("there is no last allocation")


def run(words, env):
    ran = subprocess.run(words, capture_output=True, env=env, stdin=subprocess.DEVNULL, timeout=PATIENCE)
    return ran.returncode, ran.stdout.decode(), ran.stderr.decode()


def told(end, number, usual, others=()):
    """The name of an end, which has to be the usual one, want of memory, or one of these others."""
    named = {usual: "usual", NO_MEMORY: "status 8", **dict(others)}
    if end not in named:
        sys.exit(f"allocation {number}: {end}")
    return named[end]


def offline(refusals, tool, command, example, names):
    with open(f"{example}/expected.{command}") as file:
        usual = (0, file.read(), "")
    words = [tool, command, *[f"{example}/{name}" for name in names]]
    return refusals.ends(lambda number: told(run(words, refusals.given(number)), number, usual))


def trial(refusals, tool):
    words = [tool, "trial-threads", "4", "2", "50"]
    others = [((9, "", "site fault\n"), "status 9")]
    return refusals.ends(lambda number: told(run(words, refusals.given(number)), number, (0, TRIAL, ""), others))


def lint(refusals, tool):
    words = [tool, f"{SITE}/licence", f"{SITE}/options"]
    return refusals.ends(lambda number: told(run(words, refusals.given(number)), number, (1, ADVICE, "")))


class Refusing(Daemon):
    """A daemon that an allocation is refused."""

    env = None

    def run(self, words):
        return subprocess.Popen([self.program, *words], cwd=self.folder, env=self.env, stdin=subprocess.DEVNULL, stdout=subprocess.PIPE, stderr=subprocess.PIPE)


def without_moments(log):
    return re.sub(r"^(ENTRY \d+ #\d+) \d+ \d+ ", r"\1 T P ", log, flags=re.M)


def serve(refusals, tool):
    """A daemon has the end of want of memory, or says that it made no room; or else it answers and leaves what it always does."""
    others = [((9, "", "site fault\n"), "status 9")]

    def end(number):
        Refusing.env = refusals.given(number)
        with Refusing(tool, LICENCE) as daemon:
            if not daemon.is_up():
                return told(daemon.ended(), number, (0, LOG, ""), others)
            return told(asked(daemon, number), number, (0, LOG, ""), others)

    return refusals.ends(end)


def asked(daemon, number):
    """Asks the daemon, and gives what it leaves."""
    with daemon.session() as session:
        for request, wanted in ASKED:
            reply = session.ask(request)
            if not re.fullmatch(wanted, reply or ""):
                sys.exit(f"allocation {number}: {request}: {reply}")
    status, log, err = daemon.ended()
    return status, without_moments(log), err


def client(refusals, tool, program, words, usual, printed):
    """A client ends by want of memory or as always, whatever it is refused. The daemon has its seat back after each, and never hears another name than the environment's."""
    os.environ.update(USER="ann", HOSTNAME="h1", DISPLAY="d1", LM_PROJECT="p1")
    others = [((8, printed, "no memory\n"), "status 8")]
    with Daemon(tool, LICENCE) as daemon:
        if not daemon.is_up():
            sys.exit("the daemon isn't up")

        def end(number):
            status, out, err = run([program, daemon.path, *words], refusals.given(number))
            found = told((status, re.sub(r"#\d+", "#N", out), err), number, usual, others)
            with daemon.session("ann h1 d1 p1") as other:
                for _ in range(1000):
                    if other.ask("CHECKOUT edit 1.0").startswith("GRANTED"):
                        break
                else:
                    sys.exit(f"allocation {number}: the seat wasn't given back")
                other.ask("QUIT")
            return found

        ends = refusals.ends(end)
        status, log, _ = daemon.stopped()
        if status != 0 or any(" ann h1 d1 p1 " not in line for line in log.splitlines() if line.startswith("ENTRY")):
            sys.exit("the daemon didn't end well, or was asked by another name")
        return ends


STATUS = "FEATURE                  IN USE     LINGERING  FREE       WAITING\nedit                     0          0          1          0\n"
GRANTED = "GRANTED SEAT 0 OPEN #N\n"
# Each command, how it ends, and what it may have printed before it found no memory.
ASKS = (
    (("ask", "CHECKOUT edit 1.0"), (0, GRANTED, ""), ""),
    (("status", "edit"), (0, STATUS, ""), ""),
    (("hold", "edit", "1.0"), (0, GRANTED + "RETURNED #N\n", ""), GRANTED),
    (("reread", "0"), (0, "REREAD 0\n", ""), ""),
)


def say(command, found):
    count, ends = found
    print(f"{command}: {count} allocations, {', '.join(f'{name} of {times}' for name, times in sorted(ends.items()))}", flush=True)


def main():
    tool = program()
    with tempfile.TemporaryDirectory() as folder:
        refusals = Refusals(folder, library(folder))
        for command, example, names in COMMANDS:
            say(command, offline(refusals, tool, command, example, names))
        say("trial-threads", trial(refusals, tool))
        say("serve", serve(refusals, tool))
        beside = os.path.dirname(os.path.dirname(os.path.dirname(tool)))
        say("licence_lint", lint(refusals, f"{beside}/licence_lint/out/licence_lint"))
        for words, usual, printed in ASKS:
            say(f"licence_client {words[0]}", client(refusals, tool, f"{beside}/licence_client/out/licence_client", words, usual, printed))


main()
