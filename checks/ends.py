"""Runs the built program on each case of checks/ends.cases, and compares its exit status and what it writes. Another program may
be named, and behind it another file of cases, such as checks/lint.cases.

A case begins with a line `case: NAME`, and then has lines `FIELD: VALUE`:

    words     the words behind the program's name
    NAME      what the file NAME holds; in place of text `absent`, `folder`, `fifo TEXT`, `bytes N`, which is N times `#`, or
              `each N TEXT`, which is TEXT N times, with the number from 0 in place of {}
    out, err  where standard output and standard error go: `closed`, `full` (/dev/full), `broken` (a pipe that nobody
              reads), or `room N`, a file that takes N bytes
    status, stdout, stderr
              what is wanted. A stdout of `any` isn't compared.
    cut       names of files, each of which is also tried cut after each of its bytes: it is read, or refused with its own line

Values have Python's escapes, as \\n, \\t, \\x00 and \\xff, and `{N*TEXT}` in them, with any TEXT of values, is TEXT N times. What a
case leaves out is as in the case `usual`.
"""

import ast
import os
import re
import resource
import signal
import subprocess
import sys
import tempfile
import threading

CASES = sys.argv[2] if len(sys.argv) > 2 else "checks/ends.cases"
WANTED = ("words", "out", "err", "status", "stdout", "stderr", "cut")
SECONDS = 10

# The status and the line of a file that is refused.
REFUSALS = {
    "licence": (3, rb"licence: line \d+: [a-z]+[ a-z0-9]*\n"),
    "options": (4, rb"options: line \d+: [a-z ]+\n"),
    "script": (5, rb"script: line \d+: [a-z ]+\n"),
}


def text(value):
    """The bytes of a value with escapes and repetitions."""
    held, count = ast.literal_eval("b'" + value.replace("'", "\\'") + "'"), 1
    while count:
        held, count = re.subn(rb"\{(\d+)\*([^{}]*)\}", lambda found: int(found[1]) * found[2], held)
    return held


def cases():
    """Each case as its name and its fields, with those of the case `usual`, the first, where it has none."""
    usual, name, fields = None, None, {}
    with open(CASES) as lines:
        for line in [*lines, "case:\n"]:
            field, colon, value = line.rstrip("\n").partition(":")
            value = value.removeprefix(" ")
            if not colon or line.startswith("#"):
                continue
            if field == "case":
                if name:
                    usual = usual or fields
                    yield name, {**usual, **fields}
                name, fields = value, {}
            else:
                fields[field] = value


def lay(name, value):
    """Makes a file."""
    kind, _, rest = value.partition(" ")
    if kind == "absent":
        return
    if kind == "folder":
        os.mkdir(name)
    elif kind == "fifo":
        os.mkfifo(name)
        threading.Thread(target=lambda: open(name, "wb").write(text(rest)), daemon=True).start()
    else:
        if kind == "bytes":
            held = b"#" * int(rest)
        elif kind == "each":
            count, _, line = rest.partition(" ")
            held = b"".join(text(line.replace("{}", str(n))) for n in range(int(count)))
        else:
            held = text(value)
        with open(name, "wb") as file:
            file.write(held)


def target(where):
    """What a stream is given to."""
    if where == "full":
        return open("/dev/full", "wb")
    if where == "broken":
        reads, writes = os.pipe()
        os.close(reads)
        return open(writes, "wb")
    if where.startswith("room "):
        return tempfile.TemporaryFile()
    return subprocess.PIPE


def limit(given):
    """Closes, in the program's own process, what is to be closed, and limits what its files take."""
    for number, where in enumerate(given, 1):
        kind, _, room = where.partition(" ")
        if kind == "closed":
            os.close(number)
        elif kind == "room":
            signal.signal(signal.SIGXFSZ, signal.SIG_IGN)
            resource.setrlimit(resource.RLIMIT_FSIZE, (int(room), int(room)))


def written(stream, piped):
    """What was written to a stream, where it was kept."""
    if stream == subprocess.PIPE:
        return piped
    with stream:
        return stream.seek(0) or stream.read() if stream.readable() else b""


def run(program, fields):
    """The status of a run, and what it wrote to standard output and standard error where they were kept."""
    given = [fields.get("out", ""), fields.get("err", "")]
    streams = [target(where) for where in given]
    words = [text(word) for word in fields["words"].split(" ") if word]
    ran = subprocess.run(
        [program, *words],
        stdin=subprocess.DEVNULL,
        stdout=streams[0],
        stderr=streams[1],
        preexec_fn=lambda: limit(given),
        timeout=SECONDS,
    )
    return ran.returncode, written(streams[0], ran.stdout), written(streams[1], ran.stderr)


def lay_all(fields):
    """Makes the files of a case."""
    for name, value in fields.items():
        if name not in WANTED:
            lay(name, value)


def faults(program, fields):
    """What differs from what is wanted."""
    with tempfile.TemporaryDirectory() as folder:
        os.chdir(folder)
        lay_all(fields)
        status, out, err = run(program, fields)
        os.chdir("/")
    wanted = int(fields["status"]), text(fields["stdout"]), text(fields["stderr"])
    if status != wanted[0]:
        yield f"status {status} and not {wanted[0]}"
    if out != wanted[1] and fields["stdout"] != "any":
        yield f"standard output {out[:200]} and not {wanted[1][:200]}"
    if err != wanted[2]:
        yield f"standard error {err[:200]} and not {wanted[2][:200]}"


def cut(program, fields):
    """What is wrong with the ends of a case whose files of the field `cut` are cut: each is done, or a refusal of that file."""
    if "cut" not in fields:
        return
    with tempfile.TemporaryDirectory() as folder:
        os.chdir(folder)
        lay_all(fields)
        for name in fields["cut"].split():
            whole, (refusal, line) = text(fields[name]), REFUSALS[name]
            for end in range(len(whole) + 1):
                with open(name, "wb") as file:
                    file.write(whole[:end])
                status, out, err = run(program, fields)
                is_done = status == 0 and not err and (out or not fields["words"].startswith("check"))
                is_refused = status == refusal and not out and re.fullmatch(line, err)
                if not is_done and not is_refused:
                    yield f"{name} cut at byte {end}: status {status}, {err}"
        os.chdir("/")


def main():
    program = os.path.abspath(sys.argv[1] if len(sys.argv) > 1 else "crates/licence_main/out/licence_main")
    if not os.access(program, os.X_OK):
        sys.exit(f"ends: {program} isn't built: rt ci builds it")
    wrong, count = 0, 0
    for name, fields in list(cases()):
        count += 1
        for fault in [*faults(program, fields), *cut(program, fields)]:
            print(f"ends: {name}: {fault}")
            wrong += 1
    print(f"ends: {count} cases, {wrong} differences")
    return 1 if wrong or not count else 0


sys.exit(main())
