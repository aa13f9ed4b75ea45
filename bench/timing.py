"""What the timings of the built program share."""

import os
import resource
import subprocess
import sys

ROUNDS = 7
MOST = 2.3


def program():
    """The built program, or another one that is named."""
    path = sys.argv[1] if len(sys.argv) > 1 else "crates/licence_main/out/licence_main"
    if not os.access(path, os.X_OK):
        sys.exit(f"bench: {path} isn't built")
    return os.path.abspath(path)


def write(name, text):
    with open(name, "w") as file:
        file.write(text)


def processor_seconds():
    """The processor time of the runs so far, which what else the machine does disturbs little."""
    usage = resource.getrusage(resource.RUSAGE_CHILDREN)
    return usage.ru_utime + usage.ru_stime


def least_seconds(words, is_wanted):
    """The least processor time of some runs, each of which writes what is wanted."""
    best = None
    for _ in range(ROUNDS):
        begin = processor_seconds()
        run = subprocess.run(words, capture_output=True)
        taken = processor_seconds() - begin
        if run.returncode != 0 or not is_wanted(run.stdout):
            sys.exit(f"bench: status {run.returncode}, {len(run.stdout)} bytes, {run.stderr.decode()}")
        best = taken if best is None else min(best, taken)
    return best


def tell(half, full, most=MOST):
    """Prints lines a second at half and at full length, and the ratio of the times; gives whether it is too much."""
    for lines, taken in (half, full):
        print(f"{lines} lines: {taken * 1000:.1f} ms, {lines / taken:.0f} lines a second")
    ratio = full[1] / half[1]
    print(f"ratio {ratio:.2f}")
    return ratio > most
