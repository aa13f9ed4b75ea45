#!/usr/bin/env python3
"""Writes how full features are, for Prometheus: glance_to_prometheus.py SOCKET FILE FEATURE ..

It connects to the daemon, asks GLANCE for each feature, and writes what it was told to FILE, which is replaced in one
step. So the textfile collector of node_exporter, in whose folder FILE stands with a name that ends in .prom, reads the
file before or the file after. A GLANCE makes no entry in a log and waits for no lock; it tells of the first pool of the
feature.

Status 0: FILE tells of each feature. 1: the daemon didn't answer within ten seconds (FILE says licence_up 0 and no
more), or has no such feature (FILE tells of the others); standard error says which. 2: the words aren't as above. 3:
FILE can't be written.
"""

import os
import re
import socket
import sys
import tempfile

SECONDS = 10
NAME = re.compile(r"[!-~]{1,64}")
GLANCE = re.compile(r"GLANCE FRONT (\d+) HELD (\d+) LINGERING (\d+) OPEN (\d+) OF (\d+) QUEUED (\d+)")

METRICS = {
    "licence_held": ("gauge", "Sessions that have a licence."),
    "licence_lingering": ("gauge", "Licences that were given back and linger, as of the last entry."),
    "licence_taken": ("gauge", "Licences in use, lingering ones too, that no RESERVE line keeps."),
    "licence_free": ("gauge", "Licences that no RESERVE line keeps and nobody has."),
    "licence_queued": ("gauge", "Sessions that wait for a licence."),
    "licence_entries": ("counter", "Entries of the pool since the daemon began: requests, and the daemon's looks at seats held in silence."),
}


def numbers(reply):
    """The value of each metric, or None where the reply is no GLANCE."""
    told = GLANCE.fullmatch(reply)
    if not told:
        return None
    entries, held, lingering, taken, unreserved, queued = map(int, told.groups())
    free = max(unreserved - taken, 0)
    return dict(zip(METRICS, (held, lingering, taken, free, queued, entries)))


def glances(path, features):
    """What the daemon tells of each feature. An OSError says that it didn't answer."""
    with socket.socket(socket.AF_UNIX, socket.SOCK_STREAM) as link:
        link.settimeout(SECONDS)
        link.connect(path)
        requests = ["HELLO monitor localhost none none", *(f"GLANCE {feature}" for feature in features), "QUIT"]
        link.sendall("".join(f"{request}\n" for request in requests).encode("ascii"))
        with link.makefile("r", encoding="ascii", newline="\n") as lines:
            replies = [lines.readline().rstrip("\n") for _ in requests]
    if replies[-1] != "BYE":
        raise ConnectionError("the daemon closed the session")
    return {feature: numbers(reply) for feature, reply in zip(features, replies[1:-1])}


def label(feature):
    """A feature as the value of a label."""
    return feature.replace("\\", "\\\\").replace('"', '\\"')


def metrics(is_up, told):
    """The lines of the file."""
    yield "# HELP licence_up Whether the daemon answered."
    yield "# TYPE licence_up gauge"
    yield f"licence_up {int(is_up)}"
    for name, (kind, words) in METRICS.items():
        if told:
            yield f"# HELP {name} {words}"
            yield f"# TYPE {name} {kind}"
        for feature, values in told.items():
            yield f'{name}{{feature="{label(feature)}"}} {values[name]}'


def replace(path, text):
    """Writes a file that anybody may read, in one step for whoever reads it."""
    folder, name = os.path.split(os.path.abspath(path))
    handle, temporary = tempfile.mkstemp(prefix=f".{name}.", dir=folder)
    try:
        with os.fdopen(handle, "w", encoding="ascii") as file:
            file.write(text)
        os.chmod(temporary, 0o644)
        os.replace(temporary, path)
    except OSError:
        os.unlink(temporary)
        raise


def main():
    path, file, *features = sys.argv[1:] if len(sys.argv) > 3 else ("", "")
    if not features or not all(NAME.fullmatch(feature) for feature in features):
        print("usage: glance_to_prometheus.py SOCKET FILE FEATURE ..", file=sys.stderr)
        return 2
    faults, found = [], {}
    try:
        found = glances(path, list(dict.fromkeys(features)))
    except (OSError, ValueError) as fault:
        faults = [f"{path}: {fault}"]
    is_up = not faults
    faults += [f"{path}: no feature {feature}" for feature, values in found.items() if values is None]
    told = {feature: values for feature, values in found.items() if values is not None}
    try:
        replace(file, "".join(f"{line}\n" for line in metrics(is_up, told)))
    except OSError as fault:
        print(f"glance_to_prometheus: {file}: {fault}", file=sys.stderr)
        return 3
    for fault in faults:
        print(f"glance_to_prometheus: {fault}", file=sys.stderr)
    return 1 if faults else 0


if __name__ == "__main__":
    sys.exit(main())
