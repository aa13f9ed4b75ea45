#!/usr/bin/env python3
"""Runs a command while it holds a licence: client.py SOCKET FEATURE VERSION COMMAND [WORD ..]

It waits in the queue where no licence is free, says once a minute that it still runs, and gives the licence back at the end.
Status 2: the words aren't as above; 3: denied, and the line that standard error shows says by which line of the options file;
4: the daemon has no such licence; 5: the daemon isn't there, or it took the licence back or went away, and the command was
ended; 127: the command could not be started; else the command's own.
"""

import getpass
import os
import socket
import subprocess
import sys
import time

BEAT_SECONDS = 60


class Licences:
    def __init__(self, path):
        self.link = socket.socket(socket.AF_UNIX, socket.SOCK_STREAM)
        self.link.settimeout(30)
        self.link.connect(path)
        self.lines = self.link.makefile("r", encoding="ascii", newline="\n")

    def ask(self, request):
        """The reply line; a closed link is a fault."""
        self.link.sendall(f"{request}\n".encode("ascii"))
        reply = self.lines.readline()
        if not reply.endswith("\n"):
            raise ConnectionError("the daemon closed the session")
        return reply.rstrip("\n")


def checked_out(licences, feature, version, pause):
    """The reply once there is a licence, or one that says that there will be none."""
    reply = licences.ask(f"CHECKOUT {feature} {version}")
    if reply.startswith("NOSEAT"):
        reply = licences.ask(f"QUEUE {feature} {version}")
    while reply.startswith("QUEUED"):
        pause()
        reply = licences.ask(f"BEAT {feature}")
    return reply


def is_kept(licences, feature):
    """Whether the daemon still knows of the licence, which a BEAT asks."""
    try:
        return not licences.ask(f"BEAT {feature}").startswith("NOTHELD")
    except OSError as fault:
        print(f"client: {fault}", file=sys.stderr)
        return False


def main():
    if len(sys.argv) < 5:
        print("usage: client.py SOCKET FEATURE VERSION COMMAND [WORD ..]", file=sys.stderr)
        return 2
    path, feature, version, *command = sys.argv[1:]
    licences = Licences(path)
    host = socket.gethostname()
    licences.ask(f"HELLO {getpass.getuser()} {host} {os.environ.get('DISPLAY') or ':0'} none")
    reply = checked_out(licences, feature, version, lambda: time.sleep(1))
    if not reply.startswith(("GRANTED", "RETAKEN")):
        print(reply, file=sys.stderr)
        return 3 if reply.startswith("DENIED") else 4
    try:
        work = subprocess.Popen(command)
    except OSError as fault:
        print(f"client: {fault}", file=sys.stderr)
        return 127
    while True:
        try:
            status = work.wait(BEAT_SECONDS)
            break
        except subprocess.TimeoutExpired:
            if not is_kept(licences, feature):
                work.terminate()
                work.wait()
                return 5
    licences.ask(f"CHECKIN {feature}")
    licences.ask("QUIT")
    return status


if __name__ == "__main__":
    try:
        sys.exit(main())
    except OSError as fault:
        print(f"client: {fault}", file=sys.stderr)
        sys.exit(5)
