"""A daemon that a check starts, and sessions with it over its socket."""

import os
import signal
import socket
import subprocess
import tempfile
import time

PATIENCE = 30


class Daemon:
    """The built program serving a licence and options files in a folder of its own."""

    def __init__(self, program, licence, options="", sessions=4, more=(), folder=None):
        self.program = program
        self.kept = None if folder else tempfile.TemporaryDirectory()
        self.folder = folder or self.kept.name
        self.path = os.path.join(self.folder, "socket")
        files = {"licence": licence, "options": options, **{f"more{n}": text for n, text in enumerate(more, 1)}}
        for name, text in files.items():
            with open(os.path.join(self.folder, name), "w") as file:
                file.write(text)
        self.further = [f"more{n}" for n in range(1, len(more) + 1)]
        self.words = ["serve", "licence", "options", "socket", str(sessions), *self.further]
        self.process = self.run(self.words)

    def run(self, words):
        """Starts the program in the folder."""
        return subprocess.Popen([self.program, *words], cwd=self.folder, stdin=subprocess.DEVNULL, stdout=subprocess.PIPE, stderr=subprocess.PIPE)

    def is_up(self):
        """Whether the socket takes a connection, which it waits for while the program runs. That a request is answered it doesn't tell."""
        end = time.monotonic() + PATIENCE
        while time.monotonic() < end and self.process.poll() is None:
            try:
                connected(self.path).close()
                return True
            except OSError:
                time.sleep(0.002)
        return False

    def session(self, client=None):
        return Session(self.path, client)

    def kill(self):
        self.process.send_signal(signal.SIGKILL)
        self.process.communicate()

    def ended(self, seconds=PATIENCE):
        """The exit status, and what was written to standard output and standard error."""
        out, err = self.process.communicate(timeout=seconds)
        return self.process.returncode, out.decode(), err.decode()

    def stopped(self, seconds=PATIENCE):
        """As `ended`, once a session has asked to shut down."""
        with self.session() as last:
            last.ask("SHUTDOWN")
        return self.ended(seconds)

    def audited(self, log):
        """What an audit of the log says: its status and its text."""
        with open(os.path.join(self.folder, "log"), "w") as file:
            file.write(log)
        ran = self.run(["audit", "licence", "options", "log", *self.further])
        out, err = ran.communicate(timeout=PATIENCE)
        return ran.returncode, (out + err).decode()

    def __enter__(self):
        return self

    def __exit__(self, *_):
        if self.process.poll() is None:
            self.kill()
        for stream in (self.process.stdout, self.process.stderr):
            stream.close()
        if self.kept:
            self.kept.cleanup()


def connected(path):
    link = socket.socket(socket.AF_UNIX, socket.SOCK_STREAM)
    link.settimeout(PATIENCE)
    try:
        link.connect(path)
    except OSError:
        link.close()
        raise
    return link


class Session:
    """One connection. With a client it says HELLO first."""

    def __init__(self, path, client=None):
        self.link = connected(path)
        self.read = b""
        if client:
            self.ask(f"HELLO {client}")

    def send(self, text):
        self.link.sendall(text.encode())

    def line(self):
        """The next reply line, or None where the connection was closed."""
        while b"\n" not in self.read:
            more = self.link.recv(65536)
            if not more:
                return None
            self.read += more
        line, _, self.read = self.read.partition(b"\n")
        return line.decode()

    def ask(self, request):
        self.send(request + "\n")
        return self.line()

    def close(self):
        self.link.close()

    def __enter__(self):
        return self

    def __exit__(self, *_):
        self.close()
