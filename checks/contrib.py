"""Tries what stands in contrib: the file for Prometheus, installing and removing, completion, the unit's commands."""

import os
import re
import shutil
import subprocess
import sys
import tempfile

from daemon import PATIENCE, Daemon

LICENCE = "FEATURE edit acme 2.0 permanent 3 SIGN=00AB\nFEATURE draw acme 1.0 permanent 2 SIGN=00AC\n"
OPTIONS = "RESERVE 1 edit USER mia\nLINGER draw 600\n"
ANN, BOB = "ann h1 d1 p1", "bob h2 d2 p2"

# ann holds edit, and draw lingers for her; bob waits for nothing. Of edit 2 licences are for everybody.
TOLD = """licence_up 1
licence_held{feature="edit"} 1
licence_held{feature="draw"} 0
licence_lingering{feature="edit"} 0
licence_lingering{feature="draw"} 1
licence_taken{feature="edit"} 1
licence_taken{feature="draw"} 1
licence_free{feature="edit"} 1
licence_free{feature="draw"} 1
licence_queued{feature="edit"} 0
licence_queued{feature="draw"} 0
licence_entries{feature="edit"} 1
licence_entries{feature="draw"} 2
"""

COMPLETIONS = (
    ("licence_main ''", "serve check replay report audit usage trial-replay trial-threads"),
    ("licence_main trial-threads 4", ""),
    ("licence_main trial-replay 8", ""),
    ("licence_main re", "replay report"),
    ("licence_main serve licence", ""),
    ("licence_main lend", ""),
    ("licence_client ''", ""),
    ("licence_client socket ''", "ask status hold reread shutdown"),
    ("licence_client --user ann socket s", "status shutdown"),
    ("licence_client --user = ann socket s", "status shutdown"),
    ("licence_client --user s", ""),
    ("licence_client --wait socket s", "status shutdown"),
    ("licence_client socket status e", ""),
)

UNIT = "contrib/licence_main.service"

faults = []


def looked_at(text):
    """The text with one entry of edit: a session that is silent for a second is asked how it stands, and that is an entry."""
    return re.sub(r'(licence_entries\{feature="edit"\}) [1-9]\d*', r"\1 1", text)


def same(what, found, wanted):
    if found != wanted:
        faults.append(f"{what}: {found!r} and not {wanted!r}")


def run(words, **more):
    return subprocess.run(words, capture_output=True, text=True, timeout=PATIENCE, **more)


def values(path):
    """The lines of a file for Prometheus that are no remarks."""
    with open(path) as file:
        return "".join(line for line in file if not line.startswith("#"))


def prometheus(program):
    with Daemon(program, LICENCE, OPTIONS) as daemon:
        daemon.is_up()
        file = f"{daemon.folder}/licences.prom"
        words = [sys.executable, "contrib/glance_to_prometheus.py", daemon.path, file, "edit", "draw"]
        with daemon.session(ANN) as ann:
            for request in ("CHECKOUT edit 1.0", "CHECKOUT draw 1.0", "CHECKIN draw"):
                ann.ask(request)
            same("prometheus: status", run(words).returncode, 0)
            same("prometheus: file", looked_at(values(file)), TOLD)
            same("prometheus: others may read it", os.stat(file).st_mode & 0o777, 0o644)
            same("prometheus: no such feature", run([*words, "none"]).returncode, 1)
            same("prometheus: the others", looked_at(values(file)), TOLD)
        daemon.stopped()
        same("prometheus: no daemon", (run(words).returncode, values(file)), (1, "licence_up 0\n"))
        left = sorted(os.listdir(daemon.folder))
        same("prometheus: nothing else is left", left, ["licence", "licences.prom", "options"])
        same("prometheus: words", run(words[:-2]).returncode, 2)


def paths(folder):
    return sorted(os.path.join(root, name) for root, folders, files in os.walk(folder) for name in folders + files)


def installed(program):
    """Installs a copy of what is built, twice, and removes it: what was there before is left, and nothing else."""
    with tempfile.TemporaryDirectory() as folder:
        prefix, copy = f"{folder}/prefix", f"{folder}/copy"
        os.makedirs(f"{prefix}/bin")
        os.makedirs(f"{copy}/crates/licence_main/out")
        open(f"{prefix}/bin/other", "w").close()
        shutil.copy(program, f"{copy}/crates/licence_main/out/licence_main")
        shutil.copytree("contrib", f"{copy}/contrib")
        shutil.copytree("docs", f"{copy}/docs")
        before = paths(prefix)
        install = ["sh", f"{copy}/contrib/install.sh"]
        for time in ("once", "twice"):
            ran = run([*install, prefix])
            are_there = all(map(os.path.isfile, ran.stdout.split()))
            same(f"install: {time}", (ran.returncode, ran.stderr, are_there), (0, "", True))
        same("install: the program runs", run([f"{prefix}/bin/licence_main"]).stderr, "usage\n")
        with open(f"{prefix}/lib/systemd/system/licence_main.service") as unit:
            same("install: the unit runs it", f"exec {prefix}/bin/licence_main serve" in unit.read(), True)
        same("install: remove", (run([*install, "--remove", prefix]).returncode, paths(prefix)), (0, before))
        same("install: remove what isn't there", run([*install, "--remove", prefix]).returncode, 1)


def completion(_):
    for words, wanted in COMPLETIONS:
        program, at = words.split()[0], len(words.split()) - 1
        script = f"COMP_WORDS=({words}) COMP_CWORD={at}; compopt() {{ :; }}; _{program} {program}; echo ${{COMPREPLY[*]}}"
        same(f"completion: {words}", run(["bash", "-c", f". contrib/licence_main.bash; {script}"]).stdout, wanted + "\n")


def command(field, folder):
    """The shell's words of a line of the unit, with the folder in place of the system's."""
    with open(UNIT) as unit:
        line = next(line for line in unit if line.startswith(field + "="))
    script = line.partition("/bin/sh -c '")[2].rstrip("\n").removesuffix("'")
    script = script.replace("\\\\", "\\").replace("$$", "$").replace("%%", "%")
    for path in ("/etc/licences", "/run/licences", "/var/lib/licences"):
        script = script.replace(path, folder)
    return script


def unit(program):
    """Starts, asks and stops the daemon as the unit does: once the stopping command has ended, the log is whole."""
    if not shutil.which("socat"):
        print("contrib: the unit's commands were not run, since there is no socat")
        return
    with tempfile.TemporaryDirectory() as folder:
        for name, text in (("licence", LICENCE), ("options", OPTIONS)):
            with open(f"{folder}/{name}", "w") as file:
                file.write(text)
        start = command("ExecStart", folder).replace("/usr/local/bin/licence_main", program)
        process = subprocess.Popen(["sh", "-c", start], stdin=subprocess.DEVNULL)
        environment = {**os.environ, "MAINPID": str(process.pid)}
        same("unit: up", run(["sh", "-c", command("ExecStartPost", folder)], env=environment).returncode, 0)
        stopping = ["sh", "-c", command("ExecStop", folder)]
        stop = subprocess.Popen(stopping, env=environment, stdout=subprocess.PIPE, text=True)
        same("unit: status", process.wait(PATIENCE), 0)
        same("unit: stop", (stop.communicate(timeout=PATIENCE)[0], stop.returncode), ("STOPPING\n", 0))
        logs = [name for name in os.listdir(folder) if name.startswith("log.")]
        with open(f"{folder}/{logs[0]}") as log:
            same("unit: log", log.read().split("\n")[0], "LOG 0 ENTRIES 0 WHOLE")
        same("unit: not up", run(["sh", "-c", command("ExecStartPost", folder)], env=environment).returncode, 1)


def main():
    program = os.path.abspath(sys.argv[1] if len(sys.argv) > 1 else "crates/licence_main/out/licence_main")
    if not os.access(program, os.X_OK):
        sys.exit(f"contrib: {program} isn't built: rt ci builds it")
    for case in (prometheus, installed, completion, unit):
        case(program)
    for fault in faults:
        print(f"contrib: {fault}")
    return 1 if faults else 0


sys.exit(main())
