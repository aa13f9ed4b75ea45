import os
import sys
import tempfile

from timing import least_seconds, program, write

# The longest line of an options file, with a little to spare.
ROOM = 8000


def licence(count):
    return f'SERVER keel 0a1b2c3d4e5f 27015\nVENDOR maker\nUSE_SERVER\nINCREMENT mill maker 1.0 permanent {count} SIGN="91BB 0431"\n'


def group(members):
    """As many GROUP lines of one name as these members need."""
    rows, row = [], "GROUP g"
    for i in range(members):
        if len(row) > ROOM:
            rows.append(row + "\n")
            row = "GROUP g"
        row += f" m{i}"
    return "".join(rows) + row + "\n"


def line(at, party, user, verb):
    """A line of a script, of a party below 256."""
    words = "mill 1.0" if verb in ("CHECKOUT", "QUEUE") else "mill"
    return f"{at} {party} u{user} h d p {verb} {words}\n"


def lingering_users():
    """Each of 4,096 users takes a seat, and gives it back, under a MAX line of a group of 1,000."""
    options = group(1000) + "MAX 4000 mill GROUP g\nLINGER mill 100000\n"
    script = "".join(line(1790030000 + i, i % 256, i, verb) for i in range(4096) for verb in ("CHECKOUT", "CHECKIN"))
    return licence(4096), options, script


def queued_users(lines):
    """20 users wait for the one seat, and the first asks how it stands, under 4,000 EXCLUDE lines of a group of 65,536."""
    options = group(65536) + "EXCLUDE mill GROUP g\n" * 4000
    script = line(1790030000, 0, 0, "CHECKOUT") + "".join(line(1790030000, i, i, "QUEUE") for i in range(1, 21))
    script += "".join(line(1790030001 + i, 1, 1, "LOOK") for i in range(lines))
    return licence(1), options, script


def full_pools(pool, rule):
    """63 pools more under an options file of 4,096 lines and 65,536 members, with these rule lines, and one request."""
    members = [f"m{i * 7919 % 65536:05}" for i in range(65536)]
    groups = "".join(f"GROUP g{i % 256} {' '.join(members[i * 64:i * 64 + 64])}\n" for i in range(1024))
    rules = "".join(f"{rule(i)} GROUP g{i % 256}\n" for i in range(3072))
    licences = "".join(f'INCREMENT {pool(i)} permanent 9 SIGN="91BB 0431"\n' for i in range(63))
    return licence(1) + licences, groups + rules, line(1790030000, 0, 0, "CHECKOUT")


def words_on(files, more):
    """The words of a replay on these files, by so many further options files."""
    licences, options, script = files
    write("licence", licences)
    write("options", options)
    write("script", script)
    return [tool, "replay", "licence", "options", "script"] + ["options"] * more


def seconds(files, more=0):
    lines = files[2].count("\n")
    return least_seconds(words_on(files, more), lambda out: out.count(b"\n") == lines)


def megabytes(files, more=0):
    """What a replay has resident at most."""
    words = words_on(files, more)
    with open(os.devnull, "wb") as nowhere:
        child = os.posix_spawn(tool, words, os.environ, file_actions=[(os.POSIX_SPAWN_DUP2, nowhere.fileno(), 1)])
    _, status, usage = os.wait4(child, 0)
    if status:
        sys.exit(f"bench: the replay ended with {os.waitstatus_to_exitcode(status)}")
    return usage.ru_maxrss / 1024


def tell_full(what, files):
    """Tells time and memory of pools at the limits, by one options file and by four."""
    one, four = seconds(files), seconds(files, 3)
    print(f"64 pools at the limits, {what}: {one * 1000:.0f} ms, {megabytes(files):.0f} MB; four options files: {four * 1000:.0f} ms, {megabytes(files, 3):.0f} MB")
    return one


tool = program()
with tempfile.TemporaryDirectory() as folder:
    os.chdir(folder)
    lingering = seconds(lingering_users()) / 8192
    few, many = seconds(queued_users(20)), seconds(queued_users(220))
    queued = (many - few) / 200
    print(f"a line with 4,096 users: {lingering * 1000:.3f} ms")
    print(f"a line with 20 queued: {queued * 1000:.3f} ms")
    spread = full_pools(lambda i: f"mill{i} maker 1.0", lambda i: f"MAX 9 mill{i % 63}")
    alike = full_pools(lambda i: f"mill maker {i + 2}.0", lambda i: "MAX 9 mill")
    barred = full_pools(lambda i: f"mill{i} maker 1.0", lambda i: "EXCLUDEALL")
    full = [
        tell_full("MAX lines over 63 features", spread),
        tell_full("MAX lines of one feature", alike),
        tell_full("EXCLUDEALL lines", barred),
    ]
sys.exit(max(lingering, queued) > 0.005 or max(full) > 0.2)
