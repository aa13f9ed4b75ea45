import os
import sys
import tempfile

from timing import least_seconds, program, tell, write

FULL = 1_048_576
PARTS = 64
SIGN = 'SIGN="4F0C 91AA 20D7 91BB 0431 7E20 AA03 55C1 7731 08E4 C20A 6B12 18D0 44A9"'


def licence_line(i):
    """Six lines of eight count for a pool, one of them on two physical lines, one is node-locked, one isn't served."""
    part = (i // 8 * 6 + i % 8) % PARTS
    floats = f"INCREMENT part{part:02} maker 12.{part:02} 31-mar-2028 1"
    if i % 8 == 7:
        return f"FEATURE tool{i} maker 1.0 permanent uncounted HOSTID=ANY {SIGN}\n"
    if i % 8 == 6:
        return f'PACKAGE suite{i} maker 12.0 COMPONENTS="part00 part01" {SIGN}\n'
    if i % 8 == 5:
        return f'{floats} \\\n    VENDOR_STRING="Part {part}, floating" {SIGN}\n'
    return f"{floats} ISSUED=01-apr-2026 {SIGN}\n"


def member(i):
    return f"user{i % 5000:04}.of.town{i % 37:02}"


def options_line(i):
    """Five lines of eight list members, three are rules of a part, and eight lines of remarks stand above."""
    part, team = (i // 8 * 3 + i % 8) % PARTS, i // 8 * 5 % 200
    members = " ".join(member(i * 16 + j) for j in range(16))
    rules = {
        5: f"RESERVE 20 part{part:02} GROUP team{team}\n",
        6: f"MAX 9 part{part:02} GROUP team{team}\n",
        7: f"EXCLUDE part{part:02} USER {member(i)}\n",
    }
    remarks = f"# Team {team}: as its head asked for it, to be looked at again next year.\n" * 8 if i % 8 == 0 else ""
    return remarks + rules.get(i % 8, f"GROUP team{team + i % 8} {members}\n")


def text_of(line, size):
    """As many lines as there is room for."""
    rows, length, i = [], 0, 0
    while length + len(line(i)) <= size:
        rows.append(line(i))
        length += len(rows[-1])
        i += 1
    return "".join(rows)


def measured(size):
    """The physical lines of two files of this size, and the time that `check` takes."""
    licence, options = text_of(licence_line, size), text_of(options_line, size)
    write("licence", licence)
    write("options", options)
    lines = licence.count("\n") + options.count("\n")
    return lines, least_seconds([tool, "check", "licence", "options"], lambda out: out.count(b"\nPOOL ") == PARTS - 1)


tool = program()
with tempfile.TemporaryDirectory() as folder:
    os.chdir(folder)
    too_much = tell(measured(FULL // 2), measured(FULL))
sys.exit(too_much)
