#!/usr/bin/env python3
"""Writes an options file of rules in which s00001..s01000 stands for all these names: make_options.py <rules >options

Each line stays where it is, so a line of the options file has the number that it has in the rules. Remarks stay as they
are. A span of which the last number is below the first, or has another count of digits, and a line longer than the
8,192 bytes that a line of an options file may have, end the program with status 1, and standard error names the line.
"""

import re
import sys

SPAN = re.compile(r"(?<!\S)(\S*?)(\d+)\.\.\1(\d+)(?!\S)")
LONGEST = 8192


def names(span):
    """The names of a span, with a space between."""
    head, first, last = span.groups()
    if len(first) != len(last) or int(first) > int(last):
        raise ValueError(f"no span of names: {span[0]}")
    return " ".join(f"{head}{number:0{len(first)}}" for number in range(int(first), int(last) + 1))


def written_out(line):
    if line.lstrip().startswith("#"):
        return line
    whole = SPAN.sub(names, line)
    if len(whole.rstrip("\n").encode()) > LONGEST:
        raise ValueError(f"longer than {LONGEST} bytes: write more lines of this group")
    return whole


for number, line in enumerate(sys.stdin, 1):
    try:
        sys.stdout.write(written_out(line))
    except ValueError as fault:
        sys.exit(f"make_options: line {number}: {fault}")
