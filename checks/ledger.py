"""Looks that each function and clause that docs/PROOFS.md names is there.

A row of the ledger stands under the heading of its crate, `### `crate``, and is | claim | function | clause | file |. The
file stands below the crate's folder. The clause is the name of an `ensures`, or `the contract` where a function has one
`ensures` without a name.
"""

import os
import re
import sys

PAGE = "docs/PROOFS.md"
HEADING = re.compile(r"### `(\w+)`$")
ROW = re.compile(r"\| .* \| `([\w:]+)` \| (?:`(\w+)`|the contract) \| `([\w/.]+)` \|$")
END_OF_HEAD = re.compile(r"^\s*\{(?!.*\})|\{\}\s*$|;\s*$", re.MULTILINE)
UNNAMED = ""


def clauses(text, function):
    """The names of the clauses of each function of this name in a source text; an unnamed one is empty."""
    for start in re.finditer(rf"\bfn {function}\b", text):
        behind = text[start.start():]
        end = END_OF_HEAD.search(behind)
        head = behind[: end.end()] if end else behind
        yield set(re.findall(r"^\s*ensures\*? *(\w*) *\{", head, re.MULTILINE))


def fault(crate, function, clause, file):
    """What is wrong with a row, or nothing."""
    path = f"crates/{crate}/{file}"
    if not os.path.exists(path):
        return f"there is no {path}"
    with open(path) as source:
        text = source.read()
    *owner, name = function.split("::")
    if owner and not re.search(rf"\b(impl|trait)\b.*\b{owner[0]}\b", text):
        return f"{path} has no impl or trait {owner[0]}"
    found = list(clauses(text, name))
    if not found:
        return f"{path} has no function {name}"
    if not any(clause in names for names in found):
        return f"{function} in {path} has no clause {clause or 'without a name'}"
    return None


def main():
    crate, rows, wrong = None, 0, 0
    with open(PAGE) as page:
        for number, line in enumerate(page, 1):
            heading, row = HEADING.match(line), ROW.match(line)
            crate = heading[1] if heading else crate
            why = None
            if row:
                rows += 1
                why = fault(crate, row[1], row[2] or UNNAMED, row[3])
            elif crate and line.startswith("| ") and not line.startswith("| claim |"):
                why = "no row of the ledger"
            elif line.startswith("## "):
                crate = None
            if why:
                print(f"{PAGE}: line {number}: {why}")
                wrong += 1
    if not rows:
        print(f"{PAGE}: no rows")
    return 1 if wrong or not rows else 0


sys.exit(main())
