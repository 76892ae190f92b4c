#!/usr/bin/env python3
"""Compares what a command prints with `--json` with what it prints as text, by the rules of docs/MANUAL.md.

usage: checks/json_answers.py PROGRAM WORD..   the words of a command without --json
"""
import json
import re
import subprocess
import sys

KINDS = "free|page|node|process|annex|bank"
# For each form of a line, the members of its JSON object in order. $1 is the first group of the form.
FORMS = [
    (r"ok generation (\d+) age (\d+) entries (\d+)", [("generation", 1), ("age", 2), ("entries", 3)]),
    (r"range (\d+) (\d+)", [("range", 1), ("count", 2)]),
    (r"(page|node|annex) (\d+) owner (\d+)", [("kind", "$1"), ("number", 2), ("owner", 3)]),
    (r"(process) (\d+) owner (\d+) annex (\d+)", [("kind", "$1"), ("number", 2), ("owner", 3), ("annex", 4)]),
    (r"(bank) (\d+) owner (\d+) limit (\d+)", [("kind", "$1"), ("number", 2), ("owner", 3), ("limit", 4)]),
    (r"(process|node) (\d+), (register|slot) (\d+): (.+)", [("kind", "$1"), ("number", 2), ("$3", 4), ("capability", "$5")]),
    (r"(process) (\d+), space: (.+)", [("kind", "$1"), ("number", 2), ("space", "$3")]),
    (r"(process) (\d+) has annex (\d+)", [("kind", "$1"), ("number", 2), ("annex", 3)]),
    (rf"(bank) (\d+) owns (?:{KINDS}) (\d+)", [("kind", "$1"), ("number", 2), ("owns", 3)]),
    (rf"cannot (change|read) ({KINDS}) (\d+)", [("kind", "$2"), ("number", 3), ("can_$1", False)]),
    (r"eros: (bad image) (\d+)", [("fault", "$1"), ("reason", 2)]),
    (r"eros: (no process|no object) (\d+)", [("fault", "$1"), ("number", 2)]),
    (r"eros: (.+)", [("fault", "$1")]),
    (r"(\w+) (\d+)", [("$1", 2)]),
]


def filled(text, found):
    return re.sub(r"\$(\d)", lambda it: found[int(it[1])], text)


def members(line):
    """The members of the object of a line, in order."""
    for form, rule in FORMS:
        if found := re.fullmatch(form, line):
            return [(filled(key, found), value if value is False else int(found[value]) if isinstance(value, int) else filled(value, found)) for key, value in rule]
    raise ValueError(f"no rule for {line!r}")


def read(line):
    """The members of an object in JSON, in order. A number must be an integer."""
    def no_float(text):
        raise ValueError(f"{text} is no integer")
    return json.loads(line, object_pairs_hook=list, parse_float=no_float, parse_constant=no_float)


def difference(program, words):
    """What differs between the answers as text and as JSON, or None."""
    plain, other = (subprocess.run([program, *words, *more], stdin=subprocess.DEVNULL, capture_output=True, text=True, timeout=120) for more in ([], ["--json"]))
    if (plain.returncode, plain.stderr) != (other.returncode, other.stderr):
        return f"status {other.returncode} and {other.stderr!r}, instead of {plain.returncode} and {plain.stderr!r}"
    wanted = [members(it) for it in (plain.stdout + plain.stderr).splitlines() if not it.startswith("eros: /")]
    said = [read(it) for it in other.stdout.splitlines()]
    return None if said == wanted else f"{other.stdout!r}, and {wanted} is right"


def main():
    if found := difference(sys.argv[1], sys.argv[2:]):
        sys.exit(f"eros {' '.join(sys.argv[2:])} --json: {found}")


if __name__ == "__main__":
    main()
