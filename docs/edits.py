#!/usr/bin/env python3
"""Holds the must-fail edits to what they are for: a promise refuses them, and not their form.

    docs/edits.py [LOG]     LOG: what `rt ci` or `rt must-fail` has said, target/ci.log if none is named; where there is none, nothing is held

rt counts an edit as refused also where it takes away a name that a proof asks for, and says so. Where an edit cannot be applied, compiled or
read, it says that it is bad, and counts it for nothing. Prints each edit of these kinds; the exit status is 1 where there is one.
"""
import pathlib
import re
import sys

ROOT = pathlib.Path(__file__).resolve().parent.parent
OF_FORM = re.compile(r"^rt: (.*: BAD EDIT: .*|.*: refused, as it must be \(only because a proof file names what the edit took away.*)$", re.MULTILINE)


def main():
    log = ROOT / (sys.argv[1] if sys.argv[1:] else "target/ci.log")
    faults = OF_FORM.findall(log.read_text(errors="replace")) if log.is_file() else []
    for fault in faults:
        print(f"refused for its form: {fault[:200]}")
    sys.exit(1 if faults else 0)


main()
