#!/usr/bin/env python3
"""Holds docs/PROMISES.md to the repository: what its rows name stands where they say.

    docs/promises.py      prints each fault; the exit status is 1 where there is one

The columns of a row, of which each is `-` where there is nothing, or "the same" for what stands in the row above:

- spec: a file crate/specs/File.antt and the names that it defines, and so on: `a/specs/A.antt` `x`, `y`, `b/specs/B.antt` `z`.
- function: crate::name or crate::module::name, with Type:: before the name of a method, and bare names of the crate named last; a bare
  uppinalo_name is of the crate uppinalo. Or "every call", which counts for none.
- theorem: names and in brackets the file of proofs/, or of specs/ for a field of a record, that defines them: `x`, `y` (`a/proofs/A.antt`).
- edits: must-fail edits crate/label, and bare labels of the crate named last.
- test: calls of hosts/calls.txt after `hosts: `, programs, and words.

A name is defined where its type is declared, at the top of a file or in a module, record or data type there. Every must-fail edit stands in
some row and says in a first comment what would be wrong. Every call of include/uppinalo.h stands in rows that name two edits or more.
"""
import functools
import pathlib
import re
import sys

ROOT = pathlib.Path(__file__).resolve().parent.parent
CRATES = ROOT / "crates"
COLUMNS = ["promise", "spec", "function", "theorem", "edits", "test"]

NAME = r"`[^`/]+`"
NAMES = rf"{NAME}(?:, {NAME})*"
SPEC = re.compile(rf"(`\w+/specs/[\w/]+\.antt`) ({NAMES})(?:, |$)")
THEOREM = re.compile(rf"({NAMES}) \((`\w+/(?:proofs|specs)/[\w/]+\.antt`)\)(?:, |$)")
OPENS = re.compile(r"(?:pub )?(?:module|record|data)\b")
DECLARES = re.compile(r"(?:abbrev |unfoldable )?(?:pub )?(?:(?:record|data) (\S+)|(\S+) :(?: |$))")


def rows():
    """The rows of the tables, each a dictionary by columns, with what "the same" stands for; None for a line that is no row."""
    above = {}
    for line in (ROOT / "docs/PROMISES.md").read_text().splitlines():
        if not line.startswith("|") or line.startswith("|---"):
            continue
        cells = [cell.strip() for cell in line.strip("|").split("|")]
        if cells == COLUMNS:
            above = {}
        elif len(cells) != len(COLUMNS):
            yield None
        else:
            row = dict(zip(COLUMNS, cells))
            above = {column: above.get(column, cell) if cell == "the same" else cell for column, cell in row.items()}
            yield above


def quoted(cell):
    return re.findall(r"`([^`]+)`", cell)


@functools.cache
def defined(path):
    """The names that a file defines."""
    found, around = set(), []
    for line in path.read_text().splitlines():
        words = line.strip()
        if not words or words.startswith("--"):
            continue
        indent = len(line) - len(line.lstrip())
        while around and around[-1][0] >= indent:
            around.pop()
        declared = DECLARES.match(words)
        if declared and all(opens for _, opens in around):
            found.add(declared[1] or declared[2])
        around.append((indent, bool(OPENS.match(words))))
    return found


def parts(form, cell):
    """What a form finds in a cell, again and again to its end; None where the cell is not of that form."""
    found, at = [], 0
    while at < len(cell):
        part = form.match(cell, at)
        if not part:
            return None
        found.append(part.groups())
        at = part.end()
    return found


def law_faults(column, cell):
    """The faults of the columns spec and theorem."""
    if cell == "-":
        return
    found = parts(SPEC if column == "spec" else THEOREM, cell)
    if found is None:
        yield f"not of the form of the column {column}: {cell}"
        return
    for part in found:
        (file,), names = (quoted(part[0]), quoted(part[1])) if column == "spec" else (quoted(part[1]), quoted(part[0]))
        if not (CRATES / file).is_file():
            yield f"{file}: no such file"
        else:
            yield from (f"{name}: not defined in {file}" for name in names if name not in defined(CRATES / file))


def has_function(text, types, name):
    """Whether a source file has a function, or the impl or trait of a type a method, of that name."""
    if not types:
        return re.search(rf"^(?:pub(?:\(crate\))? )?(?:extern \"C\" )?fn {name}\b", text, re.MULTILINE)
    head = rf"impl(?:<[^>]*>)? (?:[^{{]*\bfor )?{types[0]}\b[^{{]*|(?:pub(?:\(crate\))? )?trait {types[0]}\b[^{{]*"
    of_type = re.compile(rf"^(?:{head})\{{.*?^}}", re.MULTILINE | re.DOTALL)
    return any(re.search(rf"^    (?:pub(?:\(crate\))? )?fn {name}\b", body, re.MULTILINE) for body in of_type.findall(text))


def function_faults(cell):
    if cell in ("-", "every call"):
        return
    if not re.fullmatch(NAMES, cell):
        yield f"not of the form of the column function: {cell}"
        return
    crate = None
    for name in quoted(cell):
        path = name.split("::")
        if len(path) > 1:
            crate = path[0]
        of = "uppinalo" if path[-1].startswith("uppinalo_") else crate
        types = [word for word in path[1:-1] if word[0].isupper()]
        files = "/".join(word for word in path[1:-1] if word not in types) or "**/*"
        if not of:
            yield f"{name}: of which crate?"
        elif not any(has_function(file.read_text(), types, path[-1]) for file in CRATES.glob(f"{of}/src/{files}.rt")):
            yield f"{name}: no such function"


def edits_of(row):
    crate = None
    for name in quoted(row["edits"]):
        if "/" in name:
            crate, name = name.split("/")
        yield f"{crate}/{name}"


def test_faults(cell):
    calls = (ROOT / "hosts/calls.txt").read_text().splitlines()
    programs = [path.parts[-3] for path in CRATES.glob("*/src/main.rt")]
    for name in quoted(cell):
        if name.removeprefix("hosts: ") not in calls and name not in programs:
            yield f"{name}: neither a call of hosts/calls.txt nor a program"


def call_faults(table):
    """The calls of the header that stand in no row, or in rows with less than two edits."""
    for call in re.findall(r"^\w+ (uppinalo_\w+)\(", (ROOT / "include/uppinalo.h").read_text(), re.MULTILINE):
        its = [row for row in table if call in quoted(row["function"])]
        edits = {edit for row in its for edit in edits_of(row)}
        if not its:
            yield f"{call}: a call that stands in no row"
        elif len(edits) < 2:
            yield f"{call}: its rows name less than two must-fail edits"


def main():
    faults = []
    table = list(rows())
    if None in table:
        faults.append("a row that has not six columns")
        table = [row for row in table if row]
    there = {f"{path.relative_to(CRATES).parts[0]}/{path.stem}": path for path in sorted(CRATES.glob("*/must-fail/**/*.edit"))}
    for row in table:
        own = [*law_faults("spec", row["spec"]), *function_faults(row["function"]), *law_faults("theorem", row["theorem"])]
        own += [f"{edit}: no such must-fail edit" for edit in edits_of(row) if edit not in there]
        own += test_faults(row["test"])
        faults += [f"{fault} (row: {row['promise']})" for fault in own]
    named = {edit for row in table for edit in edits_of(row)}
    faults += [f"{edit}: a must-fail edit that stands in no row" for edit in there if edit not in named]
    faults += [f"{edit}: its first line is no comment" for edit, path in there.items() if not re.match(r"# \S", path.read_text())]
    faults += call_faults(table)
    for fault in dict.fromkeys(faults):
        print(f"docs/PROMISES.md: {fault}")
    sys.exit(1 if faults else 0)


main()
