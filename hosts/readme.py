#!/usr/bin/env python3
"""Runs README.md: its examples are the files that it shows, and its commands print what it says.

    hosts/readme.py [--stub]

- The blocks of C, Rust and Python are the files in EXAMPLES, in their order and byte for byte.
- A block of commands is run in the repository, and its output is the next block of text, if there is one.
- A command of `make` that is named anywhere is one that the Makefile has.

A block of commands that needs a call, or the program `listing`, which hosts/calls.txt does not list yet, is left out.
With --stub the second program stands in the archive's place (hosts/stub/build).
"""
import os
import pathlib
import re
import subprocess
import sys

ROOT = pathlib.Path(__file__).resolve().parent.parent
EXAMPLES = {
    "c": ["hosts/c/example.c"],
    "rust": ["hosts/binding/examples/example.rs"],
    "fortran": ["hosts/fortran/example.f90"],
    "python": [f"hosts/python/examples/{name}.py" for name in ("example", "cutover", "datetime64", "fragments", "tt2000")],
}
STUB = [
    ("target/staticlib/", "target/stub/"),
    ("PYTHONPATH", "UPPINALO_LIBRARY=target/stub/libuppinalo.so PYTHONPATH"),
    ("-p uppinalo", "-p uppinalo --features stub"),
]


def blocks(text):
    """The fenced blocks: language and content."""
    return re.findall(r"^```(\w+)\n(.*?)^```$", text, re.MULTILINE | re.DOTALL)


def listed(path):
    return {line for line in path.read_text().split("\n") if line and not line.startswith("#")}


def needed(commands):
    """The calls that a block of commands needs: the examples of an axis make those of the one in C."""
    example = (ROOT / EXAMPLES["c"][0]).read_text()
    calls = {
        "example": set(re.findall(r"uppinalo_(\w+)\(", example)),
        "cutover.py": {"read_units", "read_whole", "write_iso", "write_fields"},
        "datetime64.py": {"read_datetime64", "write_datetime64", "write_iso"},
        "fragments.py": {"start_units", "add_units", "end_units", "fields_of", "read_whole", "write_iso"},
        "tt2000.py": {"read_tt2000", "write_tt2000"},
        "target/bin/listing": {"listing"},
    }
    return set().union(*(named for word, named in calls.items() if word in commands))


def run(commands):
    done = subprocess.run(["sh", "-e"], input=commands, cwd=ROOT, capture_output=True, text=True, check=False)
    if done.returncode:
        sys.exit(f"README.md: these commands fail:\n{commands}{done.stdout}{done.stderr}")
    return done.stdout


def check_commands(commands, expected, is_stub):
    calls = listed(ROOT / ("target/stub/calls.txt" if is_stub else "hosts/calls.txt"))
    missing = needed(commands) - calls
    if missing:
        print(f"README.md: not run, since not exported yet: {', '.join(sorted(missing))}: {commands.splitlines()[-1]}")
        return
    for before, after in STUB if is_stub else []:
        commands = commands.replace(before, after)
    output = run(commands)
    if expected is not None and output != expected:
        sys.exit(f"README.md: these commands\n{commands}print\n{output}and not\n{expected}")


def check_targets(text):
    for target in sorted(set(re.findall(r"\bmake (\w+)", text))):
        if subprocess.run(["make", "-n", target], cwd=ROOT, capture_output=True, check=False).returncode:
            sys.exit(f"README.md: make {target}: the Makefile has no such target")


def main():
    is_stub = sys.argv[1:] == ["--stub"]
    text = (ROOT / "README.md").read_text()
    found = blocks(text)
    for language, paths in EXAMPLES.items():
        if [content for kind, content in found if kind == language] != [(ROOT / path).read_text() for path in paths]:
            sys.exit(f"README.md: its examples in {language} are not {' and '.join(paths)}")
    if {language for language, _ in found} != {*EXAMPLES, "sh", "text"}:
        sys.exit("README.md: a block is missing, or of another language")
    check_targets(text)
    for place, (language, content) in enumerate(found):
        if language == "sh":
            expected = next((later for kind, later in found[place:] if kind == "text"), None)
            check_commands(content, expected, is_stub)
    print("README.md: ok")


os.environ.pop("MAKEFLAGS", None)
main()
