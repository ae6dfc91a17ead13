#!/usr/bin/env python3
"""Brings this repository's own definitions and lemmas to the spelling of Rattle: words in snake case.

    tools/respell.py [--list] [FOLDER]    FOLDER: the top of a checkout on which port.py has run, this repository if none is named

Which names: those that the .antt files of crates/ declare. A lemma that would fall together with the definition that it speaks of gets `_lem`.
Functions of src/, paths and names that Rattle makes keep their spelling. --list prints the names, old and new, and writes nothing.
"""
import collections
import pathlib
import re
import sys

WORD = r'[^\s(){}.;,@"«»]+'
DECLARED = re.compile(rf"^(\s*)((?:(?:abbrev|unfoldable|pub)\s+)*)({WORD})((?:\s+{WORD})*)\s+:\s")
TOKEN = re.compile(rf"(?<![^\s(){{}}.;,@\"«»]){WORD}")
CAMEL = re.compile(r"^[a-z]\w*[A-Z]")


def snake(name):
    name = re.sub(r"([a-z0-9])([A-Z])", r"\1_\2", name.replace("-", "_"))
    return name.lower()


def sources(top):
    for path in sorted((top / "crates").glob("*/**/*")):
        if path.suffix in (".antt", ".rt") and "out" not in path.relative_to(top).parts:
            yield path


def declarations(top):
    """The names declared in lemma files and specs, and for each proof of a function those that it declares."""
    shared, local = set(), collections.defaultdict(set)
    for path in sources(top):
        if path.suffix != ".antt":
            continue
        for line in path.read_text().split("\n"):
            found = DECLARED.match(line)
            if found:
                names = {found[3], *found[4].split()}
                if path.parent.name in ("specs", "proofs"):
                    shared |= names
                else:
                    local[path] |= names
    return shared, local


def turns(name):
    return bool(re.match(r"^[a-z]", name)) and ("-" in name or bool(CAMEL.match(name)))


def table(shared):
    new = {name: snake(name) for name in shared if turns(name)}
    taken = {name for name in shared if not turns(name)} | {new[name] for name in new if CAMEL.match(name)}
    for name in new:
        if not CAMEL.match(name) and new[name] in taken:
            new[name] += "_lem"
    return new


#: Lemmas that are in snake case already and would fall together with a definition that is used beside them, and the files that use them.
BESIDE = {
    "place_at": ("calendar/proofs/Cutovers.antt", "calendar/proofs/Days.antt", "calendar/proofs/Places.antt", "calendar/proofs/row/from_of/Proof.antt"),
    "in_order": ("datetime64_runs/proofs/Back.antt",),
    "fields_in": (),
    "of_parts": ("listing_line/proofs/Theorems.antt",),
    "down_to": (),
}


def turned(text, names, is_antt):
    def one(match):
        return names.get(match[0], match[0])

    lines = []
    for line in text.split("\n"):
        mark = "--" if is_antt else "//"
        code, found, comment = line, "", ""
        place = re.search(rf"(^|\s){mark}", line)
        if place and not ('"' in line[: place.start()] and not is_antt):
            at = place.start() + len(place[1])
            code, comment = line[:at], line[at:]
        code = re.sub(rf"(?<![^\s(){{}}.;,@\"«»]){WORD}", one, code)
        comment = re.sub(r"`([^`]*)`", lambda m: "`" + re.sub(WORD, one, m[1]) + "`", comment)
        comment = re.sub(r"(?<![\w`])[a-z]\w*[A-Z]\w*", one, comment)
        lines.append(code + comment)
    return "\n".join(lines)


def pages(top):
    for folder in ("docs", "docs/requests"):
        yield from sorted((top / folder).glob("*.md"))
    for name in ("README.md", "CHANGELOG.md"):
        yield top / name


def spans(text, names, declared):
    """Names in a page's code spans alone."""

    def one(match):
        name = match[0]
        return names.get(name, snake(name) if turns(name) and snake(name) in declared else name)

    return re.sub(r"`([^`\n]*)`", lambda m: "`" + re.sub(WORD, one, m[1]) + "`", text)


def main():
    args = [a for a in sys.argv[1:] if a != "--list"]
    top = pathlib.Path(args[0] if args else pathlib.Path(__file__).resolve().parent.parent)
    shared, local = declarations(top)
    names = table(shared)
    if "--list" in sys.argv:
        for old in sorted(names):
            print(old, names[old])
        return
    for path in sources(top):
        mine = dict(names)
        if path in local:
            given = set(names.values())
            mine.update({n: snake(n) + ("_lem" if snake(n) in given else "") for n in local[path] if turns(n) and n not in names})
        for old, files in BESIDE.items():
            if path.suffix == ".antt" and (not files or str(path.relative_to(top / "crates")) in files):
                mine[old] = old + "_lem"
        text = path.read_text()
        new = turned(text, mine, path.suffix == ".antt")
        if new != text:
            path.write_text(new)
    for path in pages(top):
        text = path.read_text()
        new = spans(text, names, shared)
        if new != text:
            path.write_text(new)


main()
