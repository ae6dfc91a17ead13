#!/usr/bin/env python3
"""Writes the tables of docs/TRUST.md and docs/ARCHITECTURE.md from the crates' own files.

    make docs                  writes them
    docs/tables.py --check     changes nothing

Both print each table that is not current (--check), each file of a crate that a document names and that is not there, and each arrow of the
picture in docs/ARCHITECTURE.md that crates.txt does not have. The exit status is 1 where there is one.

What a reader must believe is found from the public calls: the names that their contracts cite lead by the lines `ghost use` to files of
specs/, and imports lead on from those. So they do from the files that state the demands and the cases by hand.
"""
import pathlib
import re
import sys

ROOT = pathlib.Path(__file__).resolve().parent.parent
CRATES = ROOT / "crates"
DOCUMENTS = ["docs/TRUST.md", "docs/ARCHITECTURE.md", "docs/DECISIONS.md", "README.md"]
# the crates with public calls, and how such a call begins
PUBLIC = {"uppinalo": 'pub extern "C" fn', "listing_line": "pub fn"}
STATED = ["uppinalo/specs/Demands.antt", "cases/specs/Cases.antt"]
CITED = re.compile(r"^(?:ghost |pub )?use Rattle\.(\w+)\.(specs|proofs)\.([\w.-]+?)(?:\.\{([^}]*)\}| as \w+);?$", re.MULTILINE)
USED = re.compile(r"^(?:pub )?use ([\w.]+?)(?:\.\{| as )", re.MULTILINE)


def listed():
    """The crates in the order of crates.txt, each with the crates that it knows."""
    lines = (ROOT / "crates.txt").read_text().splitlines()
    pairs = (line.split(":") for line in lines if line.strip() and not line.startswith("#"))
    return {name.split()[0]: known.split() for name, known in pairs}


def first_sentence(path, mark):
    """The first sentence of the comment at the start of a file."""
    words = []
    for line in path.read_text().splitlines():
        if not line.startswith(mark):
            break
        words.append(line.removeprefix(mark).strip())
    return re.split(r"\.(?:\s|$)", " ".join(words))[0].rstrip(":") + "."


def specs_of(crate):
    return sorted(path for path in (CRATES / crate / "specs").glob("**/*.antt") if path.name != "Lib.antt")


def cited_by(path):
    """The files of specs/ and proofs/ that a file cites, each with the names that it cites them by. Types that the code declares have no
    file there."""
    for crate, folder, module, cited in CITED.findall(path.read_text()):
        file = CRATES / crate / folder / (module.replace(".", "/") + ".antt")
        if file.is_file():
            yield file, {name.split(" as ")[-1].strip() for name in cited.split(",")}


def promised(crate):
    """The files that the contracts of a crate's public calls cite."""
    for path in sorted((CRATES / crate / "src").glob("**/*.rt")):
        heads = re.findall(rf"^{PUBLIC[crate]} .*?^{{$", path.read_text(), re.MULTILINE | re.DOTALL)
        assert all("ensures" in head for head in heads), f"{path}: a public call that promises nothing"
        contracts = " ".join(head.partition("ensures")[2] for head in heads)
        words = set(re.split(r"[\s(){}⌜⌝.]+", contracts))
        yield from (file for file, cited in cited_by(path) if cited & words)


def believed():
    """The files that the public calls rest on, and those that say what is demanded of them."""
    waiting = [file for crate in PUBLIC for file in promised(crate)]
    waiting += [CRATES / name for name in STATED if (CRATES / name).is_file()]
    found = set()
    while waiting:
        file = waiting.pop()
        if file not in found:
            found.add(file)
            waiting += [cited for cited, _ in cited_by(file)]
    return found


def table(heads, rows):
    return "".join(f"| {' | '.join(line)} |\n" for line in [heads, ["---"] * len(heads), *rows])


def names(paths):
    return ", ".join(f"`{path.relative_to(CRATES)}`" for path in paths)


def trust(crates):
    needed = believed()
    assert all("specs" in path.parts for path in needed), "a promise cites a file of proofs/"
    specs = [path for crate in crates for path in specs_of(crate)]
    rows = [[f"`{path.relative_to(CRATES)}`", first_sentence(path, "--")] for path in specs if path in needed]
    rest = [path for path in specs if path not in needed]
    own = tuple(f"Rattle.{crate}." for crate in crates)
    used = {module for path in needed for module in USED.findall(path.read_text())}
    kit = sorted(module for module in used if not module.startswith(own))
    return (
        table(["file", "what it says"], rows)
        + f"\nThey use these modules of the kit: {', '.join(f'`{module}`' for module in kit)}.\n"
        + "\nNo promise at the top rests on the other files of `specs/`, which are closed forms, steps of proofs, and what theorems "
        + f"speak of: {names(rest)}.\n"
    )


def architecture(crates):
    def source(crate):
        files = [CRATES / crate / "src" / name for name in ("lib.rt", "main.rt")]
        return next(path for path in files if path.is_file())

    rows = [[f"`{crate}`", first_sentence(source(crate), "//"), ", ".join(known) or "-"] for crate, known in crates.items()]
    return table(["crate", "what it is", "knows"], rows)


def missing_files(document):
    """The files of crates that a document names, by the end of their path or the whole of it, and that are not there."""
    there = [f"/{path.relative_to(ROOT)}" for path in [*CRATES.glob("**/*.antt"), *CRATES.glob("**/*.rt")]]
    for name in re.findall(r"`([\w/]+\.(?:antt|rt))`", (ROOT / document).read_text()):
        # docs/DECISIONS.md also speaks of file names that cannot be had
        is_tested = "/" in name or document != "docs/DECISIONS.md"
        if is_tested and not any(path.endswith(f"/{name}") for path in there):
            yield name


def wrong_arrows(crates):
    """The arrows of the picture that crates.txt does not have."""
    for line in re.findall(r"(?s)```text\n(.*?)```", (ROOT / "docs/ARCHITECTURE.md").read_text())[0].splitlines():
        for chain in re.split(r"\s{2,}", line):
            ends = [part.split(", ") for part in chain.split(" → ")]
            for lefts, rights in zip(ends, ends[1:]):
                yield from (f"{a} → {b}" for a in lefts for b in rights if b not in crates.get(a, []))


def main():
    crates = listed()
    is_check = sys.argv[1:] == ["--check"]
    faults = []
    for document, make in [("docs/TRUST.md", trust), ("docs/ARCHITECTURE.md", architecture)]:
        path = ROOT / document
        before, _, after = re.split(r"(?s)(?<=<!-- crates: begin -->\n)(.*)(?=<!-- crates: end -->)", path.read_text())
        text = before + make(crates) + after
        if not is_check:
            path.write_text(text)
        elif text != path.read_text():
            faults.append(f"{document}: its table is not current: make docs")
    faults += [f"{document}: no such file: {name}" for document in DOCUMENTS for name in missing_files(document)]
    faults += [f"docs/ARCHITECTURE.md: no such arrow in crates.txt: {arrow}" for arrow in wrong_arrows(crates)]
    for fault in faults:
        print(fault)
    sys.exit(1 if faults else 0)


main()
