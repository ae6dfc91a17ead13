#!/usr/bin/env python3
"""Writes the refusals of README.md's table where C, Fortran, Python and the manual page have them: their names, numbers and words.

    make docs                    writes them
    docs/refusals.py --check     changes nothing

Both print each file that is not current (--check), and each name or number that the library's source or Rust's has otherwise. The exit status
is 1 where there is one. Rust's words are its own, and a test holds them to the table.
"""
import pathlib
import re
import sys
import textwrap

ROOT = pathlib.Path(__file__).resolve().parent.parent
PREFIX = "UPPINALO_REFUSED_"
OTHER = "a refusal that this version has no words for"
SOURCES = ["crates/refusal/src/lib.rt", "hosts/binding/src/refusal.rs"]
WRITTEN = "written by docs/refusals.py from README.md's table"


def table():
    """The rows: number, name and words. The first is 0, which has no name. The names stand below the table, in the order of their numbers."""
    text = (ROOT / "README.md").read_text()
    found = [(int(number), words) for number, words in re.findall(r"^\| (\d+) \| (.*) \|$", text, re.MULTILINE)]
    named = re.search(r"^The names of 1 to (\d+) are ([^.]*)\.", text, re.MULTILINE)
    names = [""] + (re.findall(r"`(\w+)`", named[2]) if named else [])
    if [number for number, _ in found] != list(range(len(found))) or len(names) != len(found) or int(named[1]) != len(found) - 1:
        sys.exit("README.md: the refusals are not numbered from 0 on, or one has no name")
    return [(number, name, words) for (number, words), name in zip(found, names)]


def constant(name):
    """The name in capitals, its words apart: NotATime is NOT_A_TIME."""
    return PREFIX + re.sub(r"(?<=[a-z])(?=[A-Z0-9])|(?<=[A-Z])(?=[A-Z][a-z])", "_", name).upper()


def quoted(words):
    assert not set('"\\&') & set(words), f"README.md: a sign that needs care in a text of C or Fortran: {words}"
    return f'"{words}"'


def in_c(rows):
    names = ",\n".join(f"    {constant(name)} = {number}" for number, name, _ in rows[1:])
    words = ",\n".join(f"        {quoted(words)}" for _, _, words in rows)
    return f"""\
enum {{
{names}
}};

/* A number in plain words, also where it is 0 or no refusal's. */
static inline const char *uppinalo_refusal_text(uint32_t number) {{
    static const char *const texts[] = {{
{words}
    }};
    return number < sizeof texts / sizeof *texts ? texts[number] : {quoted(OTHER)};
}}
"""


def in_fortran(rows):
    def case(given, words):
        # a text goes on in the next line after `&`, since a line of Fortran has at most 132 signs
        parts = textwrap.wrap(quoted(words), 100, drop_whitespace=False, break_on_hyphens=False)
        return f"        case {given}\n            text = " + "&\n                &".join(parts) + "\n"

    names = "".join(f"    integer(c_int32_t), parameter, public :: {constant(name)} = {number}\n" for number, name, _ in rows[1:])
    cases = "".join(case(f"({number})", words) for number, _, words in rows) + case("default", OTHER)
    return f"""\
module uppinalo_refusals
    use, intrinsic :: iso_c_binding, only: c_int32_t
    implicit none
    private
    public :: refusal_text

{names}
contains

    !> A number in plain words, also where it is 0 or no refusal's.
    pure function refusal_text(number) result(text)
        integer(c_int32_t), intent(in) :: number
        character(len=:), allocatable :: text

        select case (number)
{cases}        end select
    end function refusal_text

end module uppinalo_refusals
"""


def in_python(rows):
    words = "".join(f"    {number}: {quoted(words)},\n" for number, _, words in rows[1:])
    return f"#: The refusals by number, in plain words.\nWORDS = {{\n{words}}}\n"


def in_roff(rows):
    words = [(number, re.sub(r"`(\w+)`", r"\\fB\1\\fR", words)) for number, _, words in rows[1:]]
    return "".join(f".TP\n.B {number}\n{text}\n" for number, text in words)


#: The files, what begins a comment of theirs and what ends it, and what makes their block.
FILES = [
    ("include/uppinalo.h", "/* ", " */", in_c),
    ("hosts/fortran/uppinalo.f90", "! ", "", in_fortran),
    ("hosts/python/uppinalo/_refused.py", "# ", "", in_python),
    ("docs/uppinalo-listing.1", '.\\" ', "", in_roff),
]


def with_block(path, begin, end, block):
    """The file's text with the block between its marks."""
    first, last = (f"{begin}refusals: {mark}{end}\n" for mark in (f"begin, {WRITTEN}", "end"))
    text = path.read_text()
    if text.count(first) != 1 or text.count(last) != 1:
        sys.exit(f"{path.relative_to(ROOT)}: it needs the line {first.strip()} and after it {last.strip()}")
    before, _, rest = text.partition(first)
    return before + first + block + last + rest.partition(last)[2]


def numbers_in(name):
    """The numbers and names that a source of Rattle or Rust gives the refusals."""
    found = re.findall(r"Refusal::(\w+) => (?:return )?(\d+),", (ROOT / name).read_text())
    return {(int(number), variant) for variant, number in found}


def main():
    rows = table()
    is_check = sys.argv[1:] == ["--check"]
    faults = []
    for name, begin, end, make in FILES:
        path = ROOT / name
        text = with_block(path, begin, end, make(rows))
        if not is_check:
            path.write_text(text)
        elif text != path.read_text():
            faults.append(f"{name}: its refusals are not current: make docs")
    for source in SOURCES:
        for number, name in sorted({(number, name) for number, name, _ in rows[1:]} ^ numbers_in(source)):
            faults.append(f"{source} or README.md has no refusal {number} `{name}`")
    for fault in faults:
        print(fault)
    sys.exit(1 if faults else 0)


main()
