#!/usr/bin/env python3
"""Holds hosts/fortran/uppinalo.f90 to include/uppinalo.h: its constants, types and calls, with their components and arguments.

    hosts/fortran/header.py      prints each fault; the exit status is 1 where there is one
"""
import pathlib
import re
import subprocess
import sys

ROOT = pathlib.Path(__file__).resolve().parent.parent.parent
HEADER = (ROOT / "include/uppinalo.h").read_text()
MODULES = (ROOT / "hosts/fortran/uppinalo.f90").read_text()
KINDS = {
    "uint32_t": "integer(c_int32_t)",
    "int64_t": "integer(c_int64_t)",
    "size_t": "integer(c_size_t)",
    "uint8_t": "integer(c_int8_t)",
    "double": "real(c_double)",
    "bool": "logical(c_bool)",
}
#: What a pointer to bytes is in Fortran: a text, or records of any type.
TEXTS = {"calendar", "text", "fragment", "identifier", "room"}


def kind_of(kind):
    return KINDS.get(kind) or f"type({kind})"


def of_argument(argument):
    """An argument of the header as it is declared in Fortran."""
    kind, name = re.fullmatch(r"(?:const )?(\w+) (\*?\w+)", argument.removeprefix(" ")).groups()
    if not name.startswith("*"):
        return f"{kind_of(kind)}, value :: {name}"
    name = name[1:]
    intent = "in" if argument.strip().startswith("const ") else "inout"
    if kind == "uppinalo_units_state":
        return f"type({kind}), intent({intent}) :: {name}"
    pointed = kind_of(kind) if kind != "uint8_t" else "character(kind=c_char)" if name in TEXTS else "type(*)"
    return f"{pointed}, intent({intent}) :: {name}(*)"


def calls_of_header():
    """The calls: of each its arguments and its answer, as they are declared in Fortran."""
    for answer, name, arguments in re.findall(r"^(\w+) (uppinalo_\w+)\(([^)]*)\);", HEADER, re.MULTILINE):
        given = [of_argument(argument) for argument in arguments.split(",") if argument != "void"]
        yield name, [*given, f"{kind_of(answer)} :: answer"]


def calls_of_modules():
    form = r"function (uppinalo_\w+)\(([^)]*)\)[ &\n]+result\(answer\) bind\(C\)\n +import :: .*\n((?:.* :: .*\n)+) +end function \1\n"
    for name, arguments, body in re.findall(form, MODULES):
        lines = [line.strip() for line in body.splitlines()]
        declared = [line.partition(" :: ")[2].removesuffix("(*)") for line in lines]
        yield name, lines if ", ".join(declared[:-1]) == arguments else f"arguments in another order: {arguments}"


def structs_of_header():
    """The structs: of each the kinds and names of its components."""
    for body, name in re.findall(r"^typedef struct \{([^}]*)\} (uppinalo_\w+);", HEADER, re.MULTILINE):
        declarations = [declaration.split(None, 1) for declaration in body.split(";") if declaration.strip()]
        yield name, [(kind_of(kind), each) for kind, names in declarations for each in re.split(r", ", names.replace("[", "(").replace("]", ")"))]


def types_of_modules():
    for name, body in re.findall(r"^    type, bind\(C\) :: (\w+)\n(.*?)^    end type \1$", MODULES, re.MULTILINE | re.DOTALL):
        declarations = [line.strip().split(" :: ") for line in body.splitlines()]
        yield name, [(kind, each.partition(" = ")[0]) for kind, names in declarations for each in names.split(", ")]


def constants(form, text):
    return {(name, value) for name, value in re.findall(form, text, re.MULTILINE)}


def faults():
    for what, ours, theirs in [
        ("call", dict(calls_of_modules()), dict(calls_of_header())),
        ("type", dict(types_of_modules()), dict(structs_of_header())),
    ]:
        for name in sorted({*ours, *theirs}):
            if ours.get(name) != theirs.get(name):
                yield f"the {what} {name}: {ours.get(name)}, where the header has {theirs.get(name)}"
    in_header = constants(r"\b(UPPINALO_\w+) = (\d+)", HEADER) | constants(r'^#define (UPPINALO_(?:VERSION|ISO_TEXT_MOST)) (\S+)', HEADER)
    for name, value in sorted(in_header ^ constants(r'parameter(?:, public)? :: (UPPINALO_\w+) = (\d+|"\S+")$', MODULES)):
        yield f"the constant {name} = {value}: in one of the two only"
    declared = subprocess.run([ROOT / "hosts/declared"], capture_output=True, text=True, check=True).stdout.split()
    if sorted(f"uppinalo_{name}" for name in declared) != sorted(dict(calls_of_modules())):
        yield "other calls than hosts/declared prints"
    of_names = set(re.findall(r"^ +(?:pure )?function (\w+)|^        (\w+) => uppinalo_|^    interface (\w+)$", MODULES, re.MULTILINE))
    names = {name for found in of_names for name in found if name}
    yield from (f"the module uppinalo has no {name}" for name in declared if name not in names)


def main():
    found = list(faults())
    for fault in found:
        print(f"hosts/fortran/uppinalo.f90: {fault}")
    sys.exit(1 if found else 0)


main()
