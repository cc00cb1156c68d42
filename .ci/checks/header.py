#!/usr/bin/env python3
"""Compares include/pep508.h with the functions, structs and numbers that the library exports.

The C compiler does not see the library's declarations, so a header that differs from them would
compile and go wrong.
"""

from __future__ import annotations

import re
import sys
from pathlib import Path

sys.dont_write_bytecode = True

ROOT = Path(__file__).resolve().parents[2]
HEADER = Path("include/pep508.h")
EXPORTS = Path("crates/pep508_c/src")
CALLS = Path("crates/foreign_calls/src")
MARKERS = Path("crates/foreign_markers/src")

# The parameters of C for a type of an exported function.
CROSSES = {
    "Global": [],
    "usize": ["size_t"],
    "&[u8]": ["const char *", "size_t"],
    "&mut [u8]": ["char *", "size_t"],
    "&mut usize": ["size_t *"],
    "&mut bool": ["bool *"],
    "&mut i32": ["int32_t *"],
    "&Environment<'_>": ["const struct pep508_environment *"],
    "&mut Span": ["struct pep508_span *"],
    "&mut Handle": ["struct pep508_interner *"],
    "&BoundText<'_>": ["const struct pep508_bound *"],
    "&[Options<'_>]": ["const struct pep508_options *", "size_t"],
    "&[&[u8]]": ["const struct pep508_text *", "size_t"],
}
# The type of C for a field of a struct that crosses.
FIELDS = {
    "usize": "size_t",
    "u32": "uint32_t",
    "bool": "bool",
    "*mut u8": "void *",
    "[u64; 2]": "uint64_t [2]",
    "&'a [u8]": "struct pep508_text",
}
STRUCTS = {
    "pep508_options": (CALLS / "options.rt", "Options"),
    "pep508_environment": (CALLS / "environment.rt", "Environment"),
    "pep508_bound": (CALLS / "simplification.rt", "BoundText"),
    "pep508_span": (CALLS / "check.rt", "Span"),
    "pep508_interner": (MARKERS / "handle.rt", "Handle"),
}
ENUMS = {
    "pep508_answer": (CALLS / "answer.rt", "Answer"),
    "pep508_relation": (CALLS / "relation.rt", "MarkerRelation"),
}
EXPORT = re.compile(r'pub extern "C" fn (\w+)\(([^)]*)\)(?: -> (\w+))?')
DECLARED = re.compile(r"^(int32_t|void) (pep508_\w+)\(([^)]*)\);", re.MULTILINE)


def plain(header: str) -> str:
    """A header without its comments."""
    return re.sub(r"/\*.*?\*/", "", header, flags=re.DOTALL)


def kind(declared: str) -> str:
    """The type of a parameter of C, without its name."""
    words = " ".join(declared.replace("*", " * ").split())
    return re.sub(r"\s*\w+$", "", words) if " " in words else words


def exports(root: Path) -> str:
    """The texts of what the library exports."""
    return "".join(file.read_text() for file in sorted((root / EXPORTS).glob("*.rt")))


def exported(text: str) -> dict[str, tuple[str, list[str]]]:
    """What the library exports: a type of C for what is returned, and the parameters'."""
    found = {}
    for name, parameters, returned in EXPORT.findall(text):
        crosses: list[str] = []
        for parameter in re.split(r",\s*(?![^<\[]*[>\]])", parameters):
            if parameter.strip():
                crosses += CROSSES[parameter.partition(":")[2].strip()]
        found[name] = ("int32_t" if returned == "i32" else "void", crosses)
    return found


def declared(header: str) -> dict[str, tuple[str, list[str]]]:
    """What a header declares, in the same form."""
    return {
        name: (returned, [kind(it) for it in " ".join(parameters.split()).split(",")])
        for returned, name, parameters in DECLARED.findall(header)
    }


def fields_of(text: str, name: str) -> list[tuple[str, str]]:
    """The fields of a struct that crosses, with their types of C."""
    body = re.search(rf"pub struct {name}(?:<'a>)? \{{(.*?)\n\}}", text, re.DOTALL)
    assert body, name
    lines = re.findall(r"^    (?:pub )?(\w+): (.*),$", body[1], re.MULTILINE)
    return [(field, FIELDS[typed]) for field, typed in lines]


def declared_fields(header: str, name: str) -> list[tuple[str, str]]:
    """The fields of a struct of a header."""
    body = re.search(rf"^struct {name} \{{(.*?)^\}};", header, re.DOTALL | re.MULTILINE)
    assert body, name
    found = []
    for line in body[1].split(";"):
        words = " ".join(line.split())
        if not words:
            continue
        typed, names = re.match(r"((?:struct )?\w+(?: \*)?)\s*(.*)", words).groups()
        for field in names.split(","):
            field, bracket, count = field.strip().partition("[")
            found.append((field, f"{typed} [{count}" if bracket else typed))
    return found


def codes_of(text: str, name: str) -> dict[str, int]:
    """The numbers of the variants of an enum, by the header's spelling."""
    found = re.findall(rf"{name}::(\w+) => (\d+),", text)
    return {re.sub(r"(?<!^)(?=[A-Z])", "_", variant).upper(): int(n) for variant, n in found}


def declared_codes(header: str, name: str) -> dict[str, int]:
    body = re.search(rf"^enum {name} \{{(.*?)^\}};", header, re.DOTALL | re.MULTILINE)
    assert body, name
    return {it: int(n) for it, n in re.findall(r"PEP508_(\w+) = (\d+)", body[1])}


def differences(root: Path) -> list[str]:
    """In what the header differs from the library."""
    header = plain((root / HEADER).read_text())
    found = []
    ours, theirs = exported(exports(root)), declared(header)
    for name in sorted(ours.keys() | theirs.keys()):
        if ours.get(name) != theirs.get(name):
            found.append(f"{name}: exported {ours.get(name)}, declared {theirs.get(name)}")
    for name, (file, struct) in STRUCTS.items():
        ours_too, told = fields_of((root / file).read_text(), struct), declared_fields(header, name)
        if ours_too != told:
            found.append(f"struct {name}: {ours_too} here, {told} in the header")
    for name, (file, enum) in ENUMS.items():
        codes, said = codes_of((root / file).read_text(), enum), declared_codes(header, name)
        if not codes or codes != said:
            found.append(f"enum {name}: {codes} here, {said} in the header")
    return found


def main() -> int:
    found = differences(ROOT)
    for line in found:
        print(line)
    count = len(exported(exports(ROOT))) + len(STRUCTS) + len(ENUMS)
    print(f"{count - len(found)} passed, {len(found)} failed")
    return 1 if found else 0


if __name__ == "__main__":
    sys.exit(main())
