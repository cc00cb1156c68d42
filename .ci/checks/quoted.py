"""Examples in documents and in doc comments, which stand in programs that the gate runs.

Each fenced block of Rust or C of the README and of `docs/`, and each fenced block of a doc comment,
is a stretch of lines of a file of `PROGRAMS` or `FOREIGN`, indentation aside. So is the last cell of each row of the
tables of `COMPARED`, where each piece of code is a line. Each other fenced block of a document, but
those of `DRAWN`, is a stretch of lines of what a program prints, as it is stored, or as a test of
`STATED` states it. The lines of the README's table, and their answers, are a session of the program
`markers`, which `.ci/long_texts` asks for.
"""

from __future__ import annotations

import re
from collections.abc import Iterator
from pathlib import Path

from checks.kit import Repository

# The crates whose programs are quoted.
PROGRAMS = ("needed", "uses")
COMPARED = "docs/COMING_FROM.md"
# The picture of the crates.
DRAWN = ("docs/ARCHITECTURE.md",)
# Tests that state what a program prints, of which one run alone is stored.
STATED = (
    "tests/test_pep508/outputs.rt.txt",
    "tests/test_pep508/metadata.rt.txt",
    "tests/test_pep508/projects.rt.txt",
    "tests/test_marker_commands/outputs.rt.txt",
    "tests/test_marker_drawings/outputs.rt.txt",
    "tests/test_selection_commands/outputs.rt.txt",
    "tests/test_formatting_commands/outputs.rt.txt",
    "library_for_c/handle.stdout",
    "library_for_c/use.stdout",
)
# The programs of other languages that are quoted.
FOREIGN = ("library_for_c/handle.c", "library_for_c/use.c")
FENCED = re.compile(r"^```(?P<kind>[^`\n]*)\n(?P<block>.*?)^```$", re.MULTILINE | re.DOTALL)
COMMENTS = re.compile(r"(?:^[ \t]*//[/!].*\n)+", re.MULTILINE)
IN_COMMENT = re.compile(r"^```\n(?P<block>.*?)^```$", re.MULTILINE | re.DOTALL)
TABLE = re.compile(r"^\|.*\n\|[-:| ]+\|\n(?P<rows>(?:\|.*\n?)+)", re.MULTILINE)
CELL = re.compile(r"(?<!\\)\|")
CODE = re.compile(r"(?<!`)(`+) ?(.*?) ?\1(?!`)")


def lines_of(text: str) -> list[str]:
    """The lines of a text without their indentation, and without those that are blank."""
    return [line.strip() for line in text.splitlines() if line.strip()]


def stands_in(block: list[str], program: list[str]) -> bool:
    """Whether the lines stand in a program, one behind the other."""
    width = len(block)
    return any(program[at : at + width] == block for at in range(len(program) - width + 1))


def blocks_of_document(text: str, of_code: bool) -> Iterator[list[str]]:
    """The fenced blocks of a document, those of code or the others."""
    for found in FENCED.finditer(text):
        if of_code == (found["kind"] in ("rust", "c")):
            yield lines_of(found["block"]) if of_code else found["block"].splitlines()


def rows_of_tables(text: str) -> Iterator[list[list[str]]]:
    """The code in each cell of each row of the tables, without their headers."""
    for found in TABLE.finditer(text):
        for row in found["rows"].splitlines():
            cells = CELL.split(row.strip().removeprefix("|").removesuffix("|"))
            yield [[line.replace("\\|", "|") for _, line in CODE.findall(it)] for it in cells]


def blocks_of_tables(text: str) -> Iterator[list[str]]:
    """The code in the last cell of each row of the tables."""
    for row in rows_of_tables(text):
        yield row[-1]


def session_of(text: str) -> list[tuple[str, str]]:
    """The lines and the answers of the table whose first column is `Line`."""
    head = "| Line | Answer |"
    table = text[text.find(head) :].partition("\n\n")[0] if head in text else ""
    return [(line, answer) for (line,), (answer,), *_ in rows_of_tables(table)]


def blocks_of_code(text: str) -> Iterator[list[str]]:
    """The fenced blocks of the doc comments of a file."""
    for comment in COMMENTS.finditer(text):
        lines = (re.sub(r"^\s*//[/!] ?", "", line) for line in comment[0].splitlines())
        for found in IN_COMMENT.finditer("\n".join(lines) + "\n"):
            yield lines_of(found["block"])


def in_repository(repository: Repository) -> list[str]:
    """Where an example stands in none of the programs."""
    root = repository.root
    programs = [
        lines_of(file.read_text(encoding="utf-8"))
        for name in PROGRAMS
        for file in sorted((repository.folder(name) / "src").rglob("*.rt"))
    ]
    programs += [
        lines_of(file.read_text(encoding="utf-8"))
        for file in map(root.joinpath, FOREIGN)
        if file.is_file()
    ]
    quoting: list[tuple[Path, Iterator[list[str]]]] = []
    documents = [root / "README.md", *sorted((root / "docs").glob("*.md"))]
    for file in documents:
        quoting.append((file, blocks_of_document(file.read_text(encoding="utf-8"), True)))
    if (compared := root / COMPARED).is_file():
        quoting.append((compared, blocks_of_tables(compared.read_text(encoding="utf-8"))))
    for name in repository.uses:
        for file in sorted((repository.folder(name) / "src").rglob("*.rt")):
            quoting.append((file, blocks_of_code(file.read_text(encoding="utf-8"))))
    printed = [
        file.read_text(encoding="utf-8").splitlines()
        for file in [*sorted((root / "crates").glob("*/stdout")), *map(root.joinpath, STATED)]
        if file.is_file()
    ]
    showing = [
        (file, blocks_of_document(file.read_text(encoding="utf-8"), False))
        for file in documents
        if str(file.relative_to(root)) not in DRAWN
    ]
    return missing(root, quoting, programs) + missing(root, showing, printed)


def missing(
    root: Path, quoting: list[tuple[Path, Iterator[list[str]]]], programs: list[list[str]]
) -> list[str]:
    """Where a block stands in none of the programs, or has no line."""
    return [
        f"{file.relative_to(root)}: {block[0] if block else 'an empty example'}"
        for file, blocks in quoting
        for block in blocks
        if not block or not any(stands_in(block, program) for program in programs)
    ]
