"""Lines of code and of specifications that are wider than 100 columns.

A clause that is wider says too much at once: what it repeats gets a name in `specs/`. Imports stand
on one line however wide, as `rt fmt` has them, and so do texts and the rows of tables in tests.
"""

from __future__ import annotations

import re
from collections.abc import Iterator
from pathlib import Path

from checks.kit import Repository

WIDTH = 100
FILES = ("src/**/*.rt", "specs/**/*.antt", "*.rt.txt")

IMPORT = re.compile(r"\s*(pub\s+|ghost\s+)?use\b")
COMMENT = re.compile(r"\s*(//|--)")
TEXT = re.compile(r'\b[bc]?r(?P<fence>#*)".*?"(?P=fence)|\b[bc]?"(\\.|[^"\\])*"|"(\\.|[^"\\])*"')
# A text that goes over several lines, as it is.
LINES = re.compile(r'\b[bc]?r(?P<fence>#+)".*?"(?P=fence)', re.DOTALL)
# A row of a table: a tuple or a list with a comma behind it.
ROW = re.compile(r"\s*(&?\[|\().*[\])],$")
TABLES = re.compile(r"(test_|starved)")


def in_text(text: str, tables: bool = False) -> Iterator[int]:
    """The numbers of the lines that are too wide; `tables` may have wide rows."""
    lines = LINES.sub(lambda found: "\n" * found[0].count("\n"), text).splitlines()
    for number, line in enumerate(lines, 1):
        if len(line) <= WIDTH or IMPORT.match(line):
            continue
        if tables and ROW.match(line):
            continue
        if not COMMENT.match(line) and len(TEXT.sub('""', line)) <= WIDTH:
            continue
        yield number


def in_crate(folder: Path) -> Iterator[str]:
    """Where a crate is too wide."""
    tables = bool(TABLES.match(folder.name))
    for pattern in FILES:
        for file in sorted(folder.glob(pattern)):
            for number in in_text(file.read_text(encoding="utf-8"), tables):
                yield f"{file.relative_to(folder.parent.parent)}:{number}"


def in_repository(repository: Repository) -> list[str]:
    """Where the crates are too wide."""
    return [wide for crate in repository.uses for wide in in_crate(repository.folder(crate))]
