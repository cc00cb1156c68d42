#!/usr/bin/env python3
"""The ranges of lines in docs/STORED_RUN.md.

  python3 .ci/checks/stored.py --write     writes them from the lines of crates/markers/stdin

The self-test compares them. Each row of the page is a family of lines, and `FAMILIES` has the first
two lines of each: a family begins at the first such pair after the beginning of the family before.
"""

from __future__ import annotations

import re
import sys
from collections.abc import Iterator
from pathlib import Path

sys.dont_write_bytecode = True

ROOT = Path(__file__).resolve().parents[2]
PAGE = Path("docs/STORED_RUN.md")
STDIN = Path("crates/markers/stdin")
ROW = re.compile(r"^\| \d+–\d+ \|", re.MULTILINE)

FAMILIES = [
    (
        "env os_name posix",
        "parse os_name == 'posix' and extra == 'dev'",
    ),
    (
        "env implementation_name cpython",
        "env implementation_version 3.12.1",
    ),
    (
        "parse implementation_name == 'cpython'",
        "eval 1",
    ),
    (
        "parse os_name == 'posix' and sys_platform == 'linux'",
        "eval 69",
    ),
    (
        "parse ",
        "parse   ",
    ),
    (
        "parse os_name == 'a'",
        "parse extra == 'a' and 'b' != extra",
    ),
    (
        "parse python_version > '3'",
        "eval 126",
    ),
    (
        "parse python_version == python_version",
        "equal 172 170",
    ),
    (
        "parse os_name == 'a'",
        "parse os_name == 'b'",
    ),
    (
        "parse os_name == 'a' and extra == 'x'",
        "parse extra == 'x' and os_name == 'a'",
    ),
    (
        "parse 'a' == 'b'",
        "equal 354 170",
    ),
    (
        "parse os_name == 'a'",
        "parse python_version < '3.9' or extra == 'b'",
    ),
    (
        "parse python_version == '2.7'",
        "parse os_name == 'linux' or python_version == '3.7' and sys_platform == 'win32'",
    ),
    (
        "parse os_name == 'nt' and extra == 'dev'",
        "parse os_name == 'nt'",
    ),
    (
        "parse (python_version <= '3.11' and sys_platform == 'win32') or python_version > '3.11'",
        "simplify 527 excl:3.12 none",
    ),
    (
        "parse python_full_version < '3.10'",
        "parse python_full_version < '3.10'",
    ),
    (
        "parse 'a' == 'b'",
        "possible 680",
    ),
    (
        "parse python_version >= '3.8' and os_name == 'a'",
        "parse os_name == 'a'",
    ),
    (
        "parse os_name == 'posix' and extra == 'dev'",
        "not 722",
    ),
    (
        "parse python_version == '2.7'",
        "parse python_version == \"2.7\"",
    ),
    (
        "parse extra == 'a'",
        "parse python_version == '1'",
    ),
    (
        "parse 'wat' == 'wat'",
        "equal 1096 170",
    ),
    (
        "parse extra == 'foo'",
        "equal 1106 171",
    ),
    (
        "parse python_version == \"2.7\" and (sys_platform == \"win32\" or (os_name == \"linux\" and implementation_name == 'cpython'))",
        "parse python_version == '2.7'",
    ),
]


def starts(lines: list[str], families: list[tuple[str, str]]) -> Iterator[int]:
    """The number of the line at which each family begins, from 1."""
    pairs, at = list(zip(lines, lines[1:])), 0
    for family in families:
        at = pairs.index(family, at) + 1
        yield at


def ranged(page: str, firsts: list[int], last: int) -> str:
    """The page with the ranges of its rows: there is a row for each family."""
    rows = ROW.findall(page)
    if len(rows) != len(firsts) or firsts[:1] != [1]:
        raise ValueError(f"{len(rows)} rows, {len(firsts)} families, from line {firsts[:1]}")
    ends = iter(zip(firsts, [*(first - 1 for first in firsts[1:]), last]))
    return ROW.sub(lambda _: "| {}–{} |".format(*next(ends)), page)


def written(root: Path) -> str:
    """The page with its ranges as they should be."""
    lines = (root / STDIN).read_text(encoding="utf-8").split("\n")[:-1]
    page = (root / PAGE).read_text(encoding="utf-8")
    return ranged(page, list(starts(lines, FAMILIES)), len(lines))


if __name__ == "__main__":
    if sys.argv[1:] != ["--write"]:
        sys.exit(__doc__)
    (ROOT / PAGE).write_text(written(ROOT), encoding="utf-8")
