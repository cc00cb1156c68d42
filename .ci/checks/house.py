"""Figures of the code, which may only fall, and the limits that they must keep.

  python3 .ci/checks/house.py            prints each figure beside its limit
  python3 .ci/checks/house.py --lower    writes the limits that have fallen

A clause is as wide as it is when written on one line. A function that does nothing has an empty
body: its calls only hand the prover a fact. They are found by name, `drop`, `new` and `default`
aside, since a name may be used twice.
"""

from __future__ import annotations

import re
import subprocess
import sys
from collections.abc import Iterable, Iterator
from pathlib import Path

ROOT = Path(__file__).resolve().parent.parent.parent
LIMITS = Path(".ci") / "limits"

WIDE = "clauses wider than 100 columns"
WIDER = "clauses wider than 160 columns"
CALLS = "calls of functions that do nothing"
MANY = "functions with more than six clauses"

CLAUSE = re.compile(r"\b(?:ensures|requires)\b\*?\s*(?:\w+\s*)?\{")
FUNCTION = re.compile(r"^\s*(?:pub(?:\([a-z]+\))? )?(?:const )?(?:unsafe )?fn (\w+)", re.M)
EMPTY = re.compile(r"\{\s*\}\s*(?:\n|$)")
STATEMENT = re.compile(r";\s*\n|\n\s*(?:let|match|if|for|self\b)")
OTHERS = {"clone", "default", "drop", "fmt", "new"}


def clauses(text: str) -> Iterator[tuple[int, int]]:
    """Where the clauses of a file begin, and how wide they are."""
    for found in CLAUSE.finditer(text):
        start = text.rfind("\n", 0, found.start()) + 1
        if text[start : found.start()].lstrip().startswith("//"):
            continue
        end, depth = found.end(), 1
        while depth and end < len(text):
            depth += {"{": 1, "}": -1}.get(text[end], 0)
            end += 1
        width = found.start() - start + len(re.sub(r"\s+", " ", text[found.start() : end]))
        yield found.start(), width


def clause_counts(text: str) -> Iterator[int]:
    """How many clauses each function of a file has."""
    starts = [it.start() for it in FUNCTION.finditer(text)]
    places = [place for place, _ in clauses(text)]
    for start, end in zip(starts, [*starts[1:], len(text)]):
        yield sum(start <= place < end for place in places)


def empty_functions(text: str) -> Iterator[str]:
    """The names of the functions of a file that have an empty body."""
    found = list(FUNCTION.finditer(text))
    ends = [*(it.start() for it in found[1:]), len(text)]
    for function, end in zip(found, ends):
        its = text[function.start() : end]
        if EMPTY.search(its) and not STATEMENT.search(its):
            yield function[1]


def figures(texts: Iterable[str]) -> dict[str, float]:
    """The figures of the files of all crates."""
    texts = list(texts)
    widths = [width for text in texts for _, width in clauses(text)]
    empty = {name for text in texts for name in empty_functions(text)} - OTHERS
    call = re.compile(rf"(?<!fn )(?<!\w)(?:{'|'.join(map(re.escape, sorted(empty)))})\(")
    lines = [line.split("//")[0] for text in texts for line in text.splitlines()]
    return {
        WIDE: sum(width > 100 for width in widths),
        WIDER: sum(width > 160 for width in widths),
        MANY: sum(count > 6 for text in texts for count in clause_counts(text)),
        CALLS: sum(len(call.findall(line)) for line in lines) if empty else 0,
    }


def figures_of(root: Path) -> dict[str, float]:
    files = sorted((root / "crates").glob("*/src/**/*.rt"))
    return figures(file.read_text(encoding="utf-8") for file in files)


def read(text: str) -> dict[str, float]:
    """The limits that a text has, one a line; each is the lowest where a name stands twice."""
    limits: dict[str, float] = {}
    for name, number in re.findall(r"^\+?([a-z].*): ([\d.]+)$", text, re.M):
        limits[name] = min(float(number), limits.get(name, float(number)))
    return limits


def faults(root: Path, now: dict[str, float]) -> list[str]:
    """Which figures are above their limits, and which limits were lower in an earlier commit."""
    command = ["git", "log", "-p", "--format=", "--", str(LIMITS)]
    log = subprocess.run(command, cwd=root, capture_output=True, text=True).stdout
    limits, before = read((root / LIMITS).read_text()), read(log)
    above = [
        f"{name}: {figure:g}, and the limit is {limits.get(name, 0):g}"
        for name, figure in now.items()
        if figure > limits.get(name, 0)
    ]
    raised = [
        f"{name}: the limit is {limit:g}, and was {before[name]:g}"
        for name, limit in limits.items()
        if limit > before.get(name, limit)
    ]
    return above + raised


def main(now: dict[str, float]) -> int:
    """Prints figures beside their limits, and lowers these if that is asked for."""
    text = (ROOT / LIMITS).read_text()
    limits = read(text)
    for name, figure in now.items():
        print(f"{name}: {figure:g}, at most {limits.get(name, 0):g}")
        if "--lower" in sys.argv and figure < limits.get(name, 0):
            text = text.replace(f"{name}: {limits[name]:g}\n", f"{name}: {figure:g}\n")
            (ROOT / LIMITS).write_text(text)
    found = faults(ROOT, now)
    print("\n".join(found))
    return 1 if found else 0


if __name__ == "__main__":
    sys.exit(main(figures_of(ROOT)))
