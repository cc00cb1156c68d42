#!/usr/bin/env python3
"""The picture and the list of the crates in docs/ARCHITECTURE.md, and the places that it names.

  python3 .ci/checks/layers.py --write     writes picture and list from crates.txt

The self-test compares them. A cell of the table of places has crates before colons, and after each
modules of it or files of its specifications.
"""

from __future__ import annotations

import re
import sys
from pathlib import Path

sys.dont_write_bytecode = True

ROOT = Path(__file__).resolve().parents[2]
DOCUMENT = Path("docs/ARCHITECTURE.md")
PLACES = "| What | Where |"
PLACE = re.compile(r"`(\w+)`: ([^;]*)")
BEGIN, END = "<!-- crates: written by .ci/checks/layers.py -->\n", "<!-- end of crates -->\n"


def subjects(text: str) -> dict[str, dict[str, list[str]]]:
    """The crates below each heading of crates.txt, each with the libraries that it uses."""
    found: dict[str, dict[str, list[str]]] = {}
    heading = ""
    for line in text.splitlines():
        if line.startswith("# ") and not line.endswith("."):
            heading = line[2:]
        elif line and not line.startswith("#"):
            name, _, uses = line.partition(":")
            found.setdefault(heading, {})[name.split()[0]] = uses.split()
    return found


def below(heading: str, parts: dict[str, dict[str, list[str]]]) -> list[str]:
    """The headings whose crates those of a heading use."""
    uses = {used for libraries in parts[heading].values() for used in libraries}
    return [it for it, crates in parts.items() if it != heading and uses & crates.keys()]


def picture(parts: dict[str, dict[str, list[str]]]) -> list[str]:
    """A line for each subject, the topmost first, with a mark under each one that it uses."""
    order = list(parts)[::-1]
    width = max(map(len, order))
    lines = []
    for row, heading in enumerate(order):
        used = below(heading, parts)
        marks = "".join(
            "  o" if column == row else "  *" if other in used else "  |" if column < row else "   "
            for column, other in enumerate(order)
        )
        lines.append(f"{heading:{width}}{marks}".rstrip())
    return lines


def listed(root: Path) -> str:
    """The picture, and the crates of each subject."""
    parts = subjects((root / "crates.txt").read_text(encoding="utf-8"))
    lines = ["```text", *picture(parts), "```", ""]
    for heading, crates in parts.items():
        lines.append(f"- {heading}: {', '.join(f'`{name}`' for name in crates)}")
    return "\n".join([*lines, ""])


def written(root: Path) -> str:
    """The document with both as they should be."""
    text = (root / DOCUMENT).read_text(encoding="utf-8")
    head, _, rest = text.partition(BEGIN)
    return head + BEGIN + "\n" + listed(root) + "\n" + END + rest.partition(END)[2]


def missing(root: Path, text: str) -> list[str]:
    """What the table of places names, and the crates do not have."""
    found = []
    for line in text.partition(PLACES)[2].partition("\n\n")[0].splitlines()[2:]:
        for crate, named in PLACE.findall(line.split("|")[2]):
            for name in re.findall(r"`([^`]+)`", named):
                file = root / "crates" / crate / (name if "/" in name else f"src/{name}")
                if not any(file.with_suffix(ending).is_file() for ending in (".rt", ".antt")):
                    found.append(f"{crate}: {name}")
    return found


if __name__ == "__main__":
    if sys.argv[1:] != ["--write"]:
        sys.exit(__doc__)
    (ROOT / DOCUMENT).write_text(written(ROOT), encoding="utf-8")
