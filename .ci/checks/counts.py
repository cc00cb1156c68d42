"""How many wrong bodies, tests and refused growths there are. A file keeps it, so that one that is
deleted is seen: as a number that falls.

  python3 .ci/checks/counts.py            prints where the file differs from what there is
  python3 .ci/checks/counts.py --write    writes the file
"""

from __future__ import annotations

import sys
from pathlib import Path

sys.dont_write_bytecode = True
sys.path.insert(0, str(Path(__file__).resolve().parent.parent))

from checks import copies, edits
from checks.kit import Repository, script

ROOT = Path(__file__).resolve().parent.parent.parent
FILE = Path(".ci") / "counts"
HEAD = """\
# How many edits of each kind, tests and refused growths there are, by crate and by family.
# Written by `python3 .ci/checks/counts.py --write`, and compared by the self-test.
"""
KINDS = ("must-fail", edits.TOGETHER, edits.BY_TESTS)


def of_crate(repository: Repository, crate: str) -> dict[str, int]:
    """How many edits of each kind a crate has, at how many of whose goals the search gives up, and
    how many tests."""
    its = {kind: edits.of_crate(repository.folder(crate), kind) for kind in KINDS}
    found = {kind: len(edits) for kind, edits in its.items()}
    found["at a limit"] = sum("search" in edit.fields for edit in its[edits.TOGETHER])
    texts = copies.sources(repository, crate).values()
    return found | {"tests": sum(text.count("#[test]\n") for text in texts)}


def of_families(root: Path) -> dict[str, dict[str, int]]:
    """How many growths are refused in each family of calls, and how many things that must meet."""
    return {
        f"{crate}, {family.name}": {
            "growths": family.growths,
            "met": len(family.all_met()),
            "hints": family.hints,
        }
        for crate, families in script(root / ".ci" / "refusals").FAMILIES.items()
        for family in families
    }


def of_repository(repository: Repository) -> str:
    """What the file must hold."""
    every = {crate: of_crate(repository, crate) for crate in sorted(repository.uses)}
    every |= of_families(repository.root)
    lines = []
    for name, counts in every.items():
        parts = [f"{count} {kind}" for kind, count in counts.items() if count]
        lines += [f"{name}: {', '.join(parts)}\n"] if parts else []
    return HEAD + "".join(lines)


def differences(kept: str, found: str) -> list[str]:
    """The lines that one of the two alone has."""
    both = {*kept.splitlines()} & {*found.splitlines()}
    gone = [f"in the file alone: {it}" for it in kept.splitlines() if it not in both]
    return gone + [f"not in the file: {it}" for it in found.splitlines() if it not in both]


def main() -> int:
    found = of_repository(Repository(ROOT))
    if "--write" in sys.argv:
        (ROOT / FILE).write_text(found)
    unlike = differences((ROOT / FILE).read_text(), found)
    print("\n".join(unlike))
    return 1 if unlike else 0


if __name__ == "__main__":
    sys.exit(main())
