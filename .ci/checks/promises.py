"""The promises of the whole project, each with the wrong bodies that break it: what the lines
`promise:` of edits say, as a page.

  python3 .ci/checks/promises.py            prints where the page differs from the edits
  python3 .ci/checks/promises.py --write    writes the page
"""

from __future__ import annotations

import sys
from pathlib import Path

sys.dont_write_bytecode = True
sys.path.insert(0, str(Path(__file__).resolve().parent.parent))

from checks import edits
from checks.edits import Edit
from checks.kit import Repository

ROOT = Path(__file__).resolve().parent.parent.parent
DOCUMENT = Path("docs") / "PROMISES.md"
KINDS = ("must-fail", edits.TOGETHER, edits.BY_TESTS)
HEAD = """\
# Promises of the whole project

Each promise with the wrong bodies that break it. A wrong body is an edit in `crates/CRATE/must-fail*`; the prover rejects it, or a test catches it. [PROOFS](PROOFS.md) has the clauses, [CHECKS](CHECKS.md) how edits are tried. `python3 .ci/checks/promises.py --write` writes this page.

| Promise | Wrong bodies |
|---|---|
"""


def rows(every: list[Edit]) -> str:
    """The rows of the promises of edits, in the order of their text."""
    found: dict[str, list[str]] = {}
    for edit in every:
        if "promise" in edit.fields:
            found.setdefault(edit.fields["promise"], []).append(edit.name)
    return "".join(
        f"| {promise[0].upper()}{promise[1:]} | {', '.join(f'`{it}`' for it in sorted(names))} |\n"
        for promise, names in sorted(found.items(), key=lambda it: it[0].lower())
    )


def of_repository(repository: Repository) -> str:
    """What the page must hold."""
    folders = [repository.folder(crate) for crate in sorted(repository.uses)]
    return HEAD + rows([it for at in folders for kind in KINDS for it in edits.of_crate(at, kind)])


def main() -> int:
    page = ROOT / DOCUMENT
    wanted = of_repository(Repository(ROOT))
    if "--write" in sys.argv:
        page.write_text(wanted, encoding="utf-8")
    written = page.read_text(encoding="utf-8").splitlines() if page.is_file() else []
    others = sorted(set(wanted.splitlines()) ^ set(written))
    print("\n".join(others) if others else f"{DOCUMENT} is up to date")
    return 1 if others else 0


if __name__ == "__main__":
    sys.exit(main())
