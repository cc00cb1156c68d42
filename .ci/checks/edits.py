"""Wrong bodies, as edits of the sources.

An edit is a file of lines 'KEY: TEXT'. 'file:' names a file of the crate, and each pair 'old:' and
'new:' below it replaces a text that stands there once. Other keys say what must come of it:

  function: F   the function that is wrong, as the prover names it, or the end of that name
  fails: G      the goal of that function which must be left open
  search: ..    'gives up' where that goal is left open at a limit of the search alone
  promise: ..   the promise of the whole project that it breaks; docs/PROMISES.md lists them
  test: T       the test that must fail, or 'stored run' for the lines of the program `markers`
  crate: C      the crate of that test, where it is another than the edit's own
"""

from __future__ import annotations

from dataclasses import dataclass
from pathlib import Path

TOGETHER = "must-fail-together"
BY_TESTS = "must-fail-tests"


class BadEdit(Exception):
    """An edit that cannot be applied, or does not say what it must."""


@dataclass(frozen=True)
class Pair:
    """A text of a file, and what stands in its place."""

    file: str
    old: str
    new: str


@dataclass(frozen=True, eq=False)
class Edit:
    """A wrong body: where it is kept, what it replaces, and what its other lines say."""

    path: Path
    pairs: tuple[Pair, ...]
    fields: dict[str, str]

    @property
    def crate(self) -> str:
        return self.path.parent.parent.name

    @property
    def name(self) -> str:
        return f"{self.crate}/{self.path.stem}"

    @property
    def tester(self) -> str:
        """The crate whose tests must catch the edit."""
        return self.fields.get("crate", self.crate)

    def field(self, key: str) -> str:
        if key not in self.fields:
            raise BadEdit(f"{self.name}: it has no line '{key}:'")
        return self.fields[key]


def read(path: Path) -> Edit:
    """The edit that the file holds."""
    fields: dict[str, str] = {}
    pairs: list[Pair] = []
    file = old = ""
    for line in path.read_text(encoding="utf-8").splitlines():
        key, parted, text = line.partition(": ")
        if not parted:
            raise BadEdit(f"{path}: a line is no 'KEY: TEXT': {line}")
        if key == "file":
            file = text
        elif key == "old":
            old = text
        elif key == "new":
            if not file or not old:
                raise BadEdit(f"{path}: a 'new:' line stands before any 'file:' or 'old:' line")
            pairs.append(Pair(file, old, text))
            old = ""
        else:
            fields[key] = text
    if not pairs or old:
        raise BadEdit(f"{path}: each 'old:' needs a 'new:' line, and an edit at least one of both")
    return Edit(path, tuple(pairs), fields)


def of_crate(crate: Path, kind: str) -> list[Edit]:
    """The edits of one kind that the crate keeps, by their names."""
    return [read(path) for path in sorted((crate / kind).glob("*.edit"))]


def texts(edits: list[Edit], crate: Path) -> dict[str, str]:
    """What the files of the crate hold once the edits are made, one upon another."""
    found: dict[str, str] = {}
    for edit in edits:
        for pair in edit.pairs:
            if pair.file not in found:
                found[pair.file] = (crate / pair.file).read_text(encoding="utf-8")
            count = found[pair.file].count(pair.old)
            if count != 1:
                raise BadEdit(
                    f"{edit.name}: an old text stands {count} times in {pair.file}, and not once"
                )
            found[pair.file] = found[pair.file].replace(pair.old, pair.new)
    return found
