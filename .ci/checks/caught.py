"""Wrong bodies that a test must catch, most of which no contract rules out."""

from __future__ import annotations

import re
import shutil
import subprocess
from collections.abc import Callable
from pathlib import Path

from checks import copies, edits
from checks.edits import BadEdit, Edit
from checks.kit import Repository
from checks.unproved import quick_kit, workspace

# What an edit names in place of a test: the lines of the program `markers`, with their replies.
STORED_RUN = "stored run"
PROGRAM = "markers"
# How many edits stand in one build of tests. So many take some 2 GB.
TOGETHER = 20


def tester_of(edit: Edit) -> str:
    """The crate that is run to catch the edit."""
    return PROGRAM if edit.field("test") == STORED_RUN else edit.tester


class Trial:
    """The edits that the tests of one crate, or the stored run, must catch. That nothing fails
    without an edit is shown by `rt ci` and `.ci/tests`."""

    def __init__(
        self, repository: Repository, tester: str, tried: list[Edit], room: Path, tell: Callable
    ) -> None:
        self.repository = repository
        self.tester = tester
        self.edits = tried
        self.room = room
        self.builds = 0
        self.rt = quick_kit(room / f"kit-{tester}")
        self.tell = tell

    def run(self) -> list[tuple[bool, str]]:
        """Tries every edit. Answers of each whether it was caught, and what was told of it."""
        together = 1 if self.tester == PROGRAM else TOGETHER
        groups = [self.edits[at : at + together] for at in range(0, len(self.edits), together)]
        return [answer for group in groups for answer in self.check(group)]

    def check(self, group: list[Edit]) -> list[tuple[bool, str]]:
        """Tries edits in one build, and those of which it does not tell once more alone."""
        self.builds += 1
        copy = self.room / f"{self.tester}-{self.builds}"
        meet = self.replies if self.tester == PROGRAM else self.tests
        try:
            told = meet(group, copy)
        except (BadEdit, OSError) as error:
            told = [(None, str(error)) for _ in group]
        shutil.rmtree(copy, ignore_errors=True)
        answers = []
        for edit, (is_caught, said) in zip(group, told):
            if is_caught is None and len(group) > 1:
                answers += self.check([edit])
            else:
                self.tell(f"{edit.name}: {said}")
                answers.append((bool(is_caught), f"{edit.name}: {said}"))
        return answers

    def tests(self, group: list[Edit], copy: Path) -> list[tuple[bool | None, str]]:
        """Whether the test of each edit fails, each over an edit of its own, and what to say of
        it. Where a test was not run it is not known."""
        copies.workspace_of(self.repository, self.tester, group, copy)
        said = self.tried(copy, "--test")
        ended = dict(re.findall(r"^test (\S+) \.\.\. (\w+)$", said, re.M))
        told: list[tuple[bool | None, str]] = []
        for place, edit in enumerate(group):
            test = f"{edit.field('test')} of {self.tester}"
            match ended.get(f"{copies.mark(place)}::{edit.field('test')}"):
                case "FAILED":
                    told.append((True, f"caught by {test}"))
                case "ok":
                    told.append((False, f"NOT CAUGHT by {test}"))
                case _:
                    told.append((None, f"{test} was not run: {last_lines(said)}"))
        return told

    def replies(self, group: list[Edit], copy: Path) -> list[tuple[bool | None, str]]:
        """Whether the program, built with an edit, answers a stored line otherwise, or ends before
        the last."""
        (edit,) = group
        workspace(self.repository, [PROGRAM], copy)
        folder = self.repository.folder(edit.crate)
        copies.write(edits.texts([edit], folder), copy / "crates" / edit.crate)
        cases = copy / "cases"
        cases.mkdir()
        for name, file in (("lines", "stdin"), ("lines.stdout", "stdout")):
            shutil.copy(self.repository.folder(PROGRAM) / file, cases / name)
        said = self.tried(copy, "--cases", str(cases))
        if re.search(r"^case=lines run=ended .*\boutput=same\b", said, re.M):
            return [(False, "NOT CAUGHT by the stored run")]
        if re.search(r"^case=lines ", said, re.M):
            return [(True, "caught by the stored run")]
        return [(None, f"the stored run was not made: {last_lines(said)}")]

    def tried(self, copy: Path, *words: str) -> str:
        """What `rt try` says, which builds without any proof."""
        ran = subprocess.run(
            [self.rt, "try", *words],
            cwd=copy / "crates" / self.tester,
            stdin=subprocess.DEVNULL,
            stdout=subprocess.PIPE,
            stderr=subprocess.STDOUT,
            encoding="utf-8",
            errors="replace",
        )
        return ran.stdout


def last_lines(said: str) -> str:
    """The end of what a command said, in a line."""
    return " / ".join(said.strip().splitlines()[-3:])[-300:]
