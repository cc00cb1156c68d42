"""Wrong bodies that the prover must refuse, several in one check."""

from __future__ import annotations

import re
import tempfile
from collections.abc import Callable
from dataclasses import dataclass
from pathlib import Path

from checks import edits
from checks.calls import Calls, Function, is_named
from checks.edits import BadEdit, Edit
from checks.groups import groups
from checks.kit import Repository
from checks.prover import Prover, Said


@dataclass(frozen=True)
class Verdict:
    """Whether a wrong body is refused for a cause of its own, and what to say of it."""

    is_refused: bool
    text: str
    # Whether the check did not tell: the edit is then tried alone.
    is_open: bool = False
    # The function at whose goal the search gave up: then its goals without the edit tell.
    given_up: str = ""


def judge(edit: Edit, said: Said) -> Verdict:
    """What a check says of one of the edits that were made in it."""
    name = edit.field("function")
    goal = edit.field("fails")
    if said.unread:
        return Verdict(False, f"the prover cannot read the edited text: {said.unread[:200]}", True)
    if not said.has_ended:
        last = said.text.strip().rpartition("\n")[2]
        return Verdict(False, f"the edit did not reach the prover: {last[:200]}", True)
    paths = said.named(name)
    if len(paths) != 1:
        return Verdict(False, f"{name} names {len(paths)} functions of the crate, and not one")
    function = said.functions[paths[0]]
    fails = {path for path, it in said.functions.items() if it.causes() or it.given_up}
    others = sorted(fails - {paths[0]})
    if function.is_proved:
        if others:
            text = f"{name} is proved, and {others[0]} is refused in its place"
            return Verdict(False, text, True)
        return Verdict(False, f"NOT REFUSED: {name} is still proved with this edit")
    causes = function.causes()
    if goal in causes:
        return Verdict(True, f"refused at {goal} of {name}")
    if function.misses_names and not causes:
        why = "its proof names what the edit took away, which says nothing of the contract"
        return Verdict(False, f"{name} is refused for missing names alone: {why}")
    if goal in function.given_up:
        besides = f"; it fails at {', '.join(sorted(causes))}" if causes else ""
        text = f"the search gave up at {goal} of {name}, which may hold{besides}"
        return Verdict(False, text, given_up=paths[0])
    if causes or function.given_up:
        found = ", ".join(sorted(causes | function.given_up))
        return Verdict(False, f"{name} fails elsewhere, at {found}, not at {goal}")
    return Verdict(False, f"{name} has no cause of its own: {function.status[:200]}", True)


def settled(edit: Edit, verdict: Verdict, goals: str) -> Verdict:
    """A verdict of a goal at which the search gave up. It counts where the function has the goal
    without the edit too, since the same search proves it there, or where the edit says of itself
    that the search gives up."""
    goal = edit.field("fails")
    if re.search(rf"(?<![\w+-]){re.escape(goal)}(?![\w+-])", goals):
        return Verdict(True, f"refused at {goal}, which the search proves without the edit")
    if edit.fields.get("search") == "gives up":
        return Verdict(True, f"left open at {goal}, at a limit of the search")
    return Verdict(False, f"{verdict.text}: without the edit there is no such goal")


def function_of(edit: Edit, calls: Calls, crate: Path) -> Function:
    """The function that the edit names, in which each of its texts must stand but those of
    another file (as an import)."""
    name = edit.field("function")
    found = [function for function in calls.functions if is_named(function.path, name)]
    inside = []
    for pair in edit.pairs:
        text = (crate / pair.file).read_text(encoding="utf-8")
        place = text.find(pair.old)
        inside += [it for it in found if it.file == pair.file and it.start <= place < it.end]
    if not inside:
        raise BadEdit(f"{edit.name}: no old text stands in a function {name}")
    return inside[0]


class Trial:
    """The edits of one crate, and the checks that tell of them."""

    def __init__(self, repository: Repository, crate: str, tell: Callable[[str], None]) -> None:
        self.repository = repository
        self.crate = crate
        self.tell = tell
        self.folder = repository.folder(crate)
        self.edits = edits.of_crate(self.folder, edits.TOGETHER)

    def run(self) -> list[tuple[bool, str]]:
        """Tries every edit. Answers of each whether it was refused, and what was told of it."""
        try:
            if not self.repository.build_below(self.crate):
                raise BadEdit(f"{self.crate}: the libraries below it do not stand")
            calls = Calls(self.folder)
            functions = {edit: function_of(edit, calls, self.folder) for edit in self.edits}
        except BadEdit as error:
            self.tell(str(error))
            return [(False, str(error)) for _ in self.edits]
        are_apart = lambda one, other: calls.are_apart(functions[one], functions[other])
        with tempfile.TemporaryDirectory(prefix=f"wrong-{self.crate}-") as room:
            prover = Prover(self.repository, self.crate, Path(room), calls.cycles())
            verdicts: dict[Edit, Verdict] = {}
            for group in groups(self.edits, are_apart):
                verdicts |= self.check(prover, group)
            given_up = [verdict.given_up for verdict in verdicts.values() if verdict.given_up]
            goals = prover.goals(given_up) if given_up else ""
        for edit, verdict in verdicts.items():
            if verdict.given_up:
                verdicts[edit] = settled(edit, verdict, goals)
                self.tell(f"{edit.name}: {verdicts[edit].text}")
        return [(it.is_refused, f"{edit.name}: {it.text}") for edit, it in verdicts.items()]

    def check(self, prover: Prover, group: list[Edit]) -> dict[Edit, Verdict]:
        """Tries edits in one check, and those of which it does not tell once more alone. Tells of
        all but those at whose goal the search gave up."""
        try:
            texts = edits.texts(group, self.folder)
            said = prover.check(texts, [edit.field("function") for edit in group])
            verdicts = {edit: judge(edit, said) for edit in group}
        except BadEdit as error:
            verdicts = {edit: Verdict(False, str(error), True) for edit in group}
        for edit, verdict in list(verdicts.items()):
            if verdict.is_open and len(group) > 1:
                verdicts |= self.check(prover, [edit])
            elif not verdict.given_up:
                self.tell(f"{edit.name}: {verdict.text}")
        return verdicts
