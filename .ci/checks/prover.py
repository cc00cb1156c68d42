"""What the prover says of a crate with some of its functions made wrong."""

from __future__ import annotations

import re
import shutil
import subprocess
from dataclasses import dataclass, field
from pathlib import Path

from checks import calls
from checks.kit import PARTS, Repository, kit

STATUS = re.compile(r"^fn (\S+?): (.*)$")
ERROR = re.compile(r"^(?:\./)?((?:src|specs|proofs)/\S+?):\d+:\d+: error: (.*)$")
LEFT = re.compile(r"`search` did not prove (.*?)(?:;|$)")
# What stands above the line of a function, for each goal that has no answer of its own.
NOTE = re.compile(r"^note: src/\S+: it is not proved that .*\(`([^`]+)`\)(.*)$")
# What is said of a goal that may have a proof past a limit.
GAVE_UP = "gave up at one of its limits"
QUOTED = re.compile(r"`([^`]+)`")
# What an error says where a proof names what the edited text no longer has.
MISSING = re.compile(
    r"has no field|has no `|is not in scope|was not admitted|is no name|cannot be named from here"
)
# What an error says where a text of the sources or of specs cannot be read.
UNREADABLE = re.compile(MISSING.pattern + r"|operand is missing|expected the end|cannot continue")


@dataclass
class Function:
    """What a check says of one function."""

    status: str = ""
    # The goals that `search` alone was to prove and did not.
    left: set[str] = field(default_factory=set)
    # The goals whose written answer does not prove them.
    broken: set[str] = field(default_factory=set)
    # Those at which the search met one of its limits, so that it is not known whether they hold.
    given_up: set[str] = field(default_factory=set)
    # Whether a file of its proof names what is not there.
    misses_names: bool = False

    @property
    def is_proved(self) -> bool:
        return self.status == "proved"

    def causes(self) -> set[str]:
        """Its goals that do not hold. Where its proof misses names its goals are others than
        before, so that only a goal that has an answer of its own counts."""
        return self.broken if self.misses_names else self.broken | (self.left - self.given_up)


@dataclass
class Said:
    """What one check says."""

    functions: dict[str, Function]
    # The first text that the prover could not read, if there is one.
    unread: str
    # Whether the prover came to an end.
    has_ended: bool
    text: str

    def named(self, name: str) -> list[str]:
        """The functions that a name stands for: a whole path below the crate, or the end of one."""
        return [path for path in self.functions if calls.is_named(path, name)]


def read(said: str, crate: str, changed: set[str], cycles: dict[str, set[str]]) -> Said:
    """What the lines of a check say. `changed` are the files that were edited, and `cycles` the
    names of the functions of each cycle of calls, whose proof stands in one folder."""
    functions: dict[str, Function] = {}
    noted: dict[str, str] = {}
    for line in said.splitlines():
        if (note := NOTE.match(line)) is not None:
            noted[note[1]] = note[2]
        elif (found := STATUS.match(line)) is not None:
            path = found[1].removeprefix(f"{crate}::")
            left = LEFT.search(found[2])
            goals = {*noted, *(QUOTED.findall(left[1]) if left else ())}
            if is_in_cycle(path, cycles):
                goals = {goal for goal in goals if goal.startswith(f"{end_of(path)}-")}
            given_up = {goal for goal in goals if GAVE_UP in noted.get(goal, "")}
            functions[path] = Function(found[2], goals, given_up=given_up)
            noted = {}
    unread = ""
    for line in said.splitlines():
        if (found := ERROR.match(line)) is None:
            continue
        goal = re.match(r"`([^`]+)`: ", found[2])
        if found[1] in changed or not found[1].startswith("proofs/"):
            rest = re.sub(r"`[^`]*`", "", found[2])
            if goal is None or UNREADABLE.search(rest):
                unread = unread or line
        for path in proved_in(found[1], goal[1] if goal else "", functions, cycles):
            if goal is None or MISSING.search(found[2]):
                functions[path].misses_names = True
            else:
                functions[path].broken.add(goal[1])
    last = said.rstrip().rpartition("\n")[2]
    return Said(functions, unread, last.startswith(("logic=", "only=")), said)


def proved_in(
    file: str, goal: str, functions: dict[str, Function], cycles: dict[str, set[str]]
) -> list[str]:
    """The functions whose proof the file is of: one, or those of a cycle of calls, whose goals
    begin with the name of the function."""
    folder = file.removeprefix("proofs/").rpartition("/")[0]
    last = folder.rpartition("/")[2]
    if not last.startswith("+"):
        return [path for path in functions if path.replace("::", "/") == folder]
    cycle = {"": cycles.get(last[1:], {last[1:]})}
    found = [path for path in functions if is_in_cycle(path, cycle)]
    return [path for path in found if goal.startswith(f"{end_of(path)}-")] or found


def end_of(path: str) -> str:
    return path.rpartition("::")[2]


def is_in_cycle(path: str, cycles: dict[str, set[str]]) -> bool:
    """Whether the function is of one of the cycles of calls."""
    return any(calls.is_named(path, name) for names in cycles.values() for name in names)


class Prover:
    """Checks of one crate, each over what those before it kept."""

    def __init__(
        self, repository: Repository, crate: str, room: Path, cycles: dict[str, set[str]]
    ) -> None:
        self.repository = repository
        self.crate = crate
        self.room = room
        self.cycles = cycles
        self.count = 0

    def words(self) -> list[str]:
        """The words that check the crate over the libraries that stand."""
        root = self.repository
        words = [str(kit() / "bin" / "rattle"), "check", "--crate-name", self.crate, "src/lib.rt"]
        for used in ["std", *root.uses[self.crate]]:
            is_own = used in root.uses
            library = root.library(used) if is_own else kit() / "rlibs" / f"{used}.rlib"
            words += ["--extern", f"{used}={library}"]
        for used in root.below(self.crate):
            words += ["-L", f"dependency={root.library(used).parent}"]
        words += ["-L", f"dependency={kit() / 'rlibs'}"]
        words += ["--antt-project", str(kit() / "rattle" / "logic" / "antt-project.json")]
        words += ["--logic-built", str(kit() / "logic_built"), "--jobs", "1"]
        return [*words, "--incremental", str(self.room / "kept")]

    def check(self, texts: dict[str, str], functions: list[str]) -> Said:
        """Checks these functions, and those that they call, with these texts in their files."""
        self.count += 1
        copy = self.room / f"copy-{self.count}"
        for part in PARTS:
            if (self.repository.folder(self.crate) / part).is_dir():
                shutil.copytree(self.repository.folder(self.crate) / part, copy / part)
        for file, text in texts.items():
            (copy / file).write_text(text, encoding="utf-8")
        (self.room / "kept").mkdir(exist_ok=True)
        only = [word for name in sorted(set(functions)) for word in ("--only", name)]
        ran = subprocess.run(
            [*self.words(), *only],
            cwd=copy,
            stdin=subprocess.DEVNULL,
            stdout=subprocess.PIPE,
            stderr=subprocess.STDOUT,
            encoding="utf-8",
            errors="replace",
        )
        shutil.rmtree(copy)
        return read(ran.stdout, self.crate, set(texts), self.cycles)

    def goals(self, functions: list[str]) -> str:
        """The goals of functions as they stand in the repository, as text."""
        made = self.room / "goals"
        named = [word for name in sorted(set(functions)) for word in ("--start", name)]
        subprocess.run(
            [*self.words(), *named, "--generated", str(made)],
            cwd=self.repository.folder(self.crate),
            stdin=subprocess.DEVNULL,
            stdout=subprocess.DEVNULL,
            stderr=subprocess.STDOUT,
        )
        paths = {name.replace("::", "/") for name in functions}
        texts = []
        for file in made.glob(f"Rattle-{self.crate}-proofs/**/Goals.antt"):
            folder = file.parent.relative_to(made / f"Rattle-{self.crate}-proofs")
            if str(folder) in paths or folder.name.startswith("+"):
                texts.append(file.read_text(encoding="utf-8"))
        return "\n".join(texts)
