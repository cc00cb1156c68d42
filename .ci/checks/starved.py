"""Runs of a program in which one growth of memory is refused."""

from __future__ import annotations

import re
import subprocess
import tempfile
from collections.abc import Callable, Iterable
from dataclasses import dataclass
from pathlib import Path

from checks.kit import Repository, kit
from checks.unproved import link, quick_kit, workspace

NOTHING = "nothing was refused"

# The program that serves lines.
SERVER = "markers"
# The program that makes the calls of families, of which each crate has its own.
CALLER = "families"
PROGRAM = """\
//! Makes the calls of families while one allocation fails.
#![tactic(auto)]

use starved::{Families, Met, run};
use std::alloc::Global;
use std::io;

struct Calls;

impl Families for Calls {
    fn make(alloc: Global, family: &str) -> Option<Met> {
        match family {
%s            _ => None,
        }
    }
}

fn main(rt: HostRuntime) -> io::Result<()> {
    run::<Calls, _>(&rt)
}
"""
ARM = """\
            "%s" => %s::Calls::make(alloc, family),
"""

# A linker that keeps the program that it links.
LINKER = """\
#!/bin/sh
'%s' "$@" && cp program '%s'
"""
# Seconds that a run may take.
LIMIT = 600

# In so many runs of a family the refused growth comes after all of its own.
LEFT = 3


def calls(family: str, indices: Iterable[int]) -> list[str]:
    """What is told where the refused growth met one of these calls of a family."""
    return [f"refused call {index} of {family}" for index in sorted(indices)]


@dataclass(frozen=True)
class Family:
    """A family of calls of a program: what a line of the input calls it, in how many runs a growth
    is refused, and what that must meet beside what comes before the calls; and how many growths are
    hints, of as much room as a list may come to need: where one is refused the library asks for
    less, and the call answers as ever."""

    name: str
    growths: int
    met: list[str]
    hints: int = 0

    def all_met(self) -> list[str]:
        return ["refused before the calls", *self.met]


def faults_of(family: Family, growth: int, answers: list[tuple[int, str]]) -> list[str]:
    """What is wrong with the runs of a family: how many growths each had before its own, and what
    the refused growth of the run met. In those with the fewest before its own the refused one comes
    after them all, and behind them each run must meet something, but for the family's hints."""
    wrong = []
    if len(answers) != family.growths:
        wrong.append(f"{family.name}: {len(answers)} of {family.growths} runs answered")
    if any(met != NOTHING and not met.startswith("refused ") for _, met in answers):
        wrong.append(f"{family.name}: an answer changed")
    met_nothing = [met == NOTHING for _, met in answers]
    after_all = met_nothing.index(False) if False in met_nothing else len(answers)
    if after_all < LEFT:
        wrong.append(f"{family.name} has more than {family.growths - LEFT} growths")
    passed_over = [growth - held for held, met in answers[after_all:] if met == NOTHING]
    if len(passed_over) != family.hints:
        wrong.append(
            f"{family.name}: {len(passed_over)} growths were refused and met nothing, and not "
            f"{family.hints}: {passed_over}"
        )
    found = {met for _, met in answers}
    return wrong + [f"{family.name}: never {met}" for met in family.all_met() if met not in found]


def write_program(families: dict[str, list[Family]], room: Path) -> None:
    """Writes a program into a repository that makes the calls of families of these crates: so what
    they share is compiled once."""
    arms = [ARM % (family.name, crate) for crate, its in families.items() for family in its]
    (room / "crates" / CALLER / "src").mkdir(parents=True)
    (room / "crates" / CALLER / "src" / "main.rt").write_text(PROGRAM % "".join(arms))
    with (room / "crates.txt").open("a") as listed:
        listed.write(f"{CALLER}: {' '.join(['starved', *families])}\n")


def keeping_kit(room: Path, kept: Path) -> Path:
    """Makes a copy of the toolchain whose linker keeps the program that it links, and answers its
    `rt`: a run of that program takes a fiftieth of the time of a run by `rt try`."""
    rt = quick_kit(room)
    (room / "toolchain").unlink()
    link(kit() / "toolchain", room / "toolchain", but=["bin"])
    link(kit() / "toolchain" / "bin", room / "toolchain" / "bin", but=["ld.lld"])
    linker = room / "toolchain" / "bin" / "ld.lld"
    linker.write_text(LINKER % (kit() / "toolchain" / "bin" / "ld.lld", kept))
    linker.chmod(0o755)
    return rt


@dataclass(frozen=True)
class Run:
    """How a run of a program ended, and what it printed."""

    status: int | None
    said: str


class Starved:
    """Runs of programs with one growth refused, and what was wrong with them."""

    def __init__(
        self,
        repository: Repository,
        families: dict[str, list[Family]],
        room: Path,
        tell: Callable[[str], None],
    ) -> None:
        self.families = families
        self.room = room
        self.tell = tell
        workspace(repository, [*families, SERVER], room / "copy")
        write_program(families, room / "copy")

    def built(self, program: str, growth: int) -> Path:
        """Builds a program in which this growth is refused, and answers where it is. Tells why it
        was not built, if it was not."""
        kept = self.room / f"{program}-{growth}"
        rt = keeping_kit(self.room / f"kit-{program}-{growth}", kept)
        said = subprocess.run(
            [rt, "try", "--fail-alloc", str(growth)],
            cwd=self.room / "copy" / "crates" / program,
            stdin=subprocess.DEVNULL,
            stdout=subprocess.PIPE,
            stderr=subprocess.STDOUT,
            text=True,
            errors="replace",
        )
        if not kept.is_file():
            self.tell("\n".join(said.stdout.splitlines()[-20:]))
            self.tell(f"refusals: {program} was not built")
        return kept

    def run(self, program: Path, given: str, words: Iterable[str] = ()) -> Run:
        """Runs a program with these words on a file. It has no status if it takes too long, or was
        not built. (From a pipe it would ask for memory more often.)"""
        how = {"stdout": subprocess.PIPE, "stderr": subprocess.STDOUT, "timeout": LIMIT}
        with tempfile.TemporaryFile() as file:
            file.write(given.encode())
            file.seek(0)
            try:
                ran = subprocess.run([program, *words], stdin=file, env={}, **how)
            except (subprocess.TimeoutExpired, FileNotFoundError) as error:
                return Run(None, str(error))
        return Run(ran.returncode, ran.stdout.decode(errors="replace"))

    def sweep(self) -> list[bool]:
        """Refuses each growth of each family in turn, and answers which families are right. The
        same growth of the whole run is refused each time, which is another one of the family for
        each number of growths before."""
        families = [(it, family) for it, its in self.families.items() for family in its]
        growth = max(family.growths for _, family in families)
        built = self.built(CALLER, growth)
        if not built.is_file():
            return [False for _ in families]
        return [self.judge(crate, family, growth, built) for crate, family in families]

    def judge(self, crate: str, family: Family, growth: int, built: Path) -> bool:
        """Whether the runs of a family are right, in which this growth of the whole run was
        refused. Tells what is wrong with them. The lines of all runs are as long, so that none
        asks for memory more often than another."""
        answers = []
        bad = []
        for held in range(growth - family.growths, growth):
            line = f"{held:0{len(str(growth))}} {family.name}"
            ran = self.run(built, f"{line}\n")
            found = re.fullmatch(rf"{re.escape(line)}: (.*)\n", ran.said)
            if ran.status == 0 and found:
                answers.append((held, found[1]))
            else:
                bad.append(ran.said)
        wrong = faults_of(family, growth, answers)
        refused = sum(met.startswith("refused ") for _, met in answers)
        runs = f"{refused} growths refused in {family.growths} runs"
        self.tell(f"refusals: {crate}, {family.name}: {runs}")
        return self.passed(crate, wrong, bad[0] if bad else "")

    def serve(self, lines: int, growths: int) -> list[bool]:
        """Runs the server, in which the growth after so many is refused: on a long input, and with
        so many words that reading these takes more."""
        built = self.built(SERVER, growths + 1)
        return [self.long_input(built, lines, growths), self.refused_start(built, growths)]

    def long_input(self, built: Path, lines: int, growths: int) -> bool:
        """Serves a long line and so many short ones, of which no cell is left. They take no more
        than so many growths, so memory grows with the longest line and not with their number."""
        given = f"{0:020000}\n" + "noop\n" * lines
        ran = self.run(built, given)
        answers = len(re.findall(r"^error command$", ran.said, re.M))
        wrong = []
        if answers != lines + 1:
            wrong.append(f"{answers} of {lines + 1} lines were answered")
        if ran.status != 0:
            wrong.append("serving ended otherwise")
        self.tell(f"refusals: markers: {answers} lines served with at most {growths} growths")
        return self.passed(SERVER, wrong, ran.said)

    def refused_start(self, built: Path, growths: int) -> bool:
        """Refuses a growth of the arguments: the program tells it and ends with status 1."""
        ran = self.run(built, "noop\n", ["word"] * (2 * growths))
        wrong = []
        if not re.search(r"^markers: out of memory$", ran.said, re.M):
            wrong.append("a refused start is not told")
        if ran.status != 1:
            wrong.append("a refused start ended otherwise")
        self.tell("refusals: markers: a start without memory is tried")
        return self.passed(SERVER, wrong, ran.said)

    def passed(self, program: str, wrong: list[str], said: str) -> bool:
        """Tells what is wrong with the runs of a program, if anything is."""
        for fault in wrong:
            self.tell(f"refusals: {program}: {fault}")
        if wrong:
            self.tell("\n".join(said.splitlines()[-5:]))
        return not wrong
