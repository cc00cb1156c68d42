"""The repository's crates, the toolchain, and tasks side by side."""

from __future__ import annotations

import hashlib
import os
import subprocess
import sys
from collections.abc import Callable, Iterable
from concurrent.futures import ThreadPoolExecutor
from functools import cache
from importlib.machinery import SourceFileLoader
from importlib.util import module_from_spec, spec_from_loader
from pathlib import Path
from types import ModuleType
from typing import TypeVar

Item = TypeVar("Item")
Answer = TypeVar("Answer")

PARTS = ("src", "specs", "proofs")


@cache
def kit() -> Path:
    """The toolchain's folder."""
    said = subprocess.run(["rt", "doc"], capture_output=True, text=True, check=True)
    return Path(said.stdout.strip()).parent


@cache
def version() -> str:
    """The line that names the toolchain."""
    said = subprocess.run(["rt", "version"], capture_output=True, text=True, check=True)
    return said.stdout.strip()


def lanes() -> int:
    """How many checks run side by side: RT_JOBS, or one a processor."""
    wanted = os.environ.get("RT_JOBS", "")
    return int(wanted) if wanted.isdigit() and int(wanted) else len(os.sched_getaffinity(0))


def side_by_side(items: Iterable[Item], task: Callable[[Item], Answer]) -> list[Answer]:
    """What the task answers for each item, in their order; they begin in their order too."""
    with ThreadPoolExecutor(lanes()) as pool:
        return list(pool.map(task, items))


def script(file: Path) -> ModuleType:
    """A script whose name has no ending, as a module."""
    loader = SourceFileLoader(file.name, str(file))
    module = module_from_spec(spec_from_loader(file.name, loader))
    sys.modules[file.name] = module
    loader.exec_module(module)
    return module


def listed(file: Path) -> dict[str, list[str]]:
    """The crates that a list has, each with what it uses."""
    found: dict[str, list[str]] = {}
    for line in file.read_text().splitlines() if file.is_file() else []:
        line = line.partition("#")[0].strip()
        if line:
            name, _, used = line.partition(":")
            found[name.split()[0]] = used.split()
    return found


class Repository:
    """The crates that crates.txt lists, which are proved, those of tests/tests.txt, which are
    compiled and run without a proof, and which stand on which."""

    def __init__(self, root: Path) -> None:
        self.root = root
        self.proved = listed(root / "crates.txt")
        self.tried = listed(root / "tests" / "tests.txt")
        self.uses = self.proved | self.tried

    def folder(self, crate: str) -> Path:
        return self.root / ("tests" if crate in self.tried else "crates") / crate

    def below(self, crate: str) -> list[str]:
        """The repository's libraries below a crate, each after those that it stands on."""
        found: list[str] = []
        for used in self.uses[crate]:
            if used in self.uses:
                found += [name for name in [*self.below(used), used] if name not in found]
        return found

    def files(self, crate: str) -> list[Path]:
        """The files that a check of the crate reads, in order."""
        folder = self.folder(crate)
        if crate in self.tried:
            return sorted(folder.glob("*.rt.txt"))
        found = [file for part in PARTS for file in sorted((folder / part).rglob("*"))]
        return [file for file in found if file.is_file()]

    def sum_of(self, files: Iterable[Path], read: Callable[[Path], bytes] = Path.read_bytes) -> str:
        """A sum over the names of files of the repository, and over what is read of each."""
        found = hashlib.sha256()
        for file in files:
            found.update(f"{file.relative_to(self.root)}\0".encode())
            found.update(hashlib.sha256(read(file)).digest())
        return found.hexdigest()

    def library(self, crate: str) -> Path:
        """Where the built library of a crate lies."""
        return self.folder(crate) / "out" / "rlib" / f"{crate}.rlib"

    def made_at(self, crate: str) -> float:
        """When the built library of a crate was put where it lies, or 0 where there is none. (Its
        files may be older: those of an earlier run on this machine get a second name here.)"""
        made = self.library(crate)
        return made.stat().st_mtime if (made / "format").is_file() else 0.0

    def is_newest(self, crate: str) -> bool:
        """Whether the built library is newer than its text and than the libraries that it uses."""
        made = self.made_at(crate)
        texts = [file.stat().st_mtime for file in self.files(crate)]
        used = [self.made_at(name) for name in self.uses[crate] if name in self.uses]
        return made > 0 and all(time <= made for time in [*texts, *used])

    def stands(self, crate: str) -> bool:
        """Whether the built library is up to date, and so is each below it."""
        return all(self.is_newest(name) for name in [*self.below(crate), crate])

    def build_below(self, crate: str) -> bool:
        """Brings the libraries below a crate up to date, which takes no time after `rt ci`. Answers
        whether they stand."""
        for used in self.below(crate):
            if not self.stands(used):
                built = subprocess.run(["rt", "lib"], cwd=self.folder(used), capture_output=True)
                if built.returncode:
                    return False
        return True
