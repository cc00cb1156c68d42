"""Several edits in one build of tests. Each is made in copies, under names of their own, of all the
crates through which a test meets the edited one, and of the tests: so each test meets one edit."""

from __future__ import annotations

import re
from collections.abc import Iterable
from pathlib import Path

from checks import edits
from checks.edits import BadEdit, Edit
from checks.kit import Repository
from checks.unproved import workspace

# A test, as `rt fmt` lays it out: its last line is as far to the right as its first.
TEST = re.compile(r"^( *)#\[test\]\n(?: *#\[.*\n)* *fn (\w+)(?:.*\n)*?\1\}\n", re.M)


def mark(place: int) -> str:
    """What the copies of an edit are named by, from its place among those of a build."""
    return f"edit_{place}"


def between(repository: Repository, edited: str, tester: str) -> list[str]:
    """The crates that a change of the edited one can reach, as the tester meets it: that one and
    those above it, each after those that it stands on, the tester last."""
    names = [*repository.below(tester), tester]
    return [name for name in names if name == edited or edited in repository.below(name)]


def sources(repository: Repository, crate: str) -> dict[str, str]:
    """The texts of a crate's sources, by their paths below `src`."""
    folder = repository.folder(crate)
    if crate in repository.tried:
        files = repository.files(crate)
        return {file.name.removesuffix(".txt"): file.read_text(encoding="utf-8") for file in files}
    below = folder / "src"
    files = sorted(below.rglob("*.rt"))
    return {str(file.relative_to(below)): file.read_text(encoding="utf-8") for file in files}


def renamed(text: str, crates: Iterable[str], by: str) -> str:
    """A text whose paths begin with the copies of these crates."""
    return re.sub(rf"\b({'|'.join(crates)})(?=::)", rf"\1_{by}", text)


def with_one_test(texts: dict[str, str], test: str) -> dict[str, str]:
    """The texts of a crate of tests without its other tests."""
    module, _, function = test.rpartition("::")
    holder = f"{module.replace('::', '/') or 'lib'}.rt"
    kept = lambda file, it: it[0] if (file, it[2]) == (holder, function) else ""
    return {file: TEST.sub(lambda it: kept(file, it), text) for file, text in texts.items()}


def as_module(texts: dict[str, str], by: str) -> dict[str, str]:
    """The texts of a crate as those of a module of another one, by its files below `src`."""
    made = {}
    for file, text in texts.items():
        text = re.sub(r"\bcrate::", f"crate::{by}::", text)
        if file == "lib.rt":
            file = "mod.rt"
            text = "".join(it for it in text.splitlines(True) if not it.startswith("#!["))
        made[f"{by}/{file}"] = text
    return made


def write_tests(
    modules: dict[str, dict[str, str]], uses: Iterable[str], crate: str, room: Path
) -> None:
    """Writes a crate of tests into a repository, of the modules that other ones become."""
    texts = {"lib.rt": "".join(f"#[cfg(test)]\nmod {by};\n" for by in modules)}
    for by, its in modules.items():
        texts |= as_module(its, by)
    write(texts, room / "crates" / crate / "src")
    with (room / "crates.txt").open("a", encoding="utf-8") as listed:
        listed.write(f"{crate}: {' '.join(dict.fromkeys(uses))}\n")


def write(texts: dict[str, str], folder: Path) -> None:
    for name, text in texts.items():
        file = folder / name
        file.parent.mkdir(parents=True, exist_ok=True)
        file.write_text(text, encoding="utf-8")


def place_copies(
    repository: Repository, edit: Edit, by: str, copied: list[str], room: Path
) -> None:
    """Writes the copies of libraries for an edit, into a repository."""
    changed = edits.texts([edit], repository.folder(edit.crate))
    with (room / "crates.txt").open("a", encoding="utf-8") as listed:
        for name in copied:
            texts = sources(repository, name)
            if name == edit.crate:
                texts |= {file.removeprefix("src/"): text for file, text in changed.items()}
            texts = {file: renamed(text, copied, by) for file, text in texts.items()}
            write(texts, room / "crates" / f"{name}_{by}" / "src")
            used = [f"{it}_{by}" if it in copied else it for it in repository.uses[name]]
            listed.write(f"{name}_{by}: {' '.join(used)}\n")


def workspace_of(repository: Repository, tester: str, tried: list[Edit], room: Path) -> None:
    """Makes a repository in which the tester has a module for each edit, with the test that must
    catch it."""
    workspace(repository, repository.below(tester), room)
    modules: dict[str, dict[str, str]] = {}
    used: list[str] = []
    for place, edit in enumerate(tried):
        by = mark(place)
        *copied, _ = between(repository, edit.crate, tester) or [tester]
        if not copied:
            raise BadEdit(f"{edit.name}: {tester} does not use {edit.crate}")
        place_copies(repository, edit, by, copied, room)
        tests = with_one_test(sources(repository, tester), edit.field("test"))
        modules[by] = {file: renamed(text, copied, by) for file, text in tests.items()}
        used += [f"{it}_{by}" if it in copied else it for it in repository.uses[tester]]
    write_tests(modules, used, tester, room)
