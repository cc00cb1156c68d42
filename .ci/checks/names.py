#!/usr/bin/env python3
"""Each public name of the crate `pep508_rs`, by its path, in a test that does not compile where one
is gone.

  python3 .ci/checks/names.py --write     writes tests/test_pep508_rs/names.rt.txt from the sources

The self-test compares that file with the sources.
"""

from __future__ import annotations

import re
import sys
from pathlib import Path

sys.dont_write_bytecode = True
sys.path.insert(0, str(Path(__file__).resolve().parent.parent))

from checks.kit import Repository

ROOT = Path(__file__).resolve().parents[2]
NAMES = Path("tests/test_pep508_rs/names.rt.txt")
# The files whose names are listed, with the path of what each hands on.
FILES = {
    "pep508_rs/src/lib.rt": "pep508_rs",
    "pep508_rs/src/marker.rt": "pep508_rs::marker",
    "pep508_rs/src/internal.rt": "pep508_rs::internal",
    "pep440_rs/src/lib.rt": "pep508_rs::pep440_rs",
}
HANDED_ON = re.compile(r"^pub use ([^;]*);", re.MULTILINE)
DEFINED = re.compile(r"^pub (?:struct|enum) (\w+)(?:<([^{(;]*?)>)?\s*[{(;]", re.MULTILINE)
# What stands for a parameter with this bound.
ARGUMENTS = {"Pep508Url": "pep508_rs::VerbatimUrl", "UnnamedRequirementUrl": "pep508_rs::VerbatimUrl"}


def handed_on(text: str) -> list[str]:
    """The names that a file hands on."""
    names = []
    for used in HANDED_ON.findall(text):
        within = used.split("{", 1)[1].rstrip("} \n") if "{" in used else used.rsplit("::", 1)[-1]
        names += [name.strip() for name in within.split(",") if name.strip()]
    return names


def arguments(parameters: str) -> str:
    """What stands for the parameters of a type where its size is asked."""
    made = []
    for parameter in (it.strip() for it in parameters.split(",") if it.strip()):
        if parameter.startswith("'"):
            made.append("'static")
        else:
            bounds = re.split(r"[:+ ]+", parameter)[1:]
            made.append(next((ARGUMENTS[it] for it in bounds if it in ARGUMENTS), "u8"))
    return f"<{', '.join(made)}>" if made else ""


def types_of(root: Path) -> dict[str, str]:
    """The public types of the crates below, each with what stands for its parameters."""
    # (Those of the kit and of a generic list first.)
    found = {"Ranges": "<u8>", "Url": ""}
    for crate in sorted(Repository(root).below("pep508_rs")):
        for path in sorted((root / "crates" / crate / "src").rglob("*.rt")):
            for name, parameters in DEFINED.findall(path.read_text(encoding="utf-8")):
                found.setdefault(name, arguments(parameters))
    return found


def test_of(path: str, names: list[str], types: dict[str, str]) -> str:
    """A test that asks the size of each type of a path."""
    module = path.replace("pep508_rs::", "").replace("::", "_")
    sizes = [f"        size_of::<{path}::{name}{types[name]}>()," for name in names]
    body = "\n".join(sizes)
    return f"""
#[test]
fn types_of_{module}(rt: HostRuntime) {{
    let sizes = [
{body}
    ];
    assert_eq!(rt; sizes.len(), {len(sizes)});
}}
"""


def written(root: Path) -> str:
    """The text of the file of names."""
    types = types_of(root)
    tests, uses = [], []
    for file, path in FILES.items():
        names = sorted(set(handed_on((root / "crates" / file).read_text(encoding="utf-8"))))
        tests.append(test_of(path, [name for name in names if name in types], types))
        uses += [f"use {path}::{name} as _;" for name in names if name not in types]
    head = """//! Each public name of the crate, by its path: the size of each type, and a `use` of all else.
//! `.ci/checks/names.py --write` writes this file.
"""
    return head + "\n" + "\n".join(uses + ["use std::mem::size_of;"]) + "\n" + "".join(tests)


if __name__ == "__main__":
    if sys.argv[1:] != ["--write"]:
        sys.exit(__doc__)
    (ROOT / NAMES).write_text(written(ROOT), encoding="utf-8")
