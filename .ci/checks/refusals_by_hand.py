"""Refusals for want of memory that code makes.

A contract lets a call answer `AllocError` at any time, so a body that gives up is proved. Such an
answer may only be passed on: by `?`, or in an arm whose pattern names the refusal of another call.
Each other place that makes one is counted here, with why it may.
"""

from __future__ import annotations

import re
from collections import Counter
from collections.abc import Iterator
from pathlib import Path

from checks.kit import Repository

# A refusal as a value, as `Refusal::OutOfMemory`, `ok_or(AllocError)` or `from.no_memory()`.
MADE = re.compile(
    r"\b[A-Z]\w*::(OutOfMemory|Memory)\b|\bno_memory\(|(^|[(|]|=>|return)\s*AllocError\b(?!\s*[>{])"
)
# What is only compared with it, or matches it.
MATCHED = re.compile(r"[!=]=\s*[\w:]+|\blet\s+[^=]*=[^=]|\bmatches!\([^,]*,[^)]*\)+")
ARM = re.compile(r"^(?P<pattern>[^{}]*?)=>(?P<body>.*)$")
NAMED = re.compile(r"AllocError|OutOfMemory|::Memory")

# How often a refusal is handed on that the pattern does not name: the only error that a call has,
# the one that is left behind its faults, one that an iterator or a list has as another type, one
# that `?` converts, or one that an error of std has as its kind.
HANDED_ON = {
    "crates/foreign_calls/src/environment.rt": 3,
    "crates/foreign_calls/src/marker.rt": 2,
    "crates/foreign_calls/src/simplification.rt": 1,
    "crates/foreign_markers/src/calls.rt": 1,
    "crates/foreign_markers/src/markers.rt": 2,
    "crates/foreign_markers/src/script.rt": 1,
    "crates/line_server/src/serving.rt": 2,
    "crates/marker_answers/src/simplifying.rt": 2,
    "crates/marker_commands/src/environments.rt": 2,
    "crates/marker_commands/src/files.rt": 1,
    "crates/marker_commands/src/outcome.rt": 2,
    "crates/marker_commands/src/parsing.rt": 1,
    "crates/marker_commands/src/ranges.rt": 2,
    "crates/marker_commands/src/stops.rt": 3,
    "crates/marker_commands/src/values.rt": 1,
    "crates/marker_environment/src/string_version.rt": 1,
    "crates/marker_lines/src/line.rt": 2,
    "crates/marker_lines/src/line_session.rt": 2,
    "crates/marker_lines/src/reply.rt": 1,
    "crates/marker_parts/src/comparison.rt": 1,
    "crates/markers/src/main.rt": 1,
    "crates/markers_within/src/main.rt": 1,
    "crates/pep440_specifier/src/parse.rt": 2,
    "crates/pep440_version/src/serialization.rt": 1,
    "crates/pep508_markers/src/json.rt": 1,
    "crates/pep508_markers/src/session.rt": 9,
    "crates/pep508_names/src/normal.rt": 1,
    "crates/pep508_program/src/commands.rt": 3,
    "crates/pep508_program/src/failures.rt": 2,
    "crates/pep508_program/src/walks.rt": 1,
    "crates/pep508_program/src/walks/project.rt": 2,
    "crates/pep508_requirements/src/error.rt": 1,
    "crates/pep508_requirements/src/extras.rt": 1,
    "crates/pep508_requirements/src/head.rt": 2,
    "crates/pep508_requirements/src/url.rt": 2,
    "crates/pep508_urls/src/serialization.rt": 1,
    "crates/project_files/src/file.rt": 1,
    "crates/refusal/src/lib.rt": 3,
    "crates/requirement_checks/src/specifiers.rt": 1,
    "crates/requirement_words/src/extras.rt": 1,
    "crates/requirement_words/src/head.rt": 4,
    "crates/requirement_words/src/specifiers.rt": 1,
    "crates/selection_commands/src/tables.rt": 3,
    "crates/version_ranges/src/gather.rt": 1,
}
# How often one is made up: a clone that is not equal to its source, since `Clone` has no law that
# it is; a list whose length would not fit into 64 bits, for which there is no memory either; a
# node for which a table has no room left, and the terms of a clause for which there is none.
MADE_UP = {
    "crates/marker_nodes/src/table.rt": 1,
    "crates/marker_view/src/walk.rt": 1,
    "crates/version_ranges/src/combine.rt": 1,
    "crates/version_ranges/src/equality.rt": 2,
    "crates/version_ranges/src/overlay.rt": 1,
    "crates/version_ranges/src/ranges.rt": 1,
}


def in_text(text: str) -> Iterator[int]:
    """The numbers of the lines that make a refusal, and do not plainly pass one on."""
    for number, line in enumerate(text.splitlines(), 1):
        code = line.partition("//")[0]
        if (arm := ARM.match(code)) is not None:
            if NAMED.search(arm["pattern"]) and "|" not in arm["pattern"].strip().lstrip("|"):
                continue
            code = arm["body"]
        if not code.endswith(" =>") and MADE.search(MATCHED.sub(" ", code)):
            yield number


def in_repository(repository: Repository) -> list[str]:
    """Where crates make more or fewer refusals than are listed."""
    listed = Counter(HANDED_ON) + Counter(MADE_UP)
    found: dict[str, list[int]] = {}
    for crate in repository.proved:
        for file in sorted((repository.folder(crate) / "src").rglob("*.rt")):
            numbers = list(in_text(file.read_text(encoding="utf-8")))
            if numbers:
                found[str(file.relative_to(repository.root))] = numbers
    return [
        f"{file}: {listed[file]} refusals are listed, and made at lines {found.get(file, [])}"
        for file in sorted({*found, *listed})
        if len(found.get(file, [])) != listed[file]
    ]
