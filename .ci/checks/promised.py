"""The clauses that the pages of proofs name, which are in contracts, and those that they must name.

A row's cell of clauses, or of tests, has parts between semicolons. A part `call, other: label,
label` names calls and the labels of clauses in them: each label has to be that of an `ensures` of
one of these calls, or, if a type or a trait is named in place of a call, of any call, or the name
of one. Each other name in code has to be somewhere in the sources or the specifications.

Each clause of a public call of the crates of `USERS` is named in the section of its crate: by a
part with the call and the label, by a part with the call alone if that has no other clause, or by a
part `each call: label`. A name that ends in two dots names each call that begins so.
"""

from __future__ import annotations

import re
from collections import defaultdict
from dataclasses import dataclass
from pathlib import Path

from checks.kit import Repository

DOCUMENTS = (Path("docs/PROOFS.md"), Path("docs/PROGRAM_PROOFS.md"))
# The crates whose calls users name: those that `pep508_rs` hands on, and those of the programs.
USERS = (
    *("refusal", "version_ranges", "pep440_version", "pep440_specifier", "pep440_rs"),
    *("pep508_names", "pep508_errors", "pep508_urls"),
    *("marker_words", "marker_environment", "marker_parts"),
    *("marker_graph", "marker_view"),
    *("pep508_markers", "pep508_requirements"),
    *("requirement_lines", "requirement_options", "requirement_findings", "requirement_checks"),
    *("pep508_program", "line_server", "marker_lines"),
)
HEADER = re.compile(r"^\| Promise \| (?:Clause|Test) \|")
SECTION = re.compile(r"^#+ .*\((.*)\)$")
CELL = re.compile(r"(?<!\\)\|")
CODE = re.compile(r"`([^`]+)`")
NAME = re.compile(r"\w+")
PARENTHESES = re.compile(r"\([^()]*\)")
FUNCTION = re.compile(r"^\s*(pub )?(?:pub\([a-z]+\) )?(?:final )?(?:const )?(?:unsafe )?fn (\w+)")
OWNER = re.compile(r"^(?:pub )?(impl|trait)\b(.*?)\{?$")
LABEL = re.compile(r"^\s*ensures\*? (?:(\w+) )?\{")
TEXT = re.compile(r"[^\W\d]\w*")
EACH_CALL = "each call"


@dataclass(frozen=True)
class Clause:
    """A clause of a function: what the function belongs to (a module, a type, a trait), its name,
    the label of the clause, and whether users can call it, and whether it has no other clause."""

    owners: frozenset[str]
    function: str
    label: str
    is_public: bool
    is_alone: bool = False

    def is_of(self, call: str) -> bool:
        *owner, function = NAME.findall(call)
        begins = call.endswith("..") and self.function.startswith(function)
        return (begins or function == self.function) and (not owner or owner[-1] in self.owners)

    def __str__(self) -> str:
        call = "::".join([*sorted(self.owners)[:1], self.function])
        return f"{call}: {self.label or 'its only clause'}"


def owners_of(head: str) -> frozenset[str]:
    """The type, and the trait if there is one, of the head of an `impl` or of a trait."""
    head, before = head.replace("->", ""), ""
    while head != before:
        head, before = re.sub(r"<[^<>]*>", "", head), head
    return frozenset(part.split(":")[0].strip(" &") for part in head.split(" for "))


def clauses_of(text: str, module: str) -> list[Clause]:
    """The clauses of the functions of a file."""
    found: list[Clause] = []
    owners, name, function, is_public, inside = frozenset([module]), "", 0, False, False
    begun: dict[int, int] = defaultdict(int)
    for line in text.splitlines():
        if (owner := OWNER.match(line)) and not line.endswith("{}"):
            owners = owners_of(owner[2])
            is_open = owner[1] == "trait" or " for " in owner[2]
        elif line == "}":
            owners, is_open = frozenset([module]), False
        elif called := FUNCTION.match(line):
            name, inside, function = called[2], True, function + 1
            is_public = bool(called[1]) or (owners != {module} and is_open)
        if inside and (clause := LABEL.match(line)):
            found.append(Clause(owners, name, clause[1] or "", is_public, bool(function)))
            begun[len(found) - 1] = function
        elif line.strip() in ("{", "{}") or line.endswith((";", " {", "{}")):
            inside = False
    each = list(begun.values())
    return [
        Clause(it.owners, it.function, it.label, it.is_public, each.count(each[at]) == 1)
        for at, it in enumerate(found)
    ]


def labels_of_calls(clauses: list[Clause]) -> dict[str, set[str]]:
    """The labels of the clauses of each function, by the function's name."""
    found: dict[str, set[str]] = defaultdict(set)
    for clause in clauses:
        found[clause.function].add(clause.label)
    return found


def cells(text: str) -> list[tuple[int, str, list[str]]]:
    """The cells of clauses, each with the number of its line and the crates of its section."""
    found, inside, crates = [], False, []
    for number, line in enumerate(text.splitlines(), 1):
        if line.startswith("#"):
            section = SECTION.match(line)
            crates = CODE.findall(section[1]) if section else []
        if HEADER.match(line):
            inside = True
        elif inside and line.startswith("|"):
            if not line.startswith("|---"):
                found.append((number, CELL.split(line)[2], crates))
        else:
            inside = False
    return found


def parts(cell: str) -> list[tuple[str, list[str], list[str]]]:
    """The parts of a cell: the words before the labels, the calls in them, and the labels."""
    found = []
    for part in PARENTHESES.sub("", cell).split(";"):
        heads, _, labels = part.partition(":" if EACH_CALL in part else "`:")
        calls = [code for code in CODE.findall(heads + "`") if NAME.search(code)]
        named = [it for it in CODE.findall(labels) if NAME.fullmatch(it)]
        found.append((heads.strip(), calls, named))
    return found


def names(cell: str, clause: Clause) -> bool:
    """Whether a cell names a clause."""
    return any(
        (clause.label in labels if labels else clause.is_alone)
        and (heads == EACH_CALL or any(map(clause.is_of, calls)))
        for heads, calls, labels in parts(cell)
    )


def missing(cell: str, labels: dict[str, set[str]], words: set[str]) -> list[str]:
    """What a cell of clauses names that is not there."""
    wrong = []
    for heads, calls, named in parts(cell):
        there: set[str] = set()
        for call in calls:
            last = NAME.findall(call)[-1]
            if call.endswith(".."):
                found = {name for name in labels if name.startswith(last)}
                there = there.union(*(labels[name] for name in found))
                wrong += [] if found else [f"no call {call}"]
            there |= labels.get(last, set())
            if last[0].isupper():
                there = there.union(labels, *labels.values())
        if heads == EACH_CALL:
            there = there.union(*labels.values())
        of = ", ".join(calls) or heads
        wrong += [f"no clause {label} of {of}" for label in named if label not in there]
    for code in CODE.findall(cell):
        if not code.endswith(".."):
            wrong += [f"no name {word}" for word in TEXT.findall(code) if word not in words]
    return wrong


def unnamed(document: str, crate: str, clauses: list[Clause]) -> list[str]:
    """The clauses of the public calls of a crate that no row of its section names."""
    own = [cell for _, cell, crates in cells(document) if crate in crates]
    return [
        f"no row names {clause} of {crate}"
        for clause in clauses
        if clause.is_public and not any(names(cell, clause) for cell in own)
    ]


def clauses_of_crate(root: Path, crate: str) -> list[Clause]:
    files = sorted((root / "crates" / crate / "src").rglob("*.rt"))
    return [it for file in files for it in clauses_of(file.read_text(encoding="utf-8"), file.stem)]


def in_repository(repository: Repository) -> list[str]:
    """Where a page names a clause or a call that is not there, and what the pages do not name."""
    root = repository.root
    pages = {it: (root / it).read_text(encoding="utf-8") for it in DOCUMENTS}
    sources = [path.read_text(encoding="utf-8") for path in root.glob("crates/*/src/**/*.rt")]
    others = [*root.glob("crates/*/specs/*.antt"), *root.glob("tests/*/*.rt.txt")]
    texts = sources + [path.read_text(encoding="utf-8") for path in others]
    words = {word for text in texts for word in TEXT.findall(text)}
    words |= {path.name.split(".")[0] for path in others} | set(repository.proved)
    words |= set(repository.tried) | {"ci", "tests", *(it.name for it in (root / ".ci").iterdir())}
    labels = labels_of_calls([it for text in sources for it in clauses_of(text, "")])
    wrong = [
        f"{page}:{number}: {wrong}"
        for page, text in pages.items()
        for number, cell, _ in cells(text)
        for wrong in missing(cell, labels, words)
    ]
    document = "\n".join(pages.values())
    for crate in USERS:
        wrong += unnamed(document, crate, clauses_of_crate(root, crate))
    return wrong
