"""What did not change since all wrong bodies of a crate were refused is not tried again.

A file keeps, for each crate whose edits were tried, a sum of all that their outcome depends on: the
crate and its edits, all crates below it, the toolchain's logic, and these scripts. Lines that are
comments change nothing of it, and are no part of the sum. The prover sees only the statements of a
crate below, so for its edits the bodies of functions there are no part either, nor private items,
functions and definitions that nothing names, and lemmas that nothing cites. Tests run what is
compiled, so for their edits clauses, definitions and proofs are no part.

A wrong body is refused at a goal that is false. No toolchain of the same logic proves that, so its
name is no part of a sum. Nor is how a lemma is proved: of a lemma that an answer cites, the statement
is.
"""

from __future__ import annotations

import hashlib
import re
import threading
from collections.abc import Iterable, Iterator
from dataclasses import dataclass
from functools import cache
from pathlib import Path

from checks import edits
from checks.caught import PROGRAM, STORED_RUN
from checks.edits import Edit
from checks.kit import Repository, version

FILE = Path(".ci") / "record"
# What does not try edits.
OTHERS = ["columns", "counts", "exports", "house", "layers", "listed", "measured", "names"]
OTHERS += ["header", "links", "promised", "promises", "quoted", "refusals_by_hand", "self_test"]
OTHERS += ["starved", "stored", "words"]
HEAD = """\
# The crates whose wrong bodies were all refused, each with a sum of what that depends on.
# Written by `.ci/wrong_bodies --record`, after a pass, and by nothing else.
"""

WRITING = threading.Lock()

# How a line begins that is a comment, by the end of the file's name.
COMMENTS = {".rt": "//", ".txt": "//", ".antt": "--"}


def code_of(file: Path) -> bytes:
    """A file without the lines that are comments, and without empty ones."""
    text = file.read_bytes()
    begin = COMMENTS.get(file.suffix)
    if begin is None:
        return text
    lines = [line for line in text.splitlines() if line.strip()]
    return b"\n".join(line for line in lines if not line.lstrip().startswith(begin.encode()))


# How a line begins that is for the prover alone, and what stands between quotes in it.
GHOST = re.compile(r" *(?:(?:pub )?(?:ensures|requires|ghost)\b|#\[tactic\b)")
QUOTED = re.compile(r'"(?:[^"\\]|\\.)*"')


def compiled(text: str) -> str:
    """A laid-out text without what is for the prover alone. A clause goes on in the lines that are
    set further in; one whose braces are not closed there stays."""
    lines = text.splitlines()
    kept: list[str] = []
    at = 0
    while at < len(lines):
        end = at + 1
        if GHOST.match(lines[at]):
            inside = f"{set_in(lines[at])} "
            while end < len(lines) and lines[end].startswith(inside):
                end += 1
            clause = QUOTED.sub("", "".join(lines[at:end]))
            if clause.count("{") == clause.count("}"):
                at = end
                continue
        kept.append(lines[at])
        at += 1
    return "\n".join(kept)


def set_in(line: str) -> str:
    """The spaces before a line's text."""
    return line[: len(line) - len(line.lstrip(" "))]


def is_compiled(file: Path) -> bool:
    """Whether a file is compiled, and not for the prover alone."""
    return file.suffix != ".antt"


def run_of(file: Path) -> bytes:
    """A file without what changes nothing of a run: comments, and what is for the prover alone."""
    code = code_of(file)
    return compiled(code.decode()).encode() if file.suffix in (".rt", ".txt") else code


# How a function begins whose body no other crate sees: that of a `const fn` may be computed there.
FUNCTION = re.compile(r"( *)(pub(?:\(crate\))? )?(?:unsafe )?fn (\w+)")
# How a struct begins, and a field of it that no other crate can name.
STRUCT = re.compile(r"(?:pub )?struct ")
FIELD = re.compile(r" {4}(?:pub\(crate\) )?\w+: [^{}]*,")
# A type or a constant that no other crate can name, the head of an `impl`, and an attribute.
OWN_TYPE = re.compile(r"(?:pub\(crate\) )?(?:struct|enum) (\w+)")
OWN_CONSTANT = re.compile(r"(?:pub\(crate\) )?(?:const|static) \w+:")
IMPL = re.compile(r"impl(?:<.*?>)? (?:.* for )?(?:\w+::)*(\w+)\b")
OF_ITEM = re.compile(r"#\[.*\]$")
# An item of a file by its name, or what something is implemented for, and of which trait.
ITEM = re.compile(r"(?:pub )?(?:(?:const|unsafe) )*(?:struct|enum|union|trait|type|const|static|fn) (\w+)")
IMPLEMENTED = re.compile(r"(?:unsafe )?impl\b(.*)")
# How a block begins whose functions are seen though no `pub` stands before them.
TRAIT = re.compile(r"(?:pub )?trait |impl\b.* for ")
CITED = re.compile(r"\b(\w+)(?:\.|::)proofs(?:\.|::)(\w+)")
IMPORT = re.compile(r"^ *((?:ghost |pub )?use) ([^;]+);\n?", re.MULTILINE)
# A line that names a file of the crate: what is in it counts, and not the file's name.
FILE_OF_CRATE = re.compile(r"^(?:pub(?:\(crate\))? )?mod \w+;?\n", re.MULTILINE)
# What is said of a function to the compiler, or to the prover of its own crate.
ATTRIBUTE = re.compile(r"^ *#\[(?:inline|tactic|must_use)\b.*\]\n", re.MULTILINE)
WORD = re.compile(r"[\w'-]+")


@dataclass(frozen=True)
class Statements:
    """What other crates may see of a laid-out file: its imports, by the name of each, the heads of
    public functions, or definitions, by their names, and all else but bodies, private functions,
    fields and constants, and types of the crate alone."""

    imports: tuple[tuple[str, str], ...]
    functions: tuple[tuple[str, str], ...]
    others: str
    # The names without which none of this is used, or none where that is not known.
    items: frozenset[str] | None = None

    def seen(self, names: set[str]) -> str:
        """The part that matters to who uses these names alone. Words of std mean the same in each
        crate, so their imports do not."""
        functions = "\n".join(head for name, head in self.functions if name in names)
        text = f"{self.others}\n{functions}"
        words = words_of(text)
        imports = [
            f"{path} {name}"
            for path, name in self.imports
            if " Rattle.std." not in path
            and is_named(name, names if path.startswith("pub ") else words, text)
        ]
        return "\n".join([*sorted(imports), text])


@cache
def words_of(text: str) -> frozenset[str]:
    return frozenset(WORD.findall(text))


def is_named(name: str, words: set[str], text: str) -> bool:
    """Whether a text has a name, or each sign of an operator."""
    if WORD.fullmatch(name):
        return name in words
    return all(sign in text for sign in name.split("◌"))


def imports_of(text: str) -> Iterator[tuple[str, str]]:
    """The imports of a file: what stands before each name, and the name by which it is used."""
    for kind, path in IMPORT.findall(text):
        front, brace, names = path.partition("{")
        if not brace:
            front, _, names = path.rpartition("::")
        for name in re.split(r",\s*", names.rstrip("}").strip().rstrip(",")):
            given, _, own = name.strip().partition(" as ")
            yield f"{kind} {front}{given}", own or given


def without_own(text: str) -> str:
    """A laid-out file without the constants and types of its crate alone, and what is implemented
    for such types."""
    lines = text.splitlines()
    own = {found[1] for line in lines if (found := OWN_TYPE.match(line))}
    kept: list[str] = []
    is_left_out = False
    for line in lines:
        if is_left_out:
            is_left_out = line[:1] not in "}])"
            continue
        implemented = IMPL.match(line)
        if not (
            OWN_TYPE.match(line)
            or OWN_CONSTANT.match(line)
            or (implemented and implemented[1] in own)
        ):
            kept.append(line)
            continue
        while kept and OF_ITEM.match(kept[-1]):
            kept.pop()
        is_left_out = not line.endswith((";", "}"))
    return "\n".join(kept)


def items_of(text: str) -> frozenset[str]:
    """The names by which another crate means something of a file: those of its items and of what
    it hands on, and of an `impl` all that it is for."""
    names = {name for path, name in imports_of(text) if path.startswith("pub ")}
    for line in text.splitlines():
        if found := ITEM.match(line):
            names.add(found[1])
        elif found := IMPLEMENTED.match(line):
            names |= words_of(found[1])
    return frozenset(names)


def statements(text: str) -> Statements:
    """What other crates may see of a laid-out file without comments."""
    text = without_own(text)
    others: list[str] = []
    functions: list[tuple[str, list[str]]] = []
    # The line that began the last block, how far the function is set in whose head is not at its
    # end, where its lines go, and the line that ends a body.
    block, head, end = "", None, None
    kept = others
    for line in FILE_OF_CRATE.sub("", ATTRIBUTE.sub("", IMPORT.sub("", text))).splitlines():
        if end is not None:
            end = None if line == end else end
            continue
        if line[:1].strip():
            block = line
        if head is None and STRUCT.match(block) and FIELD.fullmatch(line):
            continue
        if head is None and (found := FUNCTION.match(line)):
            head, word, name = found.groups()
            kept = others if TRAIT.match(block) else []
            if word == "pub " and kept is not others:
                functions.append((name, kept))
        kept.append(line)
        if head is None:
            continue
        is_set_in = line.startswith(head + " ")
        if line.endswith(";") or (line.endswith("{}") and not is_set_in):
            head, kept = None, others
        elif line.endswith("{") and not is_set_in:
            head, end, kept = None, head + "}", others
    heads = ((name, "\n".join(lines)) for name, lines in functions)
    return Statements(tuple(imports_of(text)), tuple(heads), "\n".join(others), items_of(text))


# How a definition begins that is no equation, and its name; the name of one inside a module.
DEFINITION = re.compile(r"(?:(?:abbrev|unfoldable|pub|record|data) )*([^\s:({=]+)(?: [({].*)? :")
MODIFIED = re.compile(r"(?:(?:abbrev|unfoldable|pub|record|data) )+([^\s:({=]+)")
# How a definition inside a module begins: set in as its first line is.
INSIDE = re.compile(rf"( +)(?:{DEFINITION.pattern}|{MODIFIED.pattern})")
DEFINITION_IMPORT = re.compile(r"((?:pub )?use) (\S+?)(?:\{([^}]*)\}|( as \S+)?)$")


def imports_of_definitions(line: str) -> list[tuple[str, str]] | None:
    """The imports of a line of specs, as `imports_of` has them, or none where it is no import."""
    found = DEFINITION_IMPORT.match(line)
    if found is None:
        return None
    kind, front, names, given = found.groups()
    if names is None:
        own = (given or front.rpartition(".")[2]).removeprefix(" as ")
        return [(f"{kind} {front}", own)]
    parts = (name.strip().partition(" as ") for name in names.split(",") if name.strip())
    return [(f"{kind} {front}{name}", own or name) for name, _, own in parts]


def definitions(text: str) -> Statements:
    """What other crates may see of a file of specs without comments: its imports, and each definition
    by its name, behind the head of its module. What cannot be told apart is seen by all."""
    imports: list[tuple[str, str]] = []
    others: list[str] = []
    blocks: list[tuple[str, list[str]]] = []
    # The lines that begin the module, and how far its definitions are set in.
    head: list[str] = []
    inner: str | None = None
    for line in FILE_OF_CRATE.sub("", f"{text.rstrip()}\n").splitlines():
        begins = DEFINITION.match(line) or MODIFIED.match(line)
        inside = INSIDE.match(line) if head else None
        if (found := imports_of_definitions(line)) is not None:
            imports += found
        elif line.startswith("module "):
            head, inner = [line], None
        elif inside is not None and inner in (None, inside[1]):
            inner, name = inside[1], inside[2] or inside[3]
            if blocks and name == blocks[-1][0]:
                blocks[-1][1].append(line)
            else:
                blocks.append((name, [*head, line]))
        elif head and inner is None:
            head.append(line)
        elif begins and not (blocks and begins[1] == blocks[-1][0]):
            head = []
            blocks.append((begins[1], [line]))
        elif blocks:
            blocks[-1][1].append(line)
        else:
            others.append(line)
    kept = [(name, "\n".join(lines)) for name, lines in blocks]
    others += [block for name, block in kept if not WORD.fullmatch(name)]
    kept = [(name, block) for name, block in kept if WORD.fullmatch(name)]
    return Statements(tuple(imports), tuple(kept), "\n".join(others))


@dataclass(frozen=True)
class Lemma:
    """A declaration of a file of lemmas: its name, the heads of its modules, its statement, and its
    proof, which is what it means where it is no lemma."""

    name: str
    modules: str
    statement: str
    proof: str

    def is_fact(self) -> bool:
        """Whether it states a fact, as its last part tells, and so means nothing: it has a sign of
        facts, or is a word with arguments that is no type of values."""
        last = self.statement.rpartition("→")[2]
        words = PREDICATE.match(last)
        return bool(FACT.search(last) or (words and words[1] not in VALUES))


@dataclass(frozen=True)
class Lemmas:
    """A file of lemmas: its imports, by the name of each, its lemmas, and all else."""

    imports: tuple[tuple[str, str], ...]
    lemmas: tuple[Lemma, ...]
    others: str


# How a lemma begins, or a definition that does not unfold by itself.
LEMMA = re.compile(r" *(?:pub )?([\w'-]+)(?: [({].*)? :(?: |$)")
# What a fact has, and the type of a value has not.
FACT = re.compile("[≡≢≤<⊎⊥↔]")
PREDICATE = re.compile(r"\s*\(?([A-Z][\w']*) \S")
# The types of values that have arguments.
VALUES = {"Bor", "Bound", "Cut", "List", "Option", "Point", "Result", "Type", "Vec"}
# How a line begins that ends what stands in brackets.
CLOSING = (")", "}", "]")
# The files of proofs that answer the goals of functions: all others there are files of lemmas.
ANSWERS = ("Answers.antt", "Invariants.antt", "Proof.antt")


def has_lemmas(file: Path) -> bool:
    return file.suffix == ".antt" and "proofs" in file.parts and file.name not in ANSWERS


def lemmas(text: str) -> Lemmas:
    """The lemmas of a laid-out file of proofs without comments."""
    imports: list[tuple[str, str]] = []
    others: list[str] = []
    found: list[tuple[str, list[str], list[str], list[str]]] = []
    modules: list[list[str]] = []
    # The margin of the last line that began something, its name where that is a lemma, and where
    # the lines go that are set further in.
    margin, name, goes_on = "", None, others
    for line in FILE_OF_CRATE.sub("", f"{text.rstrip()}\n").splitlines():
        its = set_in(line)
        is_at = its == margin
        is_inner = len(its) > len(margin) or (is_at and line.lstrip().startswith(CLOSING))
        if goes_on is not None and is_inner:
            goes_on.append(line)
        elif name and is_at and re.match(rf" *(?:unfolding|{name})(?:[ =]|$)", line):
            goes_on = found[-1][3]
            goes_on.append(line)
        else:
            margin, name, goes_on = its, None, others
            modules = [head for head in modules if len(set_in(head[0])) < len(its)]
            heads = [part for head in modules for part in head]
            if (its_imports := imports_of_definitions(line.strip())) is not None:
                imports += its_imports
            elif line.strip().startswith("module "):
                modules.append([line])
                goes_on = modules[-1]
            elif begun := LEMMA.match(line):
                name = begun[1]
                found.append((name, heads, [line], []))
                goes_on = found[-1][2]
            else:
                others += [*heads, line]
        if modules and goes_on is modules[-1] and line.endswith(" where"):
            goes_on = None
    parts = (Lemma(it, *("\n".join(lines) for lines in its)) for it, *its in found)
    return Lemmas(tuple(imports), tuple(parts), "\n".join(others))


@cache
def lemmas_of(file: Path) -> Lemmas:
    return lemmas(code_of(file).decode())


def told(files: dict[Path, Lemmas], cited: set[str], meant: set[str]) -> dict[Path, str]:
    """What files of lemmas tell to who cites these names: the statements of their lemmas, and of
    those that state no fact also what they mean, if a statement or one of the second names them."""
    cited = cited.union(*(words_of(it.others) for it in files.values()))
    meant = meant.union(*(words_of(it.others) for it in files.values()))
    all_of = [(file, lemma) for file, it in files.items() for lemma in it.lemmas]
    stated: set[tuple[Path, Lemma]] = set()
    opened: set[tuple[Path, Lemma]] = set()
    while True:
        new = {it for it in all_of if it[1].name in cited} - stated
        open_now = {it for it in stated if it[1].name in meant and not it[1].is_fact()} - opened
        if not new and not open_now:
            break
        words = set().union(*(words_of(it.statement) - {it.name} for _, it in new))
        words = words.union(*(words_of(it.modules) for _, it in new))
        words = words.union(*(words_of(it.proof) for _, it in open_now))
        stated, opened, cited, meant = stated | new, opened | open_now, cited | words, meant | words
    texts = {}
    for file, it in files.items():
        parts = [it.others]
        for lemma in it.lemmas:
            parts += [lemma.modules, lemma.statement] if (file, lemma) in stated else []
            parts += [lemma.proof] if (file, lemma) in opened else []
        texts[file] = Statements(it.imports, (), "\n".join(filter(None, parts))).seen(set())
    return texts


@cache
def statements_of(file: Path) -> Statements:
    """What other crates may see of a file. Files with macros are seen whole."""
    text = code_of(file).decode()
    if file.suffix == ".antt" and "specs" in file.parts:
        return definitions(text)
    if file.suffix != ".rt" or "macro_rules!" in text:
        return Statements((), (), text)
    return statements(text)


def used(files: list[Statements], names: set[str]) -> set[str]:
    """These names, those of all that is no function in files, and those of the functions of files
    that bear such a name."""
    found = names.union(*(words_of(it.others) for it in files))
    left = [function for it in files for function in it.functions]
    while named := [it for it in left if it[0] in found]:
        left = [it for it in left if it[0] not in found]
        found = found.union(*(words_of(head) for _, head in named))
    return found


def can_mean(file: Path, seen: Statements, names: set[str]) -> bool:
    """Whether these names can mean something of a file of a crate below: of code, the crate and an
    item of the file are among them, and of specs, the file."""
    crate = file.parts[len(file.parts) - file.parts[::-1].index("crates")]
    if file.suffix == ".rt":
        return seen.items is None or (crate in names and not seen.items.isdisjoint(names))
    return file.parent.name != "specs" or file.stem == "Lib" or file.stem in names


def reached(files: dict[Path, Statements], code: set[str], names: set[str]) -> dict[Path, str]:
    """What is seen of files below by who uses these names, in code the first ones: of each file of
    which they can mean something, or the names that such files have."""
    known, those = names, -1
    parts: dict[Path, str] = {}
    while len(parts) > those:
        those = len(parts)
        now = {file: it for file, it in files.items() if can_mean(file, it, known)}
        # (no definition or proof names a function of another crate: only code does)
        programs = {file: it for file, it in now.items() if file.suffix == ".rt"}
        others = {file: it for file, it in now.items() if file.suffix != ".rt"}
        called = used(list(programs.values()), code)
        parts = {file: it.seen(called) for file, it in programs.items()}
        named = used(list(others.values()), names.union(*map(words_of, parts.values())))
        parts |= {file: it.seen(named) for file, it in others.items()}
        known = called.union(named, *map(words_of, parts.values()))
    return {file: parts[file] for file in files if parts.get(file, "").strip()}


def cited(texts: Iterable[str]) -> set[tuple[str, str]]:
    """The files of lemmas that texts cite: a crate, and the name of one of its files."""
    return {found for text in texts for found in CITED.findall(text)}


class Record:
    """The sums that stand in the file, and those of the repository as it is."""

    def __init__(self, repository: Repository) -> None:
        self.repository = repository
        self.file = repository.root / FILE
        self.kept: dict[str, str] = {}
        if self.file.is_file():
            lines = self.file.read_text().splitlines()
            self.kept = dict(line.split() for line in lines if line and not line.startswith("#"))
        checks = sorted((repository.root / ".ci" / "checks").glob("*.py"))
        scripts = [script for script in checks if script.stem not in OTHERS]
        scripts.append(repository.root / ".ci" / "wrong_bodies")
        logic = version().partition(" ")[2]
        self.common = f"{logic}\n{repository.sum_of(scripts)}"

    def seen(self, crate: str, own: list[Path]) -> list[Path]:
        """The files of the crates below of which the prover sees something when it checks these
        files: none of proofs but what is cited."""
        folders = [self.repository.folder(name) for name in self.repository.below(crate)]
        files = [file for it in folders for file in self.repository.files(it.name)]
        proofs = [f"{it / 'proofs'}/" for it in folders]
        seen = [file for file in files if not str(file).startswith(tuple(proofs))]
        waiting = [*own, *(file for file in seen if file.suffix == ".antt")]
        while waiting:
            names = cited(file.read_text() for file in waiting)
            found = {it / "proofs" / f"{name}.antt" for it in folders for of, name in names if of == it.name}
            waiting = [file for file in files if file in found and file not in seen]
            seen += waiting
        return sorted(seen)

    def told(self, files: list[Path], own: list[Path]) -> dict[Path, str]:
        """What files of lemmas tell, of a crate that has these files and of those below."""
        answers = {file: words_of(file.read_text()) for file in own if not has_lemmas(file)}
        meant = (words for file, words in answers.items() if file.name == "Invariants.antt")
        laws = {file: lemmas_of(file) for file in files if has_lemmas(file)}
        return told(laws, set().union(*answers.values()), set().union(*meant))

    def sum_below(self, files: list[Path], own: list[Path], tells: dict[Path, str]) -> str:
        """The sum of what the prover sees of the crates below when it checks a crate's own files, of
        which those of lemmas tell this."""
        texts = {
            file: Statements((), (), tells[file]) if file in tells else statements_of(file)
            for file in files
        }
        words = {file: words_of(tells.get(file) or file.read_text()) for file in own}
        code = set().union(*(words[it] for it in own if it.suffix != ".antt"))
        parts = reached(texts, code, code.union(*words.values()))
        return self.repository.sum_of(parts, lambda file: parts[file].encode())

    def sum_of(self, task: str, tried: list[Edit]) -> str:
        """The sum of what the outcome of the edits of a task depends on: for the prover, of the
        statements of the crates below, and for tests, of all that they run."""
        kind, _, crate = task.partition("-")
        root = self.repository
        names = dict.fromkeys([*root.below(crate), crate, *(edit.crate for edit in tried)])
        # (which crates those below use is told by what is seen of them)
        uses = f"{crate}: {' '.join(root.uses[crate])}"
        total = self.sum_of_proofs(crate, tried) if kind == "refused" else self.sum_run(names, tried)
        return hashlib.sha256(f"{self.common}\n{uses}\n{total}".encode()).hexdigest()

    def sum_of_proofs(self, crate: str, tried: list[Edit]) -> str:
        """The sum of what the prover sees that checks a crate with these edits."""
        files = [*self.repository.files(crate), *(edit.path for edit in tried)]
        below = self.seen(crate, files)
        tells = self.told([*files, *below], files)
        parts = {file: tells[file].encode() if file in tells else code_of(file) for file in files}
        own = [file for file in files if parts[file].strip()]
        own_sum = self.repository.sum_of(own, parts.__getitem__)
        return f"{self.sum_below(below, files, tells)}\n{own_sum}"

    def sum_run(self, crates: Iterable[str], tried: list[Edit]) -> str:
        """The sum of what is compiled of crates with these edits, and run."""
        root = self.repository
        files = [file for name in crates for file in root.files(name) if is_compiled(file)]
        files += [edit.path for edit in tried]
        if any(edit.fields.get("test") == STORED_RUN for edit in tried):
            files += [root.folder(PROGRAM) / name for name in ("stdin", "stdout")]
        return root.sum_of(files, run_of)

    def stands(self, task: str, total: str) -> bool:
        return self.kept.get(task) == total

    def keep(self, task: str, total: str, tasks: set[str]) -> None:
        """Writes the sum of a task that has passed, beside those of other tasks that there still
        are. So what passed is kept also where a later task fails, or where the run is ended."""
        with WRITING:
            self.kept = {it: sum for it, sum in self.kept.items() if it in tasks} | {task: total}
            lines = [f"{it} {sum}\n" for it, sum in sorted(self.kept.items())]
            self.file.write_text(HEAD + "".join(lines))
