"""The functions of a crate, and which may call which, told from names in the text alone.

A call is taken to lead to every function of the crate that has the name, but for those that its
form rules out: what follows a point is a method, a name alone is none, and a name behind a type is
of that type. So what is said here is an upper bound: where one function reaches another, it is
said, and sometimes where it does not.
"""

from __future__ import annotations

import re
from dataclasses import dataclass
from pathlib import Path

# Comments, texts and characters, in which no brace and no name counts.
SKIPPED = re.compile(r'//[^\n]*|"(?:\\.|[^"\\])*"|\'(?:\\[^\n\']+|[^\'\\\n])\'')
# The length of an array, in its type or its value, whose semicolon ends nothing.
LENGTH = re.compile(r";(?=[^\[\]{};]*\])")
ITEM = re.compile(r"\b(?:fn\s+(?P<fn>\w+)|impl\b(?P<impl>[^{;]*)\{|trait\s+(?P<trait>\w+)[^{;]*\{)")
CLAUSE = re.compile(r"\b(?:requires|ensures|ghost)\b")
CYCLE = re.compile(r"#\[cycle\((\w+)\)\]")
# A name, what stands before it, and whether it is called or only named.
USE = re.compile(
    r"(?P<point>\.)?(?:\b(?P<of>\w+)(?:::<[^<>]*>)?::)?"
    r"\b(?P<name>[a-z_]\w*)\b(?P<call>(?:::<[^<>()]*>)?\()?"
)
# A name that a function binds: it is a variable, where it is not called.
BOUND = re.compile(
    r"\b(?:let|mut|for)\s+([a-z_]\w*)|\b([a-z_]\w*)\s*:[^:]|[(,|]\s*([a-z_]\w*)\s*[),|]"
)

# What code calls without a name: an operator, a loop, a question mark, a macro that prints.
UNNAMED = {
    "eq": r"[=!]=",
    "partial_cmp": r"\s[<>]=?\s",
    "next": r"\bfor\b",
    "into_iter": r"\bfor\b",
    "from": r"\?",
    "fmt": r"\bwrite!|\bformat!|\bto_string\b",
}


@dataclass(frozen=True)
class Function:
    """A function with a body: its path below the crate as the prover names it, where its text
    lies in a file, and the cycle of calls that it is of."""

    path: str
    file: str
    start: int
    end: int
    cycle: str

    @property
    def name(self) -> str:
        return self.path.rpartition("::")[2]

    @property
    def owner(self) -> str:
        """The type of a method, and behind it the trait if there is one."""
        above = self.path.split("::")[-2:-1]
        return above[0] if above and above[0][:1].isupper() else ""


def is_named(path: str, name: str) -> bool:
    """Whether the name is the path of a function, or the end of it. Type arguments, as in
    `Cuts+String+V::at_str`, are passed over."""
    path, name = (re.sub(r"\+[^:]*", "", text) for text in (path, name))
    return path == name or path.endswith(f"::{name}")


def blank(text: str) -> str:
    """The text with its comments, texts and characters replaced by as many spaces, and with no
    semicolon before the length of an array."""
    return LENGTH.sub(",", SKIPPED.sub(lambda found: re.sub(r"[^\n]", " ", found[0]), text))


def closing(text: str, start: int) -> int:
    """The place behind the brace that closes the one at `start`."""
    depth = 0
    for place in range(start, len(text)):
        if text[place] == "{":
            depth += 1
        elif text[place] == "}":
            depth -= 1
            if depth == 0:
                return place + 1
    return len(text)


def body(text: str, start: int) -> int | None:
    """Where the body begins of the function whose name ends at `start`, if it has one."""
    place = start
    while True:
        brace, end = text.find("{", place), text.find(";", place)
        if brace < 0 or 0 <= end < brace:
            return None
        if not CLAUSE.search(text, place, brace):
            return brace
        place = closing(text, brace)


def parts(text: str) -> list[str]:
    """What stands between the commas of a text that are in no bracket."""
    found, deep = [""], 0
    for sign in text:
        deep += (sign in "<([") - (sign in ">)]")
        if sign == "," and deep == 0:
            found.append("")
        else:
            found[-1] += sign
    return [part.strip() for part in found if part.strip()]


KIND = re.compile(r"(?:\w+::)*(\w+)(?:<(.*)>)?")


def name_of(kind: str, parameters: set[str]) -> str:
    """The prover's name of a type in the name of an impl of a trait: that of a list of pairs of
    texts is `VecTuple2StringString`. Parameters of the impl and lifetimes are left out."""
    if kind.startswith("&"):
        return "Ref" + name_of(re.sub(r"&(?:'\w+ )?(?:mut )?", "", kind, count=1), parameters)
    if kind.startswith("("):
        inner = parts(kind[1:-1])
        return f"Tuple{len(inner)}" + "".join(name_of(part, parameters) for part in inner)
    found = KIND.fullmatch(kind)
    if found is None or found[1] in parameters:
        return ""
    return found[1] + "".join(name_of(part, parameters) for part in parts(found[2] or ""))


def owner(header: str) -> str:
    """The prover's name of an impl, of which the text between `impl` and its brace is given: the
    type, and behind it the trait if there is one."""
    header = " ".join(header.replace("->", "").partition(" where ")[0].split())
    parameters: set[str] = set()
    if header.startswith("<"):
        deep = [header[:end].count("<") - header[:end].count(">") for end in range(len(header) + 1)]
        end = deep.index(0, 1)
        given = parts(header[1 : end - 1])
        parameters = {part.partition(":")[0].removeprefix("const ").strip() for part in given}
        header = header[end:].strip()
    trait, of, kind = header.rpartition(" for ")
    if of:
        return name_of(kind, parameters) + name_of(trait, parameters)
    while (bare := re.sub(r"<[^<>]*>", "", kind)) != kind:
        kind = bare
    return kind.strip().rpartition("::")[2]


def functions_of_file(crate: Path, file: Path) -> list[Function]:
    """The functions of a file, those that stand inside another one left out."""
    text = blank(file.read_text(encoding="utf-8"))
    inside = file.relative_to(crate / "src").with_suffix("")
    module = [] if str(inside) in ("lib", "main") else list(inside.parts)
    found: list[Function] = []
    place, type_name, type_end = 0, "", 0
    while (item := ITEM.search(text, place)) is not None:
        place = item.end()
        if item["fn"] is None:
            type_name = item["trait"] or owner(item["impl"])
            type_end = closing(text, item.end() - 1)
            continue
        if (brace := body(text, place)) is None:
            continue
        place = closing(text, brace)
        path = [*module, *[type_name] * (item.start() < type_end), item["fn"]]
        above = max(text.rfind("\n\n", 0, item.start()), text.rfind("}", 0, item.start()), 0)
        cycle = CYCLE.search(text, above, item.start())
        name = str(file.relative_to(crate))
        named = cycle[1] if cycle else ""
        found.append(Function("::".join(path), name, item.start(), place, named))
    return found


def may_lead(use: re.Match[str], bound: set[str], caller: Function, called: Function) -> bool:
    """Whether a name in the text of the caller may be a call of a function that has the name."""
    kind = use["of"] or ""
    if kind == "Self":
        owners = sorted((called.owner, caller.owner))
        return bool(called.owner) and owners[1].startswith(owners[0])
    if kind[:1].isupper():
        return called.owner.startswith(kind)
    if use["point"]:
        return bool(called.owner and use["call"])
    is_variable = not (kind or use["call"]) and use["name"] in bound
    return not (called.owner or is_variable)


def called_in(text: str, caller: Function, named: dict[str, list[Function]]) -> set[Function]:
    """The functions that the text of a function may call, of those that have a name each."""
    bound = {name for found in BOUND.findall(text) for name in found}
    uses = [use for use in USE.finditer(text) if use["name"] in named]
    found = {it for use in uses for it in named[use["name"]] if may_lead(use, bound, caller, it)}
    unnamed = [name for name, sign in UNNAMED.items() if name in named and re.search(sign, text)]
    return found | {it for name in unnamed for it in named[name] if it.owner}


class Calls:
    """The functions of a crate, and which may reach which."""

    def __init__(self, crate: Path) -> None:
        files = sorted((crate / "src").rglob("*.rt"))
        self.functions = [found for file in files for found in functions_of_file(crate, file)]
        named: dict[str, list[Function]] = {}
        for function in self.functions:
            named.setdefault(function.name, []).append(function)
        self.called: dict[Function, set[Function]] = {}
        files = {function.file for function in self.functions}
        texts = {file: blank((crate / file).read_text()) for file in files}
        for function in self.functions:
            text = texts[function.file][function.start : function.end]
            self.called[function] = called_in(text, function, named) - {function}
        self.reached = {function: self.reach(function) for function in self.functions}

    def reach(self, function: Function) -> set[Function]:
        """The functions that calls lead to from this one."""
        reached: set[Function] = set()
        left = [function]
        while left:
            for called in self.called[left.pop()] - reached:
                reached.add(called)
                left.append(called)
        return reached

    def are_apart(self, one: Function, other: Function) -> bool:
        """Whether the two are different functions of which neither reaches the other."""
        return one != other and other not in self.reached[one] and one not in self.reached[other]

    def cycles(self) -> dict[str, set[str]]:
        """The functions of each cycle of calls, by the ends of their paths."""
        found: dict[str, set[str]] = {}
        for function in self.functions:
            if function.cycle:
                end = "::".join(function.path.split("::")[-2:])
                found.setdefault(function.cycle, set()).add(end)
        return found
