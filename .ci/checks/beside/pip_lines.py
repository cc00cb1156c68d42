"""Generated requirements files, what pip reads in them, and what the program `pip_lines` does.

What differs on purpose is not generated:
- a value that has a `$`: pip looks for a later variable of the line in what it put in for an
  earlier one;
- U+001F at an end of a line, which Python's `strip` takes for white space and Unicode does not.
Faults that pip does not have are allowed: an option or a text that pip ignores, and a hash whose
digits are not those of a hash by its name.
"""

from __future__ import annotations

import os
import random
import re
import shlex
import subprocess
from collections.abc import Iterator
from dataclasses import dataclass
from pathlib import Path

from checks.kit import Repository
from checks.unproved import quick_kit, workspace

NAMES = ["A", "B_2", "LONG_NAME_3"]
VALUES = ["", "1", "x y", " -r z", "#", "é", "'", "\\", " # c"]
MARK = "\ufeff"
# How long the program may take, in seconds, in a build that checks each access.
LONGEST = 600

# What files are made of.
PARTS = [
    *["a", "b==1", " ", " ", "\t", "#", " #", "\\", "\\\n", "\n", "\n", "\r\n", "\r", "-", " -", " --x="],
    *["\x0b", "\x0c", "\x1c", "\x1d", "\x1e", "\x85", "\u2028", "\u2029", "\u00a0", "é", "\u4e2d"],
    *["$", "{", "}", "${A}", "${B_2}", "${LONG_NAME_3}", "${NO}", "${a}", "${A\\\n}", "'", '"', MARK],
]


# What lines of options are made of.
ZEROS = {"sha256": 64, "sha384": 96, "sha512": 128}
OPTIONS = [
    *[" -r x", " --requirement=x", " -rx", " --requirem 'x y'", " -r", " --requ x", " -r ''"],
    *[" -c y", " --constraint=y", " --cons y", " --con y", " -e z", " -ez", " --ed=z", " --e z"],
    *[" -i u", " --index-url=u", " --pypi-url u", " --py=u", " --extra-index-url u", " --no-index"],
    *[" -f l", " --find-links=l", " --no-binary x,y", " --no-binary -x", " --only-binary=:all:"],
    *[" --prefer-binary", " --require-hashes", " --pre", " --pre=x", " --pr", " --trusted-host h"],
    *[" --use-feature=fast-deps", " --use-feature truststore", " --use-feature x", " --use-fe="],
    *[" --use-feature no-binary-enable-wheel-cache", " --global-option=g", " --global-option"],
    *[f" --hash={name}:{'0' * size}" for name, size in ZEROS.items()],
    *[" --hash sha256:0", " --hash=sha1:0", " --hash sha512", " --hash", " --h=sha384:g"],
    *[" --config-settings a=b", " -C a=", " -Ca", " --config=x=y", " --x", " -x", " --", " -", " ---"],
    *[" --=", " --Pre", " foo", " foo", " ''", " 'a", "\\ ", "=", "-", "\n", "\n", "\nfoo", "\\\n", " #"],
]
# Faults that pip has too, beside quotes that do not end.
FAULTS = {
    *["Unclosed", "Unknown", "Ambiguous", "NoArgument", "UnwantedArgument", "UnknownFeature"],
    *["InvalidHash", "InvalidSetting"],
}


@dataclass(frozen=True)
class Case:
    """A file, and the values of the variables."""

    file: str
    values: list[str]

    def line(self) -> str:
        """The case as a line of the program's input."""
        return " ".join(text.encode().hex() or "-" for text in [self.file, *self.values])


def version() -> str | None:
    """Which pip python3 has, if it has the reader that is compared with."""
    try:
        import pip
        from pip._internal.req import req_file
    except ImportError:
        return None
    known = all(hasattr(req_file, name) for name in ("preprocess", "break_args_options"))
    return pip.__version__ if known else None


def cases(count: int) -> Iterator[Case]:
    """So many cases, the same ones each time."""
    chosen = random.Random("requirements files")
    for number in range(count):
        longest = 80 if number % 10 == 0 else 14
        made_of = OPTIONS if number % 2 else PARTS
        parts = [chosen.choice(made_of) for _ in range(chosen.randrange(longest))]
        mark = MARK if chosen.random() < 0.05 else ""
        yield Case(mark + "".join(parts), [chosen.choice(VALUES) for _ in NAMES])


def words_of(options: str) -> list[str] | None:
    """The words of the options of a line, or None where quotes do not end."""
    try:
        return shlex.split(options)
    except ValueError:
        return None


def wanted(case: Case) -> list[tuple[str, str, list[str] | None]]:
    """The logical lines as pip has them, each with its requirement and the words of its options."""
    from pip._internal.req import req_file

    before = dict(os.environ)
    os.environ.clear()
    os.environ.update({name: value for name, value in zip(NAMES, case.values) if value})
    try:
        lines = [line for _, line in req_file.preprocess(case.file.removeprefix(MARK))]
    finally:
        os.environ.clear()
        os.environ.update(before)
    parts = [req_file.break_args_options(line) for line in lines]
    return [(line, front, words_of(options)) for line, (front, options) in zip(lines, parts)]


@dataclass(frozen=True)
class Said:
    """What pip makes of a line: what it is, the options in order, and the words that it ignores."""

    content: str
    options: list[tuple[str, str | None]]
    ignored: list[str]


def said_by(line: str) -> Said | None:
    """What pip makes of a line, or None where it refuses its options."""
    from pip._internal.req import req_file

    front, rest = req_file.break_args_options(line)
    parser = req_file.build_parser()
    parser.print_usage = lambda file=None: None
    seen: list[tuple[str, str | None]] = []
    for option in parser.option_list:

        def process(opt, value, values, parser, option=option, kept=option.process):
            kept(opt, value, values, parser)
            seen.append((option._long_opts[0], value))

        option.process = process
    try:
        options, ignored = parser.parse_args(shlex.split(rest), parser.get_default_values())
    except Exception:
        return None
    made = req_file.ParsedLine("file", 1, front, options, False)
    if made.is_requirement:
        content = ("E" if made.is_editable else "R") + made.requirement
    elif options.requirements:
        content = "F" + options.requirements[0]
    elif options.constraints:
        content = "C" + options.constraints[0]
    else:
        content = "S"
    return Said(content, seen, ignored)


def unlike_options(line: str, content: str, options: str, faults: str) -> str | None:
    """How the options of a line differ from those that pip reads."""
    told = set(faults.split(",")) - {""}
    said = said_by(line)
    if said is None:
        return None if told & FAULTS else f"the options of {line!r} are a fault in pip, and here {options}"
    if told == {"InvalidHash"} and any(name == "--hash" for name, _ in said.options):
        return None
    if told & FAULTS:
        return f"the options of {line!r} are the fault {faults}, and in pip {said}"
    found = [
        (name, bytes.fromhex(argument).decode() if dot else None)
        for name, dot, argument in (option.partition(".") for option in options.split(",") if option)
    ]
    if found != said.options:
        return f"the options of {line!r} are {found}, and in pip {said.options}"
    text = content[:1] + bytes.fromhex(content[1:]).decode()
    if said.content != text:
        return f"{line!r} is {text!r}, and in pip {said.content!r}"
    if faults.split(",").count("LostText") != len(said.ignored):
        return f"{line!r} has the faults {faults}, and pip ignores {said.ignored}"
    return None


def position(file: str, byte: int) -> tuple[int, int]:
    """The line and the column of a byte of a file, as editors count them."""
    front = file.encode()[:byte].decode().removeprefix(MARK)
    rest = file.encode()[byte:].decode()
    ends = [found for found in re.finditer(r"\r\n|\n|\r", front)]
    if ends and front.endswith("\r") and rest.startswith("\n"):
        ends.pop()
    last = ends[-1].end() if ends else 0
    return len(ends) + 1, len(front) - last + 1


def unlike(case: Case, output: str) -> str | None:
    """How the program's line differs from what pip reads, or from the places of the file."""
    shown = [word.split(":") for word in output.split()]
    found = [(bytes.fromhex(word[0]).decode(), int(word[1])) for word in shown]
    split = [
        None
        if word[6] == "!"
        else [bytes.fromhex(text[1:]).decode() for text in word[6].split(",") if text]
        for word in shown
    ]
    lines = wanted(case)
    if [line for line, _ in found] != [line for line, _, _ in lines]:
        return f"{case} has the lines {found}, and in pip {lines}"
    for (line, size), (_, requirement, words), shown_words in zip(found, lines, split):
        # pip leaves the space before an option out.
        front = line.encode()[:size].decode()
        if requirement not in (front, front.removesuffix(" ")):
            return f"{case}: the requirement of {line!r} is {front!r}, and in pip {requirement!r}"
        if words != shown_words:
            return f"{case}: the words of {line!r} are {shown_words}, and in pip {words}"
    for (line, _), (*_, content, options, faults) in zip(found, shown):
        difference = unlike_options(line, content, options, faults)
        if difference is not None:
            return f"{case}: {difference}"
    for (line, _), (_, _, *place, byte, source, _, _, _, _) in zip(found, shown):
        stands = case.file.encode()[int(byte) :].decode()
        if not stands.startswith("$" if source == "value" else line[:1]):
            return f"{case}: {line!r} does not begin at the byte {byte}"
        if tuple(map(int, place)) != position(case.file, int(byte)):
            return f"{case}: {line!r} does not begin at {':'.join(place)}"
    return None


def compare(given: list[Case], outputs: list[str]) -> tuple[int, list[str]]:
    """How many logical lines there are, and what differs."""
    said = [unlike(case, output) for case, output in zip(given, outputs)]
    return sum(len(output.split()) for output in outputs), [it for it in said if it is not None]


def run(repository: Repository, given: list[Case], room: Path) -> tuple[int, list[str]]:
    """Builds the program without a proof, and runs it on the cases. Answers its status, and the
    line that it wrote for each of them."""
    workspace(repository, ["pip_lines"], room / "copy")
    said = subprocess.run(
        [quick_kit(room / "kit"), "try", "--seconds", str(LONGEST)],
        cwd=room / "copy" / "crates" / "pip_lines",
        input="".join(case.line() + "\n" for case in given),
        stdout=subprocess.PIPE,
        stderr=subprocess.PIPE,
        encoding="utf-8",
    )
    if said.returncode:
        print(said.stderr[-2000:])
    return said.returncode, said.stdout.split("\n")[:-1]
