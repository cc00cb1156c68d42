"""Programs as they are measured, what they are measured on, and how slow a processor is.

A proof takes long, so a program is measured as `rt try` compiles it, but at `-O2`, without the
checks of memory, and with nothing in place of each other check: so it is near a proved one.
"""

from __future__ import annotations

import random
import re
import subprocess
import time
from collections.abc import Iterator
from pathlib import Path

from checks.kit import Repository, kit
from checks.unproved import link, quick_kit, workspace

# Keeps the text that is to be compiled with checks of memory, and stops: the program is made of it.
KEEPER = """\
#!/bin/sh
case " $* " in *fsanitize*) cp module.bc '%s'; exit 1 ;; esac
exec '%s' "$@"
"""
# How a compiled text is given to the compiler, and how it is compiled.
IR = ["--target=x86_64-unknown-linux-gnu", "--no-default-config", "-x", "ir"]
FLAGS = ["-fintegrated-cc1", "-march=x86-64", "-ffunction-sections", "-fdata-sections"]
TRAP = re.compile(r"^  call void @llvm\.trap\(\)$", re.MULTILINE)
# The hints of functions, which a proved build follows and `rt try` drops, and their words in LLVM.
HINT = re.compile(
    r"^ *#\[inline\((never|always)\)\]\n *(?:pub(?:\(crate\))? )?fn (\w+)", re.MULTILINE
)
TYPE = re.compile(r"^(?:pub(?:\(crate\))? )?(?:struct|enum) (\w+)", re.MULTILINE)
IMPL = re.compile(r"^impl(?:<[^>]*>)? (?:[\w:]+(?:<[^>]*>)? for )?(\w+)", re.MULTILINE)
AS_PROVED = {
    '"frame-pointer"="all"': '"frame-pointer"="none"',
    '"target-cpu"="x86-64"': '"target-cpu"="x86-64-v2"',
}
ATTRIBUTES = {"never": "noinline", "always": "alwaysinline"}
TOTAL = re.compile(r"Collected : (\d+)")
# The seconds of a processor that the work of `slowness` takes where the text of 800 extras joined by
# `or` takes 0.17, as docs/SPEED.md has it. All limits of seconds were set there.
THERE = 0.095


def compiled(repository: Repository, program: str, room: Path) -> Path | None:
    """A program as it is measured, or nothing where it cannot be made."""
    workspace(repository, [program], room / "copy")
    module = kept_text(room, room / "copy" / "crates" / program)
    return module and without_checks(module, hints(repository, program), room)


def kept_text(room: Path, crate: Path, *words: str) -> Path | None:
    """The text that `rt try` compiles of a crate, or nothing where it cannot be made."""
    rt = quick_kit(room / "kit")
    tools, ours = kit() / "toolchain", room / "kit" / "toolchain"
    ours.unlink()
    link(tools, ours, but=["bin"])
    link(tools / "bin", ours / "bin", but=["clang"])
    module, clang = room / "module.bc", ours / "bin" / "clang"
    clang.write_text(KEEPER % (module, tools / "bin" / "clang"))
    clang.chmod(0o755)
    tried = subprocess.run(
        [rt, "try", *words],
        cwd=crate,
        stdin=subprocess.DEVNULL,
        stdout=subprocess.PIPE,
        stderr=subprocess.STDOUT,
        text=True,
    )
    if not module.is_file():
        print(tried.stdout[-2000:])
        return None
    return module


def hints(repository: Repository, program: str) -> set[tuple[str, str, str]]:
    """The hints of the functions of a program: each with its module and its function."""
    found = set()
    for crate in repository.below(program):
        files = [file for file in repository.files(crate) if file.suffix == ".rt"]
        texts = {file.stem: file.read_text(encoding="utf-8") for file in files}
        homes = {name: home for home, text in texts.items() for name in TYPE.findall(text)}
        for home, text in texts.items():
            for hint in HINT.finditer(text):
                # (a method is named by the module of its type)
                types = IMPL.findall(text, 0, hint.start()) if hint[0].startswith(" ") else []
                module = homes.get(types[-1], home) if types else home
                found.add((hint[1], f"{crate}::{module}", hint[2]))
    return found


def hinted(text: str, found: set[tuple[str, str, str]]) -> str:
    """A compiled text with these hints."""
    for hint, attribute in ATTRIBUTES.items():
        named = [f"{module}::(?:\\w+::)?{name}" for it, module, name in sorted(found) if it == hint]
        names = "|".join(named)
        if named:
            begin = rf'^(define internal [^@\n]*@"(?:{names})(?:::<[^"\n]*)?"\(.*\)) (#\d+ {{)$'
            text = re.sub(begin, rf"\1 {attribute} \2", text, flags=re.MULTILINE)
    return text


def as_proved(text: str) -> str:
    """A compiled text with each check taken as true, and compiled as a proved one: for the same
    processors, and without pointers to frames."""
    for tried, proved in AS_PROVED.items():
        text = text.replace(tried, proved)
    return TRAP.sub("", text)


def without_checks(module: Path, found: set[tuple[str, str, str]], room: Path) -> Path:
    """The program of a compiled text, with each check taken as true."""
    text, plain = room / "module.ll", room / "plain.ll"
    clang = [kit() / "toolchain" / "bin" / "clang", *IR]
    subprocess.run([*clang, "-S", "-emit-llvm", module, "-o", text], check=True)
    said = as_proved(text.read_text(encoding="utf-8")).replace("sanitize_address", "")
    plain.write_text(hinted(said, found), encoding="utf-8")
    subprocess.run([*clang, *FLAGS, "-O2", "-c", plain, "-o", room / "plain.o"], check=True)
    libraries = [kit() / "c" / "liblibc_c.a", kit() / "c" / "libos_c.a"]
    linked = ["cc", "-no-pie", "-Wl,--gc-sections", room / "plain.o", *libraries]
    subprocess.run([*linked, "-o", room / "measured"], check=True)
    return room / "measured"


def instructions(program: Path, given: str) -> tuple[int, str]:
    """How many instructions a program takes for its input, and what it answers."""
    command = ["valgrind", "--tool=callgrind", "--callgrind-out-file=/dev/null", program]
    said = subprocess.run(command, input=given, capture_output=True, text=True, env={})
    found = TOTAL.search(said.stderr)
    return int(found[1]) if found else 0, said.stdout


KEYS = ("os_name", "sys_platform", "platform_machine", "platform_system")
VERSIONS = ("python_version", "python_full_version")


def comparison(chance: random.Random) -> str:
    """A comparison as people write them: of a text, of a version, or of an extra."""
    kind = chance.randrange(5)
    if kind < 2:
        key, operator = chance.choice(KEYS), chance.choice(("==", "!="))
        return f"{key} {operator} 'value{chance.randrange(12)}'"
    if kind < 4:
        operator = chance.choice(("<", ">=", "<=", ">", "=="))
        return f"{chance.choice(VERSIONS)} {operator} '3.{chance.randrange(6, 14)}'"
    return f"extra == 'extra{chance.randrange(20)}'"


def marker(chance: random.Random, most: int = 3) -> str:
    """A marker of at most so many comparisons."""
    terms = [comparison(chance) for _ in range(chance.randint(1, most))]
    text = terms[0]
    for term in terms[1:]:
        text += f" {chance.choice(('and', 'or'))} {term}"
    return text


def cells(chance: random.Random, count: int) -> list[str]:
    return [f"parse {marker(chance)}" for _ in range(count)]


def asked(chance: random.Random, line: str, count: int, among: int) -> list[str]:
    """So many lines over cells taken at random: `A` and `B` stand for two of them."""
    return [
        line.replace("A", str(chance.randrange(among))).replace("B", str(chance.randrange(among)))
        for _ in range(count)
    ]


LINES = 10_000
CELLS = 400
ENVIRONMENT = [f"env {key} value1" for key in KEYS] + ["env python_full_version 3.9.1"]
# The lines that are asked over cells, and how many of them.
QUESTIONS = {
    "and": ("and A B", LINES),
    "or": ("or A B", LINES),
    "not": ("not A", LINES),
    "equal": ("equal A B", LINES),
    "disjoint": ("disjoint A B", LINES),
    "text": ("text A", LINES),
    "eval": ("eval A extra1", LINES),
    "possible": ("possible A extra1", LINES),
    "extras": ("extras A extra1", LINES),
    "simplify": ("simplify A incl:3.8 excl:3.12", LINES),
    "complexify": ("complexify A incl:3.8 excl:3.12", LINES),
}


def mixes() -> Iterator[tuple[str, str]]:
    """What the program `markers` is given: a name, and the lines."""
    chance = random.Random(508)
    yield "start", "".join(f"{line}\n" for line in cells(chance, CELLS))
    yield "parse", "".join(f"{line}\n" for line in cells(chance, LINES))
    for name, (line, count) in QUESTIONS.items():
        given = ENVIRONMENT + cells(chance, CELLS) + asked(chance, line, count, CELLS)
        yield name, "".join(f"{it}\n" for it in given)


def requirement(chance: random.Random) -> str:
    """A requirement as people write them."""
    name = f"package-{chance.randrange(400)}"
    extras = chance.choice(("", "", "[socks]", "[dev,test]"))
    asks = chance.choice(("", ">=1.2", ">=2.8.1,<3", "~=1.4.2", "==2.*", "!=1.5,>=1.2"))
    if not chance.randrange(10):
        asks = f" @ https://example.org/{name}-1.0.tar.gz"
    ends = f" ; {marker(chance)}" if chance.randrange(2) else ""
    return f"{name}{extras}{asks}{ends}"


def calls() -> Iterator[tuple[str, str]]:
    """What the program of calls is given: a name, and the lines."""
    chance = random.Random(440)
    lines = "".join(f"{requirement(chance)}\n" for _ in range(LINES))
    for task in ("read", "again", "print"):
        yield f"requirements, {task}", f"{task}\n{lines}"


def read(text: str) -> dict[str, int]:
    """The counts that are kept, by their names."""
    found = (line.rpartition(": ") for line in text.splitlines() if not line.startswith("#"))
    return {name: int(count) for name, _, count in found}


def slowness() -> float:
    """How many times as long a fixed work takes a processor now as one for which the limits of
    seconds were set, or 1 where it takes less. Processors differ by more than twice, and what runs
    beside a program slows it, on this machine or on another that shares its processors. The work
    makes texts and sorts them, so it reads all over the memory, as a program does that looks up
    nodes."""
    begun = time.process_time()
    texts = {f"{number * 7_919 % 100_003:x}": number for number in range(100_003)}
    sorted(texts, reverse=True)
    return max(1.0, (time.process_time() - begun) / THERE)
