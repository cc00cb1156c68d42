"""Figures of the documents, which may only fall, and the limits that they must keep.

  python3 .ci/checks/words.py            prints each figure beside its limit
  python3 .ci/checks/words.py --lower    writes the limits that have fallen
  python3 .ci/checks/words.py --show     prints each long sentence, and each line with such a word

A word is what is between white space and has a letter or a digit; in a sentence a piece of code
counts as one. A sentence ends at a full stop, a question mark or an exclamation mark before white
space, and with its paragraph, its item of a list, or its cell of a table. The words that have a
plainer one are those of `PLAINER`, outside of code, in documents and in doc comments.
"""

from __future__ import annotations

import re
import sys
from collections.abc import Iterator
from pathlib import Path

sys.dont_write_bytecode = True
sys.path.insert(0, str(Path(__file__).resolve().parent.parent))

from checks import house

ROOT = Path(__file__).resolve().parent.parent.parent
README, PROOFS = Path("README.md"), Path("docs/PROOFS.md")
# Pages on the program, on the library for C and on the floors of speed, and for who reads hostile
# texts.
NOT_COUNTED = {
    "PROGRAM.md",
    "PROGRAM_PROOFS.md",
    "HOSTILE_TEXTS.md",
    "LIBRARY_FOR_C.md",
    "SPEED_FLOORS.md",
}
SHORT = (README, Path("docs/ARCHITECTURE.md"))
LONG = 30

WORDS = "words of README and of the pages of docs that are counted"
LINES = "lines of README"
BYTES = "bytes of PROOFS"
SENTENCES = f"sentences of README and ARCHITECTURE over {LONG} words"
IN_DOCUMENTS = "words of documents that have a plainer one"
IN_COMMENTS = "words of doc comments that have a plainer one"

FENCED = re.compile(r"^[ \t]*```.*?^[ \t]*```$", re.MULTILINE | re.DOTALL)
INDENTED = re.compile(r"^(?: {4}|\t).*$", re.MULTILINE)
NO_TEXT = re.compile(r"<!--.*?-->", re.DOTALL)
CODE = re.compile(r"(?<!`)(`+)(?!`).*?(?<!`)\1(?!`)", re.DOTALL)
TARGET = re.compile(r"\]\([^)]*\)|\]\[[^\]]*\]")
BAR = re.compile(r"(?<!\\)\|")
ITEM = re.compile(r"^\s*(?:[-*]|\d+\.) ")
END = re.compile(r"(?<=[.!?])\s+")
WORD = re.compile(r"\w")
DOC_COMMENT = re.compile(r"^\s*//[/!] ?(.*)$")
PLAINER = re.compile(
    r"\b(?:stand(?:s|ing)?(?! for\b)|stood(?! for\b)|told|tells? of|ask(?:s|ed|ing)?|behind"
    r"|(?<!there )(?:is|are) none|that (?:is|are) no|(?:is|are) (?:not )?so|aside|but for"
    r"|want of (?:memory|room)|also (?:then|where|after)|handed|lent|reads? back|end of 64 bits)\b"
)


def without_code(text: str) -> str:
    """A document without its blocks of code, and with a word in place of each piece of code."""
    text = NO_TEXT.sub("", INDENTED.sub("", FENCED.sub("", text)))
    return CODE.sub("x", text)


def paragraphs(text: str) -> Iterator[str]:
    """The paragraphs, items, headings and cells of a document without its code."""
    begun: list[str] = []
    for line in [*without_code(text).splitlines(), ""]:
        is_apart = line.startswith(("#", "|"))
        if begun and (not line.strip() or is_apart or ITEM.match(line)):
            yield " ".join(begun)
            begun = []
        if line.startswith("|"):
            yield from (cell.strip() for cell in BAR.split(line))
        elif line.startswith("#"):
            yield line
        elif line.strip():
            begun.append(ITEM.sub("", line).strip())


def count(text: str) -> int:
    """How many words a text has."""
    return sum(1 for it in text.split() if WORD.search(it))


def long_sentences(text: str) -> list[str]:
    """The sentences of a document that are too long."""
    found = (sentence for it in paragraphs(TARGET.sub("]", text)) for sentence in END.split(it))
    return [sentence for sentence in found if count(sentence) > LONG]


def plainer(text: str) -> list[str]:
    """The words of a document that have a plainer one, each with what is around it."""
    text = " ".join(TARGET.sub("]", without_code(text)).split())
    return [text[max(it.start() - 30, 0) : it.end() + 20] for it in PLAINER.finditer(text)]


def doc_comments(text: str) -> str:
    """The doc comments of a source, as one document."""
    lines = (DOC_COMMENT.match(line) for line in text.splitlines())
    return "\n".join(it[1] if it else "" for it in lines)


def documents(root: Path) -> dict[Path, str]:
    """README and the pages of docs, by their paths."""
    files = [root / README, *sorted((root / "docs").glob("*.md"))]
    return {it.relative_to(root): it.read_text(encoding="utf-8") for it in files}


def comments(root: Path) -> dict[Path, str]:
    """The doc comments of all crates, by the paths of their files."""
    files = sorted((root / "crates").glob("*/src/**/*.rt"))
    return {it.relative_to(root): doc_comments(it.read_text(encoding="utf-8")) for it in files}


def figures_of(root: Path) -> dict[str, float]:
    pages = documents(root)
    return {
        WORDS: sum(count(text) for it, text in pages.items() if it.name not in NOT_COUNTED),
        LINES: len(pages[README].splitlines()),
        BYTES: len(pages[PROOFS].encode()),
        SENTENCES: sum(len(long_sentences(pages[it])) for it in SHORT),
        IN_DOCUMENTS: sum(len(plainer(text)) for text in pages.values()),
        IN_COMMENTS: sum(len(plainer(text)) for text in comments(root).values()),
    }


def show(root: Path) -> None:
    pages = documents(root)
    for file in SHORT:
        for sentence in long_sentences(pages[file]):
            print(f"{file}: {count(sentence)} words: {sentence}")
    for file, text in (pages | comments(root)).items():
        for found in plainer(text):
            print(f"{file}: .. {found} ..")


if __name__ == "__main__":
    if "--show" in sys.argv:
        show(ROOT)
    else:
        sys.exit(house.main(figures_of(ROOT)))
