"""The links between the pages of this repository: each leads to a file, and to a heading of it.

An anchor is a heading in lower case, without its marks and punctuation, with a hyphen for each
space; a second heading of the same text gets `-1` added. Links within code do not count.
"""

from __future__ import annotations

import re
from pathlib import Path

FENCED = re.compile(r"^```.*?^```$", re.MULTILINE | re.DOTALL)
CODE = re.compile(r"(`+)(?!`).*?(?<!`)\1(?!`)")
LINK = re.compile(r"\[[^\]]*\]\(([^()\s]+)\)")
HEADING = re.compile(r"^#+ +(.*?) *$", re.MULTILINE)
OUTSIDE = re.compile(r"[a-z]+:")


def links(text: str) -> list[str]:
    """Where the links of a page lead within the repository."""
    found = LINK.findall(CODE.sub("", FENCED.sub("", text)))
    return [link for link in found if not OUTSIDE.match(link)]


def anchors(text: str) -> set[str]:
    """The anchors of the headings of a page."""
    found: set[str] = set()
    for heading in HEADING.findall(FENCED.sub("", text)):
        heading = re.sub(r"\[([^\]]*)\]\([^()]*\)", r"\1", heading)
        plain = re.sub(r"[^\w\- ]", "", heading.lower()).replace(" ", "-")
        anchor, number = plain, 0
        while anchor in found:
            number += 1
            anchor = f"{plain}-{number}"
        found.add(anchor)
    return found


def missing(page: Path) -> list[str]:
    """The links of a page that lead nowhere."""
    wrong = []
    for link in links(page.read_text(encoding="utf-8")):
        name, _, anchor = link.partition("#")
        file = page.parent / name if name else page
        if not file.exists():
            wrong.append(link)
        elif anchor and anchor not in anchors(file.read_text(encoding="utf-8")):
            wrong.append(link)
    return wrong


def in_repository(root: Path) -> list[str]:
    """The links of the pages that lead nowhere, each with its page."""
    pages = [root / "README.md", *sorted((root / "docs").glob("*.md"))]
    return [f"{page.relative_to(root)}: {link}" for page in pages for link in missing(page)]
