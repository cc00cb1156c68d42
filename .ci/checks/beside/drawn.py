"""Drawings of markers, as tests state them: read again, and compared with one another.

A constant `NAME_TEXT`, `NAME_DOT` or `NAME_SVG` of `STATED` is a drawing that a command writes. The
tree is read by its lines, the language of Graphviz by its quoted names, and the picture by Python's
reader of XML and by where its lines end. The drawings of one name have the same nodes and edges. The
picture `SHOWN` of the documents is one of them.
"""

from __future__ import annotations

import re
import xml.etree.ElementTree as xml
from dataclasses import dataclass, field
from pathlib import Path

STATED = Path("tests/test_marker_drawings/outputs.rt.txt")
SHOWN = Path("docs/marker.svg")
CONSTANT = re.compile(
    r'^const (?P<name>[A-Z_]+)_(?P<format>TEXT|DOT|SVG): &str = r(?P<marks>#+)"\n(?P<text>.*?)"(?P=marks);$',
    re.MULTILINE | re.DOTALL,
)
CONSTANTS = ("true", "false")
NAME = r'"((?:[^"\\]|\\.)*)"'
NODE = re.compile(rf"  {NAME} \[label={NAME}\];")
EDGE = re.compile(rf"  {NAME} -> {NAME} \[label={NAME}\];")
PLAIN = re.compile(rf"  {NAME} \[shape=plaintext\];")
BRANCH = re.compile(r"^(?P<front>(?:[│ ]  )*)[├└]─ (?P<label>.*): (?P<target>.*)$")
PART = re.compile(r"^#(?P<number>\d+): (?P<label>.*)$")
LINE = re.compile(r"M(\d+) (\d+)C\d+ \d+ \d+ \d+ (\d+) (\d+)")
SVG = "{http://www.w3.org/2000/svg}"
# The height of a line of text in a picture.
HEIGHT = 24


class BadDrawing(Exception):
    """A text that is no drawing."""


@dataclass
class Drawing:
    """The labels of the nodes, and the edges of each: labels and targets, in order."""

    labels: dict[str, str] = field(default_factory=dict)
    edges: dict[str, list[tuple[str, str]]] = field(default_factory=dict)

    def shape(self, root: str) -> list[object]:
        """The nodes as they are reached from the root, by numbers of their own."""
        order, shape = [root], []
        for name in order:
            if name in CONSTANTS:
                shape.append(name)
                continue
            leads = []
            for label, target in self.edges[name]:
                if target not in order:
                    order.append(target)
                leads.append((label, order.index(target)))
            shape.append((self.labels[name], leads))
        if set(order) != {*self.labels, *(name for name in order if name in CONSTANTS)}:
            raise BadDrawing("a node is not reached")
        return shape


def dot_label(text: str) -> str:
    """The label of a quoted name of Graphviz."""
    text = re.sub(r"\\(.)", r"\1", text)
    if re.search(r"&(?!amp;)", text):
        raise BadDrawing(f"a bare & in {text}")
    return text.replace("&amp;", "&")


def read_dot(text: str) -> list[object]:
    """The shape of a drawing in the language of Graphviz."""
    lines = text.splitlines()
    if lines[:2] != ["digraph marker {", "  node [shape=box];"] or lines[-1] != "}":
        raise BadDrawing("another frame")
    drawing, plain = Drawing(), []
    for line in lines[2:-1]:
        if found := NODE.fullmatch(line):
            drawing.labels[found[1]] = dot_label(found[2])
            drawing.edges[found[1]] = []
        elif found := EDGE.fullmatch(line):
            drawing.edges[found[1]].append((dot_label(found[3]), found[2]))
        elif found := PLAIN.fullmatch(line):
            plain.append(found[1])
        else:
            raise BadDrawing(line)
    shape = drawing.shape("0" if drawing.labels else plain[0])
    if sorted(plain) != sorted(part for part in shape if part in CONSTANTS):
        raise BadDrawing("other constants than are reached")
    return shape


def read_tree(text: str) -> list[object]:
    """The shape of a drawing as a tree."""
    if text.rstrip("\n") in CONSTANTS:
        return [text.rstrip("\n")]
    drawing, above = Drawing(), []
    for line in text.splitlines():
        if not line:
            continue
        if found := BRANCH.match(line):
            depth = len(found["front"]) // 3
            target = found["target"]
            if target not in CONSTANTS and not target.startswith("#"):
                name = f"line {len(drawing.labels)}"
                drawing.labels[name], drawing.edges[name] = target, []
                target, label = name, target
            drawing.edges[above[depth]].append((found["label"], target))
            above = [*above[: depth + 1], target]
            continue
        found = PART.match(line)
        name = f"#{found['number']}" if found else "root"
        drawing.labels[name], drawing.edges[name] = found["label"] if found else line, []
        above = [name]
    return drawing.shape("root")


def read_svg(text: str) -> list[object]:
    """The shape of a drawing as a picture: each text is in a box, and each line goes from the text
    of an edge to the box of its target."""
    page = xml.fromstring(text)
    whole = [float(page.get(side)) for side in ("width", "height")]
    drawing, boxes = Drawing(), []
    for box in page.iter(f"{SVG}rect"):
        if box.get("class") != "page":
            left, top, width, height = (int(box.get(side)) for side in ("x", "y", "width", "height"))
            if left + width > whole[0] or top + height > whole[1]:
                raise BadDrawing("a box outside of the picture")
            boxes.append((left, top, width, height, str(len(boxes))))
    texts = [(int(t.get("x")), int(t.get("y")), t.text or "") for t in page.iter(f"{SVG}text")]
    inside: dict[str, list[tuple[int, str]]] = {}
    for left, top, width, height, name in boxes:
        here = [(x, y, label) for x, y, label in texts if left < x < left + width and top < y < top + height]
        title = [label for _, y, label in here if y < top + HEIGHT]
        if len(title) != 1:
            raise BadDrawing(f"a box with {title}")
        drawing.labels[name] = title[0]
        inside[name] = sorted((x, label) for x, y, label in here if y > top + HEIGHT)
        drawing.edges[name] = []
    if sum(1 + len(found) for found in inside.values()) != len(texts):
        raise BadDrawing("a text in no box, or in two")
    constants = {name: drawing.labels.pop(name) for *_, height, name in boxes if height == HEIGHT}
    for line in page.iter(f"{SVG}path"):
        if line.get("class") == "edge":
            x, y, to, end = map(int, LINE.fullmatch(line.get("d")).groups())
            source = [name for left, top, width, height, name in boxes if left < x < left + width and top + height == y]
            target = [name for left, top, width, _, name in boxes if left + width // 2 == to and top == end]
            if len(source) != 1 or len(target) != 1:
                raise BadDrawing(f"a line from {source} to {target}")
            name = target[0]
            labels = [label for middle, label in inside[source[0]] if middle == x]
            drawing.edges[source[0]].append((*labels, constants.get(name, name)))
    for name, label in constants.items():
        drawing.edges.pop(name)
        if label not in CONSTANTS:
            raise BadDrawing(f"a small box with {label}")
    if not drawing.labels:
        return list(constants.values())
    return drawing.shape(boxes[0][-1])


READERS = {"TEXT": read_tree, "DOT": read_dot, "SVG": read_svg}


def drawings(text: str) -> dict[str, dict[str, str]]:
    """The drawings of a file of tests: for each name the text of each format."""
    found: dict[str, dict[str, str]] = {}
    for constant in CONSTANT.finditer(text):
        found.setdefault(constant["name"], {})[constant["format"]] = constant["text"]
    return found


def faults(root: Path) -> list[str]:
    """What is wrong with the drawings that the tests state, and with the picture of the documents."""
    said = []
    stated = drawings((root / STATED).read_text(encoding="utf-8"))
    for name, formats in stated.items():
        if set(formats) != set(READERS):
            said.append(f"{name}: only {sorted(formats)}")
            continue
        try:
            shapes = {kind: READERS[kind](text) for kind, text in formats.items()}
        except (BadDrawing, xml.ParseError, AttributeError, LookupError, ValueError) as error:
            said.append(f"{name}: {error!r}")
            continue
        if shapes["TEXT"] != shapes["DOT"] or shapes["SVG"] != shapes["DOT"]:
            said.append(f"{name}: {shapes}")
    if not stated:
        said.append(f"{STATED}: no drawings")
    picture = (root / SHOWN).read_text(encoding="utf-8")
    if picture not in [formats.get("SVG") for formats in stated.values()]:
        said.append(f"{SHOWN}: no drawing of {STATED}")
    return said
