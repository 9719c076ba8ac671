"""What tests of pages share: a small tree of HTML, and answers of the program that no module of ours has touched."""

from __future__ import annotations

import os
import subprocess
from collections.abc import Iterator, Sequence
from dataclasses import dataclass, field
from functools import cache
from html.parser import HTMLParser
from pathlib import Path

REPOSITORY = Path(__file__).resolve().parents[2]
GALLERY = sorted(path.stem for path in (REPOSITORY / "examples").glob("*.paris"))
ROWS = sorted(
    str(path.relative_to(REPOSITORY).with_suffix("")) for path in (REPOSITORY / "checks/rows").glob("*/*.paris")
)
VOID = {"meta", "link", "img", "input", "br"}


@dataclass
class Node:
    """An element with its attributes and what stands in it."""

    tag: str
    attributes: dict[str, str]
    parts: list[Node | str] = field(default_factory=list)

    @property
    def classes(self) -> list[str]:
        return self.attributes.get("class", "").split()

    @property
    def text(self) -> str:
        return "".join(part if isinstance(part, str) else part.text for part in self.parts)

    def all(self, tag: str = "", kind: str = "") -> Iterator[Node]:
        """The elements in it of a tag and a class."""
        for part in self.parts:
            if isinstance(part, Node):
                if tag in ("", part.tag) and (not kind or kind in part.classes):
                    yield part
                yield from part.all(tag, kind)


class Tree(HTMLParser):
    """Reads a page into nodes, and fails where an end tag has no beginning."""

    def __init__(self, text: str) -> None:
        super().__init__()
        self.root = Node("", {})
        self._open = [self.root]
        self.feed(text)
        self.close()
        assert self._open == [self.root]

    def handle_starttag(self, tag: str, attrs: list[tuple[str, str | None]]) -> None:
        node = Node(tag, {name: value or "" for name, value in attrs})
        self._open[-1].parts.append(node)
        if tag not in VOID:
            self._open.append(node)

    def handle_endtag(self, tag: str) -> None:
        assert self._open[-1].tag == tag, f"</{tag}> ends <{self._open[-1].tag}>"
        self._open.pop()

    def handle_data(self, data: str) -> None:
        self._open[-1].parts.append(data)


@cache
def program() -> str:
    """The program's path: that of the variable PARIS_FRONT, or else as the repository's script says it."""
    if named := os.environ.get("PARIS_FRONT"):
        return named
    where = subprocess.run([REPOSITORY / "paris", "--where"], capture_output=True, text=True, timeout=60, check=True)
    return where.stdout.strip()


def answers(lines: Sequence[str]) -> list[list[str]]:
    """The reply to each line, from one run of the program; comments and empty lines have none."""
    text = "".join(line + "\n" for line in lines)
    run = subprocess.run([program()], input=text, capture_output=True, text=True, timeout=60)
    left = iter(run.stdout.splitlines())
    found = []
    for line in lines:
        reply = [] if not line or line.startswith("#") else [next(left)]
        if reply and reply[0].split(" ")[0] in ("rows", "faults"):
            reply += [next(left) for _ in range(int(reply[0].split(" ")[1]))]
        found.append(reply)
    assert next(left, None) is None
    return found


def script_of(name: str) -> list[str]:
    return path_of(name, ".paris").read_text().splitlines()


def path_of(name: str, ending: str) -> Path:
    """A file of a gallery program, or of a worked row."""
    return REPOSITORY / ((name if "/" in name else f"examples/{name}") + ending)


def transcript_of(name: str) -> dict[int, list[str]]:
    """The lines of the reply to each line of a script, by the file beside it."""
    left = iter(path_of(name, ".expected").read_text().splitlines())
    found = {}
    for number, line in enumerate(script_of(name), 1):
        if line and not line.startswith("#"):
            found[number] = [next(left)]
            if found[number][0].split(" ")[0] in ("rows", "faults"):
                found[number] += [next(left) for _ in range(int(found[number][0].split(" ")[1]))]
    assert next(left, None) is None
    return found


def numbers_of(figure: Node) -> list[str]:
    """The numbers of a grid by processor, without the words of their marks."""
    cells = [cell for cell in figure.all("td") if "pv-corner" not in cell.classes]
    return [part for cell in cells for part in cell.parts[:1] if isinstance(part, str)]


def marked(figure: Node, kind: str) -> list[int]:
    """The processors whose cells have a mark."""
    cells = [cell for cell in figure.all("td") if "pv-corner" not in cell.classes]
    return [place for place, cell in enumerate(cells) if kind in cell.classes]
