"""A page as a terminal shows it: prose stands in by two and is wrapped, code is at the margin, links are words."""

from __future__ import annotations

import re
import textwrap
from collections.abc import Iterator

HEADING = re.compile(r"^(#{1,6}) (.*)$")
PICTURE = re.compile(r"!\[([^\]]*)\]\([^)]*\)")
LINK = re.compile(r"\[([^\]]*)\]\(([^)]*)\)")
ITEM = re.compile(r"^( *)([-*]|\d+\.) ")


def without_links(text: str) -> str:
    """A text with the words of its links and pictures alone. A link that leads to no page is told behind its words."""
    text = PICTURE.sub(r"(picture: \1)", text)
    return LINK.sub(lambda link: link[1] if is_page(link[2]) else f"{link[1]} <{link[2]}>", text).replace("**", "")


def is_page(target: str) -> bool:
    """Whether a link leads to a page or to a part of one, which `paris help` shows by its name."""
    return ".md" in target or target.startswith("#")


def cells(line: str) -> list[str]:
    return [cell.strip() for cell in re.split(r"(?<!\\)\|", line.strip().strip("|"))]


def table(lines: list[str], width: int) -> Iterator[str]:
    """A table: its head and rows side by side where they fit, else each row with its first cell above the others."""
    head, *rows = [cells(without_links(line)) for line in lines if not re.fullmatch(r"[|\s:-]+", line)]
    wide = [max(len(row[place]) for row in [head, *rows] if place < len(row)) for place in range(len(head))]
    if sum(wide) + 2 * (len(wide) - 1) <= width:
        for row in [head, *rows]:
            yield "  ".join(cell.ljust(size) for cell, size in zip(row, wide)).rstrip()
        return
    yield from textwrap.wrap(" | ".join(head), width)
    for row in rows:
        first, *others = row
        yield from textwrap.wrap(first, width) or ["-"]
        for name, cell in zip(head[1:], others):
            said = f"{name}: {cell}" if name and cell else cell
            yield from textwrap.wrap(said, width, initial_indent="    ", subsequent_indent="    ")


def paragraph(line: str, width: int) -> list[str]:
    """A line of running text, wrapped; what is an item hangs behind its sign."""
    item = ITEM.match(line)
    begin = " " * (len(item[1]) + len(item[2]) + 1) if item else ""
    return textwrap.wrap(without_links(line), width, subsequent_indent=begin, break_long_words=False) or [""]


def blocks(text: str) -> Iterator[tuple[str, list[str]]]:
    """The pieces of a page: `code` between fences, `table`, `heading` and `text`, each with its lines."""
    lines = text.splitlines()
    place = 0
    while place < len(lines):
        begin = place
        if lines[place].startswith("```"):
            place = next((at for at in range(place + 1, len(lines)) if lines[at].startswith("```")), len(lines)) + 1
            yield "code", lines[begin + 1 : place - 1]
        elif lines[place].startswith("|"):
            place = next((at for at in range(place, len(lines)) if not lines[at].startswith("|")), len(lines))
            yield "table", lines[begin:place]
        else:
            place += 1
            yield "heading" if HEADING.match(lines[begin]) else "text", [lines[begin]]


def shown(text: str, width: int) -> list[str]:
    """The lines of a page, or of a part of one, in a terminal that is so wide."""
    found: list[str] = []
    for kind, lines in blocks(text):
        match kind:
            case "code":
                found += lines
            case "heading":
                found.append(without_links(lines[0]).replace("`", ""))
            case "table":
                found += [f"  {line}" for line in table(lines, width - 2)]
            case _:
                found += [f"  {line}".rstrip() for line in paragraph(lines[0], width - 2)]
    return found
