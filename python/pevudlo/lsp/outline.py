"""A file at a glance: what it declares, its headings, its parts, and the colours of its words."""

from __future__ import annotations

import re
from collections.abc import Iterator
from functools import lru_cache
from itertools import groupby, islice
from typing import Any

from pevudlo.document.pieces import DECLARING, Kind
from pevudlo.lang.grammar import COMMANDS
from pevudlo.lang.instructions import INSTRUCTIONS
from pevudlo.lsp.opened import Opened
from pevudlo.lsp.positions import Range, units
from pevudlo.lsp.spots import WORD, spots

NAMESPACE, CLASS, FIELD = 3, 5, 8
MOST_HEADING = 60
FEWEST_FOLDED = 3

TOKENS = ("comment", "keyword", "function", "class", "variable", "property", "number", "enumMember")
MOST_WORDS = 200
"""Further words of a line have no colours."""

PART = re.compile(r"[^\r]+")
PLACES = ("start", "end", "after")


def symbols(file: Opened) -> list[dict[str, Any]]:
    """Sets, fields, and the first lines of comments."""
    found = []
    for number, (line, shown) in enumerate(zip(file.document.lines, file.document.shown)):
        words, where = line.split(" "), file.span(number)
        if shown.kind in DECLARING and not shown.refused:
            kind, name, detail = CLASS if shown.kind is Kind.SET else FIELD, words[1], " ".join(words[2:])
        elif line.startswith("#") and not file.line(number - 1).startswith("#") and line.strip("# "):
            kind, name, detail = NAMESPACE, line.strip("# ")[:MOST_HEADING], ""
        else:
            continue
        found.append({"name": name, "detail": detail, "kind": kind, "range": where, "selectionRange": where})
    return found


def folds(file: Opened) -> list[dict[str, Any]]:
    """Lines without an empty one between them, and comments of several lines."""
    lines = file.document.lines
    parts = [*parted(file, [bool(line) for line in lines], "region")]
    return parts + [*parted(file, [line.startswith("#") for line in lines], "comment")]


def parted(file: Opened, marks: list[bool], kind: str) -> Iterator[dict[str, Any]]:
    """The parts of marked lines that follow each other, where they are long enough to be folded."""
    for is_marked, group in groupby(range(len(marks)), key=marks.__getitem__):
        numbers = list(group)
        if is_marked and len(numbers) >= FEWEST_FOLDED:
            last = file.span(numbers[-1])["end"]["line"]
            yield {"startLine": file.row_of(numbers[0]), "endLine": last, "kind": kind}


def tokens(file: Opened, asked: Range | None = None) -> dict[str, list[int]]:
    """The kinds of words of a range, or of all lines: each by its distance to the one before."""
    lines = file.document.lines
    data: list[int] = []
    row = column = 0
    for number in range(len(lines)) if asked is None else file.range_of(asked):
        first = file.row_of(number)
        for part, start, length, kind in tokens_of(lines[number]):
            column = column if first + part == row else 0
            data += [first + part - row, start - column, length, kind, 0]
            row, column = first + part, start
    return {"data": data}


@lru_cache(maxsize=16_384)
def tokens_of(line: str) -> tuple[tuple[int, int, int, int], ...]:
    """The words of a line in units of UTF-16: behind how many carriage returns each stands, where it begins there, how
    long it is, and which of TOKENS it is. A carriage return cuts a word.
    """
    words = [(0, len(line), "comment")] if line.startswith("#") else words_of(line)
    found = []
    for start, end, kind in words:
        for part in PART.finditer(line, start, end):
            before = line[: part.start()]
            at = units(before[before.rfind("\r") + 1 :])
            found.append((before.count("\r"), at, units(part.group()), TOKENS.index(kind)))
    return tuple(found)


def words_of(line: str) -> Iterator[tuple[int, int, str]]:
    """The words of a line that is no comment, with what they are."""
    names = {spot.start: spot for spot in spots(line)}
    for at, word in enumerate(islice(WORD.finditer(line), MOST_WORDS)):
        if word.start() in names:
            name = names[word.start()]
            yield name.start, name.end, "class" if name.is_set else "variable"
            if name.end < word.end():
                yield name.end + 1, word.end(), "property"
        else:
            kind = kind_of(word.group(), at == 0)
            if kind:
                yield word.start(), word.end(), kind


def kind_of(word: str, is_first: bool) -> str:
    """What a word is that is no name, or nothing."""
    if word in INSTRUCTIONS:
        return "function"
    if word[0].isdigit():
        return "number"
    if (is_first and word in COMMANDS) or word in PLACES:
        return "keyword"
    return "" if is_first else "enumMember"
