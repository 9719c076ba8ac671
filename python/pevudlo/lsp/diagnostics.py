"""What is wrong with lines, in the words of `explain`, and what mends it."""

from __future__ import annotations

import re
from collections.abc import Iterator
from typing import Any, NamedTuple

from pevudlo.document.answers import line_name, words_of
from pevudlo.document.document import Document
from pevudlo.document.lines import FormerRow, PassedOver, line_at
from pevudlo.document.marks import note_on
from pevudlo.hints.explanation import Explanation
from pevudlo.lang.replies import Cause
from pevudlo.lsp.opened import Opened
from pevudlo.lsp.spots import WORD, spots

ERROR, WARNING, INFORMATION, HINT = 1, 2, 3, 4
UNNECESSARY = 1
MOST_TOLD = 100
"""So many lines are explained. Behind them it is said how many more there are."""

MEANT = re.compile(r"did you mean `([^`]+)`")
UNDECLARED = re.compile(r"`([^`]+)` isn't declared: did you mean `([^`]+)`")
SAID_WHERE = re.compile(r"say where: `([^`]+)`")
COMBINES = "send-with-u-add-1L"


class Mend(NamedTuple):
    """A text that goes into the place of some parts of a line."""

    title: str
    text: str
    parts: tuple[tuple[int, int], ...]


def diagnostics(file: Opened, tells_pale: bool) -> list[dict[str, Any]]:
    """What is told of all lines. `tells_pale`: lines that are passed over are told too, for who draws them pale."""
    document, found, more = file.document, list[dict[str, Any]](), 0
    lines, faults = document.shown, document.book.faults
    for number in lines_to_tell(document):
        shown = lines[number]
        is_wrong = shown.refused or (faults and shown.row is not None and shown.row.book in faults)
        if is_wrong and len(found) >= MOST_TOLD:
            more += 1
        elif shown.refused:
            found.append(refusal(file, number))
        elif is_wrong:
            found.append(told_of(file, number, WARNING, fault_words(document, number)))
        elif (note := note_on(document, number)) and len(found) < MOST_TOLD:
            found.append(told_of(file, number, INFORMATION, note))
        elif tells_pale and (words := pale_words(document, number)) and len(found) < MOST_TOLD:
            found.append({**told_of(file, number, HINT, words), "tags": [UNNECESSARY]})
    if more:
        found.append(told_of(file, len(document.lines) - 1, ERROR, f"{more:,} more lines are wrong"))
    return found


def lines_to_tell(document: Document) -> list[int]:
    """The lines of which something may be told, in their order: rows are told where they are refused for their data."""
    faults, lines = document.book.faults, document.shown
    if not faults:
        return document.told_lines
    rows = [at for at, shown in enumerate(lines) if shown.row is not None and shown.row.book in faults]
    return sorted({*document.told_lines, *rows})


def pale_words(document: Document, number: int) -> str:
    """Why a line does nothing in the present program, though it is right; else nothing."""
    match line_at(document, number):
        case FormerRow() as line:
            return f"this row is {words_of(line, line_name)}"
        case PassedOver() as line:
            return f"{words_of(line, line_name)}, so this line is passed over"
        case _:
            return ""


def told_of(file: Opened, number: int, severity: int, words: str) -> dict[str, Any]:
    """What is told of a whole line."""
    return {"range": file.span(number), "severity": severity, "source": "paris", "message": words}


def refusal(file: Opened, number: int) -> dict[str, Any]:
    """Why a line is refused, at the word that is wrong where one is."""
    document = file.document
    told = document.explanation(number)
    assert told is not None
    start, end = wrong_part(document, number, told)
    words = "\n".join(part for part in (told.hint, told.text, document.stays(number)) if part)
    return {**told_of(file, number, ERROR, words), "range": file.span(number, start, end), "code": told.number}


def fault_words(document: Document, number: int) -> str:
    """Why a row is refused for its data."""
    row = document.shown[number].row
    assert row is not None
    return f"the row stores nothing, since {document.book.cause(row)}"


def wrong_part(document: Document, number: int, told: Explanation) -> tuple[int, int]:
    """The part of a refused line that is wrong, by its letters: a word, or all of it."""
    line, words = document.lines[number], list(WORD.finditer(document.lines[number]))
    if told.column is not None:
        return part_at(line, told.column)
    if told.number == 9 and told.detail is not None:
        value = words[3 + told.detail - int(words[2].group())]
        return value.start(), value.end()
    board = document.board_above(number)
    for spot in spots(line):
        known = board.sets.keys() | board.fields.keys()
        is_wrong = spot.name in known if spot.is_declared_here else spot.name not in known
        if is_wrong and told.number in (3, 4, 7):
            return spot.start, spot.end
    return 0, len(line)


def part_at(line: str, column: int) -> tuple[int, int]:
    """The word at a column, which counts bytes from 1; the last letter where the line ends too soon."""
    start = len(line.encode("utf-8", "surrogateescape")[: column - 1].decode("utf-8", "ignore"))
    if start >= len(line):
        return max(0, len(line) - 1), len(line)
    end = line.find(" ", start)
    return start, max(start + 1, len(line) if end < 0 else end)


# What mends it.


def actions(file: Opened, params: dict[str, Any]) -> list[dict[str, Any]]:
    """What mends the lines of a range, where something is wrong there and it is known."""
    found, told = [], params["context"]["diagnostics"]
    for number in file.range_of(params["range"])[: MOST_TOLD + 1]:
        theirs = [each for each in told if file.place(each["range"]["start"])[0] == number]
        for mend in mends(file.document, number):
            edits = [{"range": file.span(number, *part), "newText": mend.text} for part in mend.parts]
            action = {"title": mend.title, "kind": "quickfix", "edit": {"changes": {file.uri: edits}}}
            found.append({**action, "diagnostics": theirs, "isPreferred": True})
    return found


def mends(document: Document, number: int) -> Iterator[Mend]:
    """What mends a line."""
    shown, line = document.shown[number], document.lines[number]
    told = document.explanation(number)
    if told is not None:
        yield from mends_of(told, line)
    elif shown.row is not None and shown.row.book in document.book.faults:
        name = shown.row.text.split(" ", 1)[0]
        if document.book.faults[shown.row.book].cause is Cause.COLLISION:
            start = len(line) - len(shown.row.text)
            yield Mend(f"Combine what meets: `{COMBINES}`", COMBINES, ((start, start + len(name)),))


def mends_of(told: Explanation, line: str) -> Iterator[Mend]:
    """What mends a refused line, by the hint."""
    if said := SAID_WHERE.search(told.hint):
        yield Mend(f"Write `{said[1]}`", said[1], ((0, len(line)),))
    elif told.column is not None:
        start, end = part_at(line, told.column)
        word = line[start:end]
        if meant := MEANT.search(told.hint):
            yield Mend(f"Write `{meant[1]}`", meant[1], ((start, end),))
        elif not word.strip(" ") or "\t" in word:
            yield Mend("One space between two words", " ".join(line.split()), ((0, len(line)),))
        elif re.fullmatch(r"0[0-9]+", word):
            yield Mend(f"Write `{int(word)}`", str(int(word)), ((start, end),))
    for name, other in UNDECLARED.findall(told.hint):
        named = tuple((spot.start, spot.end) for spot in spots(line) if spot.name == name)
        yield Mend(f"Write `{other}`", other, named)
