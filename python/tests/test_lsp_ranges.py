"""Changes of ranges as editors send them: the text, and the document behind it, beside a plain model of the text."""

from __future__ import annotations

import re
from collections.abc import Iterator
from pathlib import Path
from random import Random
from typing import Any

import pytest
from editors import URI, Editor
from random_editor import compare

from pevudlo.document import document as documents
from pevudlo.document.differences import Pair, ends
from pevudlo.document.document import Document
from pevudlo.lsp.diagnostics import lines_to_tell
from pevudlo.lsp.frames import framed
from pevudlo.lsp.opened import Opened
from pevudlo.wire.library import Library

MESSAGES = 10_000
END = re.compile("\r\n|\n|\r")
"""Where a line ends in the protocol."""

HEAD = ["set S 4", "field a S 8", "field b S 8", "field f S 1", "input a 0 1 2 3 4"]
LINES = [
    "u-add-3-1L b a a 8",
    "u-subtract-3-1L a b a 8",
    "insert end u-lt-1L a b 8",
    "insert after 1 u-move-1L b a 4",
    "insert start u-move-constant-1L a 3 8",
    "delete 2",
    "replace 1 logxor-3-1L b b a 8",
    "input a 2 7",
    "input b 0 1 2 3",
    "show b end",
    "settle",
    "field c S 8",
    "# é 😀 of it",
    "u-add-3-1L b a",
    "",
]


class Model:
    """A text as the units of UTF-16 that it has, and changes of it as the protocol says them."""

    def __init__(self, text: str) -> None:
        self.raw = text.encode("utf-16-le")

    @property
    def text(self) -> str:
        """The text."""
        return self.raw.decode("utf-16-le")

    def offset(self, position: dict[str, int]) -> int:
        """Where a position is, in bytes. One behind its line is at its end, and one behind the text at its end.

        One between the two units of a letter is behind it.
        """
        text = self.text
        starts = [0, *(end.end() for end in END.finditer(text))]
        if position["line"] >= len(starts):
            return len(self.raw)
        start = starts[position["line"]]
        line = END.split(text[start:], maxsplit=1)[0].encode("utf-16-le")
        at = min(2 * position["character"], len(line))
        is_between = at > 0 and 0xD800 <= int.from_bytes(line[at - 2 : at], "little") < 0xDC00
        return len(text[:start].encode("utf-16-le")) + at + 2 * is_between

    def change(self, change: dict[str, Any]) -> None:
        """Makes a change."""
        put = change["text"].encode("utf-16-le")
        if "range" not in change:
            self.raw = put
            return
        start, end = sorted(self.offset(change["range"][side]) for side in ("start", "end"))
        self.raw = self.raw[:start] + put + self.raw[end:]


class Typist:
    """Changes a text at random."""

    def __init__(self, seed: int) -> None:
        self.dice = Random(seed)
        self.model = Model("\n".join([*HEAD, *self.dice.choices(LINES, k=12), ""]))

    def first(self, lines: int) -> int:
        """From which line on something is changed: mostly below the declarations."""
        return len(HEAD) if lines > len(HEAD) and self.dice.random() < 0.97 else 0

    def position(self) -> dict[str, int]:
        """A place between two letters, or one behind a line, or behind the text."""
        lines = END.split(self.model.text)
        line = self.dice.randrange(self.first(len(lines) + 1), len(lines) + 1)
        letters = lines[line] if line < len(lines) else ""
        beyond = self.dice.choice([0, 0, 0, 0, 0, 0, 0, 0, 1, 100_000])
        at = len(letters) if beyond else self.dice.choice([0, len(letters), self.dice.randint(0, len(letters))])
        return {"line": line + beyond // 50_000, "character": len(letters[:at].encode("utf-16-le")) // 2 + beyond}

    def text(self) -> str:
        """What is typed: a part of a line, some lines, or nothing."""
        dice = self.dice
        lines = "\n".join(dice.choices(LINES, k=dice.randint(1, 3)))
        return dice.choice(["", "", "8", "b", " ", "\n", "😀", "é", lines, f"{lines}\n", f"\n{lines}", "\r\n", "\r"])

    def change(self) -> dict[str, Any]:
        """One change, which is made in the model."""
        lines = len(self.model.text.split("\n"))
        if self.dice.random() < 0.08 or lines > 40:
            change: dict[str, Any] = {"text": "\n".join([*HEAD, *self.dice.choices(LINES, k=12), *[""] * (lines % 2)])}
        elif self.dice.random() < 0.5:
            # A whole line, as people change it.
            at = self.dice.randrange(self.first(lines), lines)
            sides = {"start": {"line": at, "character": 0}, "end": {"line": at, "character": 1_000}}
            change = {"range": sides, "text": self.dice.choice(LINES)}
        else:
            start, end = self.position(), self.position()
            if self.dice.random() < 0.8:
                end["line"] = max(0, start["line"] + self.dice.choice([-1, 0, 0, 0, 1]))
            change = {"range": {"start": start, "end": end}, "text": self.text()}
        self.model.change(change)
        return change

    def message(self) -> list[dict[str, Any]]:
        """The changes of one message, each of the text behind the one before it."""
        return [self.change() for _ in range(self.dice.choice([1, 1, 1, 2, 3]))]


@pytest.fixture
def compared(monkeypatch: pytest.MonkeyPatch) -> Iterator[list[Pair]]:
    """What is known of two texts when they are compared. It has to be so."""
    seen: list[Pair] = []

    def ends_compared(old: list[str], new: list[str], known: Pair = (0, 0)) -> Pair:
        found = ends(old, new, known)
        assert found == ends(old, new), (old, new, known)
        seen.append(known)
        return found

    monkeypatch.setattr(documents, "ends", ends_compared)
    yield seen


def is_told(document: Document, number: int) -> bool:
    """Whether something may be told of a line: it is looked at all by itself."""
    shown = document.shown[number]
    is_fault = shown.row is not None and shown.row.book in document.book.faults
    return bool(shown.refused or shown.former or is_fault or shown.piece.line.startswith("input ")) or (
        shown.piece.line.split(" ")[0] in ("settle", "take", "bring", "release", "list", "faults")
    )


def test_random_changes_of_ranges_give_the_document_of_the_text(libparis: Path, compared: list[Pair]) -> None:
    typist, values, rows = Typist(5), 0, 0
    opened = Opened(URI, typist.model.text, 1, lambda: Library(libparis))
    for number in range(MESSAGES):
        opened.change(typist.message(), number)
        assert "\n".join(opened.lines) == typist.model.text
        if typist.dice.random() < 0.6:
            # (else more is typed before the document is in step)
            if is_saved := typist.dice.random() < 0.3:
                opened.save()
            opened.renew()
            lines = typist.model.text.split("\n")
            lines = lines[:-1] if lines[-1] == "" else lines
            assert opened.document.lines == lines
            told = [at for at in range(len(lines)) if is_told(opened.document, at)]
            assert lines_to_tell(opened.document) == told, number
            rows += len(opened.document.rows)
            if is_saved and number % 20 == 0:
                values += compare(opened.document, lines)
    opened.document.close()
    assert sum(low + high > 8 for low, high in compared) > 1_000
    assert values > 1_000 and rows > 10_000


def test_behind_an_update_that_failed_its_changes_count_too(
    libparis: Path, monkeypatch: pytest.MonkeyPatch, compared: list[Pair]
) -> None:
    opened = Opened(URI, "\n".join([*HEAD, "u-add-3-1L b a a 8"]), 1, lambda: Library(libparis))
    opened.renew()

    def fails(*words: object) -> None:
        raise MemoryError

    with monkeypatch.context() as without:
        without.setattr(Document, "_step", fails)
        opened.change([{"range": whole_line(5), "text": "u-add-3-1L b a b 8"}], 2)
        with pytest.raises(MemoryError):
            opened.renew()
    opened.change([{"range": whole_line(1), "text": "field a S 16"}], 3)
    opened.renew()
    compare(opened.document, [HEAD[0], "field a S 16", *HEAD[2:], "u-add-3-1L b a b 8"])
    assert compared[-1] == (1, 0)
    opened.document.close()


def whole_line(number: int) -> dict[str, dict[str, int]]:
    """The range of a line."""
    return {"start": {"line": number, "character": 0}, "end": {"line": number, "character": 1_000}}


def test_behind_a_wrong_change_ranges_are_refused_until_the_whole_text_comes() -> None:
    with Editor() as editor:
        text = "\n".join([*HEAD, "u-add-3-1L b a a 8", ""])
        editor.open(text)
        wrong = {"range": {"start": {"line": -1, "character": 0}, "end": {"line": 0, "character": 0}}, "text": "x"}
        editor.change(wrong)
        assert "params.contentChanges" in editor.news("window/logMessage")["message"]
        editor.change({"range": whole_line(5), "text": "u-add-3-1L b a b 8"})
        assert "all of the text is wanted" in editor.news("window/logMessage")["message"]
        editor.of("documentSymbol")
        assert "\n".join(editor.server.files[URI].lines) == text
        editor.change({"text": text}, {"range": whole_line(5), "text": "u-add-3-1L b b b 8"})
        editor.change({"range": whole_line(4), "text": "input a 0 9"})
        editor.of("documentSymbol")
        assert editor.server.files[URI].document.lines[4:] == ["input a 0 9", "u-add-3-1L b b b 8"]
        editor.write(framed({"method": "textDocument/didChange", "params": {"textDocument": {"uri": "x"}}}))
        editor.news("window/logMessage")
        assert not editor.server.files[URI].is_lost
