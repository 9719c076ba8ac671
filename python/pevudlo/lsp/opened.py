"""A file that is open in an editor, with its document and what was told of it."""

from __future__ import annotations

from collections.abc import Callable, Sequence
from typing import Any, Protocol

from pevudlo.document.document import Document
from pevudlo.document.update import Update
from pevudlo.lsp.failures import INVALID_PARAMS, Failed
from pevudlo.lsp.positions import Letter, Position, Range, laid_out
from pevudlo.progress import PROGRESS, Progress
from pevudlo.wire.peers import Peer


class Given(Protocol):
    """What lines give, where that doesn't come from the file's own document."""

    def look(self, lines: range) -> None:
        """These lines are shown from now on."""

    def label(self, number: int) -> str:
        """The short values of a line."""

    def whole(self, number: int) -> str:
        """What is said of a line where the cursor is in it."""


class Opened:
    """An open file. `lines` is its text, and behind `renew` its document is in step with it.

    `is_old`: the text was changed since. `trouble` says why there is no book, where there is none. `is_lost`: a change
    couldn't be taken in, so that ranges of the text that the editor has are none of this one. `given` says where values
    come from, if they aren't the document's.
    """

    def __init__(self, uri: str, text: str, version: int, begin: Callable[[], Peer], told: Progress = PROGRESS) -> None:
        self.uri, self.version = uri, version
        self._layout = laid_out(text)
        self.document = Document(begin, told)
        self.done = Update()
        self.told: object = None
        # How many lines at the start and at the end no change has touched since the last update that didn't fail.
        self._kept = (0, 0)
        self.is_old, self.is_saved, self.is_lost = True, False, False
        self.trouble = ""
        self.given: Given | None = None

    @property
    def lines(self) -> Sequence[str]:
        """The lines of the text. Behind a line feed at its end there is an empty one."""
        return self._layout.lines

    def change(self, changes: list[dict[str, Any]], version: int) -> None:
        """Takes in what was typed, all of it or nothing. Raises Failed for a range of a text that is lost."""
        layout, (low, high) = self._layout, self._kept
        if self.is_lost and changes and "range" in changes[0]:
            raise Failed(INVALID_PARAMS, "an earlier change wasn't taken in, and all of the text is wanted")
        for change in changes:
            layout = layout.edited(change)
            low, high = min(low, layout.kept[0]), min(high, layout.kept[1])
        self._layout, self._kept, self.version = layout, (low, high), version
        self.is_old, self.is_lost = True, self.is_lost and not changes

    def save(self) -> None:
        """The text is as it is meant: no row is held."""
        self.is_saved = self.is_old = True

    def renew(self) -> None:
        """Brings the document in step. Raises as its update does."""
        lines, (low, high) = self.lines, self._kept
        is_saved, self.is_saved, self.is_old = self.is_saved, False, False
        has_end = lines[-1] == ""
        known = low, high - has_end if high else 0
        self.done = self.document.update_lines(list(lines[:-1] if has_end else lines), not is_saved, known)
        self._kept = len(lines), len(lines)

    def line(self, number: int) -> str:
        """A line of the text that the document has; an empty one behind it."""
        lines = self.document.lines
        return lines[number] if 0 <= number < len(lines) else ""

    # Positions in the text, which are also those of the document once it is in step.

    def place(self, position: Position) -> Letter:
        """The letter at a position."""
        return self._layout.place(position)

    def position(self, number: int, letter: int) -> Position:
        """The position of a letter of a line."""
        return self._layout.position(number, letter)

    def span(self, number: int, start: int = 0, end: int | None = None) -> Range:
        """A part of a line, by its letters; without them all of it."""
        return self._layout.span(number, start, end)

    def range_of(self, asked: Range) -> range:
        """The lines of the document that a range has a part of."""
        (first, _), (last, _) = (self.place(asked[side]) for side in ("start", "end"))
        return range(first, min(last + 1, len(self.document.lines)))

    def row_of(self, number: int) -> int:
        """The first line of the protocol in a line."""
        return self._layout.first(number)
