"""A program that seats edit: its lines, the book that runs it, and what each line gives as far as it is settled."""

from __future__ import annotations

import json
import time
from collections.abc import Callable, Iterable, Sequence
from contextlib import suppress
from dataclasses import dataclass, field
from math import prod
from pathlib import Path

from pevudlo.document.answers import words_of
from pevudlo.document.document import Document
from pevudlo.document.lines import (
    Comment,
    Declaration,
    FormerRow,
    InputData,
    LivingRow,
    Look,
    PassedOver,
    RefusedLine,
    RowTaker,
    line_at,
)
from pevudlo.document.marks import note_on, refusal_text
from pevudlo.draw.visible import visible
from pevudlo.files import why
from pevudlo.lang.keys import axes_of, width_of
from pevudlo.lang.profiles import WORD
from pevudlo.lang.replies import Faults, NoReply, parse
from pevudlo.serve.journal import Entry, Kept, line_of_chapter, line_of_entry, line_of_replies
from pevudlo.serve.limits import Limits, Refused, Size, check_line, check_size, resized, size_of
from pevudlo.serve.lines import Change, Clash, Done, Lines, Op
from pevudlo.serve.turns import Patient
from pevudlo.wire.library import Library
from pevudlo.wire.library_calls import END_NUMBER, START_NUMBER
from pevudlo.wire.pipe import PipeError

MOST_SHOWN = 64
"""So many numbers of a key stand beside a line."""

MOST_NUMBERS = 4_096
"""So many numbers of a key are told where one asks for all of them."""

MOST_UNDONE = 500
"""So many edits of a seat may be taken back."""

DECLARES = ("set ", "field ", "paris ")
"""What lines begin with by which others are larger or smaller."""

MOST_KEYS = 8
"""Of so many keys it is told what a row leaves."""

WAITS = '{"s":"wait"}'
"""What a line gives whose rows have to run first."""

Told = dict[str, object]
Value = tuple[str, int]


@dataclass(frozen=True)
class Edit:
    """What an edit did: its number, what was done to lines, where another one was first, and the ids of new lines."""

    number: int
    done: Sequence[Done]
    clashes: Sequence[Clash]
    put: Sequence[int]


def inverse_of(done: Done) -> Done:
    """What takes back what was done to a line."""
    if done.op is Op.REPLACE:
        return Done(Op.REPLACE, done.id, done.was, was=done.text)
    if done.op is Op.INSERT:
        return Done(Op.DELETE, done.id, after=done.after, was=done.text)
    return Done(Op.INSERT, done.id, done.was, done.after)


@dataclass
class Chapter:
    """A text that a program began anew with, or was left with: when that was."""

    name: str
    time: float
    texts: list[str]


@dataclass
class Standing:
    """What is known of the rows at a moment: those that are unsettled, and those that are refused for their data."""

    unsettled: frozenset[int] = frozenset()
    ran: int = -1
    values: dict[tuple[int, str], tuple[int, str]] = field(default_factory=dict)
    looks: dict[tuple[int, str], str] = field(default_factory=dict)


class Room:
    """A program. `wake` is told its book where rows may be ready, and `keep` each line for the journal.

    `at` is its number among the programs of a server, and `number` that of its last edit.
    """

    def __init__(
        self,
        name: str,
        texts: Sequence[str],
        library: Path,
        wake: Callable[[Patient], None],
        at: int = 0,
        keep: Callable[[str], None] = lambda line: None,
        kept: Kept | None = None,
        begin_book: Callable[[Path], Patient] = Patient,
    ) -> None:
        """With `kept` it goes on from what a journal says. `begin_book` begins a book of the library."""
        self.name, self.at, self.edited = name, at, 0.0
        self.trouble = ""
        self.kept = kept or Kept()
        self.size = self.given = Size(0, 0, 0)
        self.chapters: list[Chapter] = []
        self.locked = set[int]()
        self._library, self._wake, self._keep = library, wake, keep
        self._begin_book, self._by = begin_book, 0
        self._standing = Standing()
        self._document = Document(self._begun, begin_second=lambda: Library(library))
        self._book: Patient | None = None
        # Who changed a line last, with the number of the edit, and what each may take back.
        self._changed: dict[int, dict[int, int]] = {}
        self._own: dict[int, list[Entry]] = {}
        if kept is None:
            self.begin(texts, "the beginning")
        else:
            self._resume()

    def close(self) -> None:
        """Ends the book."""
        self._document.close()

    @property
    def lines(self) -> Lines:
        """The lines of the text."""
        return self.kept.lines

    @property
    def number(self) -> int:
        """The number of the last edit."""
        return self.kept.number

    @property
    def document(self) -> Document:
        """The lines as a document, in step with them."""
        return self._document

    @property
    def book(self) -> Patient:
        """The running book."""
        assert self._book is not None
        return self._book

    # Edits.

    def begin(self, texts: Sequence[str], name: str, by: int = 0) -> None:
        """A new chapter: the program begins anew with a text. The one that it had is kept. Raises OSError."""
        first, number = self.lines.next, self.number + 1
        self._keep(line_of_chapter(self.at, name, texts, first, number, by))
        if self.chapters:
            self.chapters[-1].texts = list(self.lines.texts)
        self.chapters.append(Chapter(name, time.time(), list(texts)))
        self.kept.begin(texts, first, number, by)
        self.given = self.size = size_of(texts)
        self.locked.clear()
        self._changed.clear()
        self._own.clear()
        self._update(by)

    def _resume(self) -> None:
        """Goes on from what a journal says."""
        self.size, self.given = size_of(self.lines.texts), size_of(self.kept.first.texts)
        self.chapters = [Chapter("the beginning", time.time(), list(self.kept.first.texts))]
        for entry in self.kept.entries:
            self._note(entry)
            self.edited = entry.time
        self._update(0, is_again=True)

    def edit(self, changes: Sequence[Change], who: int, name: str, limits: Limits) -> Edit:
        """Does the changes of one edit. Raises Refused, with nothing done, where they are too large."""
        for change in changes:
            check_line(change.text)
        size = self._sized(changes)
        check_size(size, len(self.lines.texts) + len(changes), limits, self.given)
        done, clashes, put = self.lines.take_all(changes, who, name)
        if done:
            # (a line that came second is a comment, and adds no row)
            self.size = self._sized([]) if clashes else size
            self._did(Entry(self.number + 1, time.time(), who, done))
        return Edit(self.number, done, clashes, put)

    def undo(self, who: int, name_of: Callable[[int], str]) -> Edit:
        """Takes the last edit of a seat back, by its inverse. Raises Refused where somebody changed the same since."""
        own = self._own.get(who)
        if not own:
            raise Refused("there is nothing of yours to take back")
        entry = own[-1]
        for done in entry.done:
            self._check_own(done, entry, name_of)
        inverse = self.lines.repeat_all([inverse_of(done) for done in reversed(entry.done)], who)
        self.size = size_of(self.lines.texts)
        self._did(Entry(self.number + 1, time.time(), who, inverse, is_undo=True))
        return Edit(self.number, inverse, [], [])

    def repeat(self, entry: Entry) -> None:
        """Does again what a journal says. Raises Refused where that can't be kept."""
        self.lines.repeat_all(entry.done, entry.by)
        self.size = size_of(self.lines.texts)
        self._did(entry)

    def _check_own(self, done: Done, entry: Entry, name_of: Callable[[int], str]) -> None:
        """Raises Refused where another one has changed a line since an edit."""
        since = {by: at for by, at in self._changed.get(done.id, {}).items() if at > entry.number and by != entry.by}
        if since:
            by = max(since, key=lambda each: since[each])
            raise Refused(f"{name_of(by)} has changed the same line since: {(done.text or done.was)[:200]}")

    def _did(self, entry: Entry) -> None:
        """Keeps what was done, and brings the book in step. Raises Refused, with nothing done, where that can't be."""
        try:
            self._keep(line_of_entry(self.at, entry))
        except OSError as error:
            self.lines.repeat_all(map(inverse_of, reversed(entry.done)), entry.by)
            self.size = size_of(self.lines.texts)
            raise Refused(f"nothing is done, since the journal can't be written: {why(error)}") from error
        self.kept.number = entry.number
        self.kept.entries.append(entry)
        self._note(entry)
        self.edited = entry.time
        self._update(entry.by)

    def _note(self, entry: Entry) -> None:
        """Notes who changed what."""
        for done in entry.done:
            self._changed.setdefault(done.id, {})[entry.by] = entry.number
        own = self._own.setdefault(entry.by, [])
        if not entry.is_undo:
            own.append(entry)
            del own[:-MOST_UNDONE]
        elif own:
            own.pop()

    def _sized(self, changes: Sequence[Change]) -> Size:
        """How large the program is after some changes, as far as it goes by the lines that are changed."""
        at_lines = {change.id: self.lines.at(change.id) for change in changes if change.op is not Op.INSERT}
        olds = [self.lines.texts[at] for at in at_lines.values() if at is not None]
        news = [change.text for change in changes if change.op is not Op.DELETE]
        if changes and not any(line.startswith(DECLARES) for line in [*olds, *news]):
            return resized(self.size, self._document.book.board, olds, news)
        texts = dict(zip(self.lines.ids, self.lines.texts))
        for at, change in enumerate(changes):
            if change.op is Op.DELETE:
                texts.pop(change.id, None)
            else:
                texts[change.id if change.op is Op.REPLACE else -1 - at] = change.text
        return size_of(list(texts.values()))

    def _update(self, by: int, is_again: bool = False) -> None:
        """Brings the book in step with the lines, which somebody has edited."""
        self._by = by
        if self._book is not None:
            self._book.by = by
        try:
            self._document.update_lines(list(self.lines.texts))
            self.trouble = ""
        except (PipeError, NoReply, MemoryError) as error:
            self.trouble = str(error)
        self._keep_replies(is_again)
        self._standing.looks.clear()
        self._standing.ran = -1
        if self._book is not None and self._book.is_open:
            self._wake(self._book)

    def _keep_replies(self, is_again: bool) -> None:
        """Keeps what the book has replied to an edit. Where the journal can't be written the next edit is refused."""
        replies = None if self._book is None else self._book.replies()
        if replies or (replies is not None and is_again):
            with suppress(OSError):
                self._keep(line_of_replies(self.at, self.number, replies, is_again))

    def _begun(self) -> Patient:
        """Another book, with nothing declared."""
        self._book = self._begin_book(self._library)
        self._book.by = self._by
        self._standing = Standing()
        return self._book

    # What is seen.

    @property
    def is_settled(self) -> bool:
        """Whether all rows are settled, as it was seen last."""
        return not self._standing.unsettled and not self.trouble

    @property
    def left(self) -> int:
        """How many rows were unsettled when it was looked last."""
        return len(self._standing.unsettled)

    def look(self) -> None:
        """Sees which rows are settled by now."""
        if self.trouble or not self.book.is_open:
            return
        ran = self.book.ran
        if ran == self._standing.ran:
            return
        self.book.see()
        self._standing.unsettled, self._standing.ran = frozenset(self.book.unsettled()), ran
        reply = parse(self.book.ask("faults"))
        found = reply.faults if isinstance(reply, Faults) else ()
        self._document.book.faults = {fault.row: fault for fault in found}

    @property
    def faults(self) -> int:
        """How many rows are refused for their data."""
        return 0 if self.trouble else len(self._document.book.faults)

    @property
    def refused(self) -> int:
        """How many lines are refused."""
        shown = self._document.shown
        return 0 if self.trouble else sum(bool(shown[at].refused) for at in self._document.told_lines)

    def gives(self, ids: Iterable[int]) -> dict[int, str]:
        """What some lines give, as JSON, by their ids: those that are there."""
        places = ((number, self.lines.at(number)) for number in ids)
        return {number: self._gives(at) for number, at in places if at is not None}

    def values_of(self, number: int) -> list[Value]:
        """The values that the line of an id stands for: keys, each with the number of a place."""
        at = self.lines.at(number)
        line = None if at is None or self.trouble else line_at(self._document, at)
        if isinstance(line, Look):
            return [(line.key, START_NUMBER if line.anchor is None else line.anchor.book)]
        if isinstance(line, LivingRow):
            keys = self._document.book.board.keys_written(line.row.text)[:MOST_KEYS]
            return [(key, line.row.book) for key in keys]
        return []

    def _gives(self, at: int) -> str:
        """What the line of an index gives, as JSON."""
        if self.trouble:
            return json.dumps({"s": "refused", "t": visible(self.trouble)})
        document, line = self._document, line_at(self._document, at)
        match line:
            case LivingRow(row):
                return self._of_row(row.book, row.text)
            case Look(key, anchor):
                return self._of_look(key, START_NUMBER if anchor is None else anchor.book)
            case RefusedLine():
                return json.dumps({"s": "refused", "t": visible(refusal_text(document, at))})
            case FormerRow() | RowTaker():
                return json.dumps({"s": "gone", "t": words_of(line, lambda number: f"line {number + 1}")})
            case PassedOver():
                return json.dumps({"s": "passed"})
            case InputData():
                note = note_on(document, at)
                return json.dumps({"s": "note", "t": visible(note)}) if note else "{}"
            case Declaration() | Comment():
                return "{}"

    def _of_row(self, row: int, text: str) -> str:
        """What a row leaves, or that it is unsettled, or why it stores nothing."""
        if row in self._standing.unsettled:
            return WAITS
        document = self._document
        if row in document.book.faults:
            return json.dumps({"s": "fault", "t": visible(document.book.cause(document.rows[self._place(row)]))})
        edition, known = document.book.editions.get(row, 0), self._standing.values.get((row, text))
        if known is not None and known[0] == edition:
            return known[1]
        values = [self._value(key, row) for key in document.book.board.keys_written(text)[:MOST_KEYS]]
        if any(value is None for value in values):
            return WAITS
        told = json.dumps({"s": "row", "v": values}, separators=(",", ":"))
        self._standing.values[row, text] = edition, told
        return told

    def _place(self, row: int) -> int:
        """Which row of the document has this id."""
        return next(at for at, each in enumerate(self._document.rows) if each.book == row)

    def _of_look(self, key: str, row: int) -> str:
        """What a look sees."""
        known = self._standing.looks.get((row, key))
        if known is None:
            value = self._value(key, row)
            if value is None:
                return WAITS
            known = json.dumps({"s": "look", "v": [value]}, separators=(",", ":"))
            self._standing.looks[row, key] = known
        return known

    def numbers(self, key: str, row: int) -> Sequence[int] | None:
        """The numbers of a key behind a row, 0 for the start. None where they are pending."""
        board = self._document.book.board
        told = self.book.look(key, row, prod(axes_of(board, key)), width_of(board, key) > WORD)
        return None if isinstance(told, int) else told

    def _value(self, key: str, row: int, most: int = MOST_SHOWN) -> list[object] | None:
        """A key's name, width, axes, and first numbers, as they are told. None where they are pending."""
        numbers, board = self.numbers(key, row), self._document.book.board
        if numbers is None:
            return None
        return [key, width_of(board, key), list(axes_of(board, key)), " ".join(map(str, numbers[:most]))]

    def whole(self, number: int, key: str) -> Told:
        """The numbers of a key that a line gives, as far as they are told at once."""
        at = self.lines.at(number)
        shown = None if at is None or self.trouble else self._document.shown[at]
        if shown is None or shown.refused or self._document.book.board.set_of(key) is None:
            return {"value": None}
        row = shown.row or shown.anchor
        return {"value": self._value(key, START_NUMBER if row is None else row.book, MOST_NUMBERS), "at": self.number}

    def seen(self, at: int | None) -> Sequence[int] | None:
        """What the look in the line of an index sees, where it is one and settled."""
        shown = None if at is None or self.trouble else self._document.shown[at]
        if shown is None or shown.refused or not shown.key:
            return None
        numbers = self.numbers(shown.key, START_NUMBER if shown.anchor is None else shown.anchor.book)
        return None if numbers is None else list(numbers)

    def end(self, key: str) -> Sequence[int] | None:
        """What a key holds at the end, where that is settled."""
        return self.numbers(key, END_NUMBER)

    def text(self) -> Told:
        """The whole text, as a seat is told it."""
        lines = self.lines
        told = [[number, text, lines.by[number]] for number, text in zip(lines.ids, lines.texts)]
        return {"name": self.name, "n": self.number, "lines": told}
