"""A text that is held in step with a running book: `Document.update(text)`.

A file says what a program is: declarations, input data, rows. Its lines are commands of scripts, and an instruction may
stand alone, for `insert end` of it. What a line says of when rows run is passed over: behind every update all of them
are settled. All numbers and all refusals are replies of the program.
"""

from __future__ import annotations

from collections.abc import Callable, Container
from dataclasses import replace

from pevudlo.document.book import Book, short_line
from pevudlo.document.differences import Pair, ends
from pevudlo.document.meaning import FileRow, Meaning, Reader, Shown, spliced
from pevudlo.document.pieces import (
    DECLARING,
    FIRM,
    HEADING,
    Kind,
    first_command,
    header_of,
    piece_of,
    pieces_of,
)
from pevudlo.document.states import Mark
from pevudlo.document.update import Update
from pevudlo.document.verdicts import NO_ROW, NewBook
from pevudlo.files import lines_of_text
from pevudlo.hints.explanation import SYNTAX, Explanation, explained
from pevudlo.hints.meanings import Where
from pevudlo.lang.board import Board
from pevudlo.lang.faults import FAULTS
from pevudlo.lang.grammar import wrong_column
from pevudlo.lang.replies import NoReply, Refused, parse
from pevudlo.progress import PROGRESS, Progress
from pevudlo.record.numbers import Numbers
from pevudlo.wire.peers import Peer, peer_of
from pevudlo.wire.pipe import PipeError

Seen = tuple[int, Numbers]
"""What was seen of a key behind a row, with the row's edition."""


def library_or_program() -> Peer:
    """A peer with nothing declared: the library where it is there, else the program. Raises NotFound."""
    return peer_of(None, is_large=True)


class Document:
    """A text in step with a book.

    `begin` starts a peer with nothing declared, and `begin_second` another one, which gives verdicts alone. `told` is
    told what an update does.
    """

    def __init__(
        self,
        begin: Callable[[], Peer] = library_or_program,
        told: Progress = PROGRESS,
        begin_second: Callable[[], Peer] | None = None,
    ) -> None:
        self.meaning, self.told = Meaning(), told
        self._begin, self._begin_second = begin, begin_second or begin
        self._book: Book | None = None
        self._declared: list[str] = []
        self._why = "the first text"
        self._typed: tuple[list[str], list[Shown]] | None = None
        self._looks: dict[tuple[int, str], Seen] = {}
        self._before: dict[tuple[int, str], Numbers] = {}
        # The marks of rows that weren't touched, with the row's edition and how long their values are.
        self.marks: dict[int, tuple[tuple[int, int], Mark]] = {}

    def __enter__(self) -> Document:
        return self

    def __exit__(self, *_: object) -> None:
        self.close()

    def close(self) -> None:
        """Ends the book. A further update begins a new one."""
        self._why = self._why or "the book was closed"
        if self._book is not None:
            self._book.close()

    # Updates.

    def update(self, text: str, hold: bool = False) -> Update:
        """Takes a new text, sends what leads to it, and settles the rows.

        With `hold`, a line that was a row and is refused now, since it is being typed, keeps the row that it was. One
        that declared something and isn't in the grammar now keeps what it declared.
        Where the program ends it is begun anew, once. Raises PipeError where that ends too, and NotFound.
        """
        return self.update_lines(lines_of_text(text), hold)

    def update_lines(self, lines: list[str], hold: bool = False, known: Pair = (0, 0)) -> Update:
        """As `update`, of a text that is cut into lines.

        So many lines at its start and at its end are `known` to be those of the present text.
        """
        with self.told:
            return self._update(lines, hold, known)

    def _update(self, lines: list[str], hold: bool, known: Pair) -> Update:
        """As `update_lines`."""
        done = Update()
        told = self._as_declared(lines, known) if hold else lines
        if told is not lines or self._typed is not None:
            # What the book was told, or is to be, isn't the text.
            known = (0, 0)
        why, self._why = self._why, "the last update was stopped"
        try:
            if why or self._book is None:
                raise NewBook(why)
            self._step(self._book, told, hold, done, known)
            typed = self._see_typed(lines)
        except (NewBook, PipeError) as error:
            done = self._afresh(told, str(error))
            typed = self._see_typed(lines)
        self._why, done.held = "", tuple(sorted({*self.meaning.held, *typed}))
        return done

    def _as_declared(self, lines: list[str], known: Pair) -> list[str]:
        """A text whose declarations are as they were where they are half typed: in the grammar before, and not now."""
        had, was = self.lines, self.meaning.lines
        low, high = ends(had, lines, known)
        olds, news = self.meaning.shown[low : len(was) - high], lines[low : len(lines) - high]
        if self._typed is None and not any(old.kind in HEADING for old in olds):
            return lines
        first = first_command(lines)
        if len(olds) == len(news):
            both = enumerate(zip(olds, news), low)
            news = [was[at] if is_half_typed(old, new, at == first) else new for at, (old, new) in both]
        return [*was[:low], *news, *was[len(was) - high :]]

    def _see_typed(self, lines: list[str]) -> list[int]:
        """Sees why the lines that are half typed are refused, and says which they are."""
        told, self._typed = self.meaning.lines, None
        if told is lines:
            return []
        typed = [at for at, (line, as_told) in enumerate(zip(lines, told)) if line != as_told]
        if typed:
            shown, first = self.meaning.shown.copy(), first_command(lines)
            for at in typed:
                piece = piece_of(lines[at])
                column = wrong_column(lines[at], is_first=True) if at == first else None
                refused = f"refused {SYNTAX} {column}" if column else self.book.verdicts.of(piece, frozenset())
                shown[at] = Shown(piece, refused)
            self._typed = lines, shown
        return typed

    def _step(self, book: Book, lines: list[str], hold: bool, done: Update, known: Pair) -> None:
        """Leads the book to a text by edits. Raises NewBook where that can't be."""
        if header_of(lines) != header_of(self.meaning.lines):
            raise NewBook("the command for the profile is changed, new or gone")
        same = ends(self.meaning.lines, lines, known)
        declared, added = self._declarations(lines, same)
        book.declare(added, done)
        meaning = None
        if not added and (hold or not self.meaning.is_held):
            above = {*book.board.sets, *book.board.fields}
            meaning = spliced(self.meaning, lines, same, book.verdicts, above, hold)
        if meaning is None:
            meaning = Reader(book.verdicts, book.refused, book.header).read(lines)
        are_gone = book.to_rows(self.meaning.rows, meaning.rows, meaning.hunk, done)
        if meaning.has_inputs:
            book.to_inputs(meaning.inputs, done)
        self.meaning, self._declared = meaning, declared
        self.told.say("settles rows")
        book.settle(meaning.rows, done, is_saved=not hold)
        if are_gone:
            self._forget(book.editions)

    def _forget(self, present: Container[int]) -> None:
        """Drops what was seen of rows that are gone."""
        self._looks = {at: seen for at, seen in self._looks.items() if at[0] in present}
        self._before = {at: numbers for at, numbers in self._before.items() if at[0] in present}
        self.marks = {row: mark for row, mark in self.marks.items() if row in present}

    def _declarations(self, lines: list[str], same: tuple[int, int]) -> tuple[list[str], list[str]]:
        """The declarations of a text, and those that come to the present ones. `same` are the lines at both ends."""
        is_below = same[0] >= self.meaning.head
        if is_below and not declarations_in(lines[same[0] : len(lines) - same[1]]):
            return self._declared, []
        declared = declarations_in(lines)
        return declared, self._added(declared)

    def _added(self, declared: list[str]) -> list[str]:
        """The declarations that come to the present ones. Raises NewBook where others want a new book."""
        rest = iter(declared)
        added: list[str] = []
        for old in self._declared:
            for new in rest:
                if new == old:
                    break
                added.append(new)
            else:
                raise NewBook(f"`{short_line(old)}` is changed or gone, or stands elsewhere")
        added += rest
        if added and any(shown.refused for shown in self.meaning.shown if shown.kind in DECLARING):
            raise NewBook("a declaration was refused")
        known: set[str] = set()
        for piece in map(piece_of, declared if added else ()):
            if not piece.names <= known:
                raise NewBook(f"`{short_line(piece.line)}` stands above its set")
            known.add(piece.name)
        return added

    def _afresh(self, lines: list[str], why: str) -> Update:
        """A new book, to which the lines are told as they stand: a fresh run of the text."""
        self.close()
        self._looks.clear()
        self.marks.clear()
        self._before.clear()
        book = self._book = Book(self._begin, self._begin_second)
        done = Update(fresh=why)
        self.told.say(f"tells {len(lines):,} lines")
        done.sent = book.begin(pieces_of(lines))
        try:
            meaning = Reader(book.verdicts, book.refused, book.header).read(lines)
            for number, row in zip(meaning.ids, meaning.rows):
                row.book = number
            self.told.say(f"settles {len(meaning.rows):,} row{'s' * (len(meaning.rows) != 1)}")
            book.settle(meaning.rows, done)
        except NewBook as error:
            raise NoReply(f"a fresh run isn't what the text means: {error}") from error
        self.meaning, self._declared = meaning, declarations_in(lines)
        return done

    # What is seen.

    @property
    def book(self) -> Book:
        """The running book. Raises ValueError before the first text."""
        if self._book is None:
            raise ValueError("there is no text yet")
        return self._book

    @property
    def is_in_step(self) -> bool:
        """Whether the book is that of the text: not so before the first text, and where the last update was stopped."""
        return not self._why

    @property
    def lines(self) -> list[str]:
        """The lines of the text."""
        return self.meaning.lines if self._typed is None else self._typed[0]

    @property
    def shown(self) -> list[Shown]:
        """What each line is."""
        return self.meaning.shown if self._typed is None else self._typed[1]

    @property
    def told_lines(self) -> list[int]:
        """The lines of which something may be told beside values, in their order."""
        if self._typed is None:
            return self.meaning.told_lines
        return [at for at, shown in enumerate(self.shown) if shown.may_be_told]

    @property
    def rows(self) -> list[FileRow]:
        """The rows in program order."""
        return self.meaning.rows

    def explanation(self, number: int) -> Explanation | None:
        """Why the line of this index is refused."""
        shown = self.shown[number]
        if not shown.refused:
            return None
        refused = parse([shown.refused])
        assert isinstance(refused, Refused)
        told = explained(shown.piece.line, refused, self.board_above(number), Where.FILE)
        column = told.column and told.column - shown.piece.shift
        text = FAULTS[SYNTAX].words(column) if column else told.text
        return replace(told, text=text, line=self.lines[number], detail=column or told.detail, column=column)

    def stays(self, number: int) -> str:
        """What a line is for now, where it is refused and held: its row, or its declaration. Else nothing."""
        row, told = self.shown[number].row, self.meaning.shown[number]
        if self.shown[number].refused and row is not None:
            return f"the row stays `{row.text}`"
        return f"`{told.piece.line}` stays" if self.shown[number] is not told else ""

    def board_above(self, number: int) -> Board:
        """What is declared above a line, and the rows by the ids of a fresh run where the line has lost its row."""
        board, count = Board(), 0
        is_of_rows = number < len(self.shown) and self.shown[number].refused == NO_ROW
        for each in self.meaning.shown[: number if is_of_rows else min(number, self.meaning.head)]:
            if each.refused or each.kind not in (Kind.PROFILE, *FIRM, Kind.ROW):
                continue
            count += each.kind is Kind.ROW
            if is_of_rows or each.kind in HEADING:
                board.note(each.piece.line, f"row {count}" if each.kind is Kind.ROW else "ok")
        first = first_command(self.lines)
        board.is_begun = first is not None and first < number
        return board

    def written(self, row: FileRow) -> dict[str, Numbers]:
        """What a row leaves in the keys that it writes. It is asked once for each edition of the row."""
        edition, found = self.book.editions[row.book], dict[str, Numbers]()
        for key in self.book.board.keys_written(row.text):
            at = row.book, key
            kept = self._looks.get(at)
            if kept is None or kept[0] != edition:
                if kept is not None:
                    self._before[at] = kept[1]
                kept = self._looks[at] = edition, self.book.look(key, row)
            found[key] = kept[1]
        return found

    def earlier(self, row: FileRow, key: str) -> Numbers | None:
        """What was seen of a key behind a row before it was touched last."""
        return self._before.get((row.book, key))


def is_half_typed(old: Shown, new: str, is_first: bool) -> bool:
    """Whether a line declared something, and is none of the grammar now. `is_first`: it is the first command."""
    is_wrong = piece_of(new).kind is Kind.WRONG and wrong_column(new, is_first) is not None
    return is_wrong and old.kind in HEADING and not old.refused


def declarations_in(lines: list[str]) -> list[str]:
    """The lines that declare something, refused or not."""
    return [line for line in lines if line.startswith(("set ", "field ")) and piece_of(line).kind in DECLARING]
