"""The running book of a document: its rows and input data are brought in step with a meaning."""

from __future__ import annotations

from collections.abc import Callable, Iterable, Sequence
from math import prod
from typing import TypeVar

from pevudlo.document.differences import aligned, differing_ranges, ends, matched
from pevudlo.document.meaning import FileRow, Hunk, Shown
from pevudlo.document.pieces import DECLARING, HEADING, Kind, Piece
from pevudlo.document.update import Update
from pevudlo.document.verdicts import NewBook, Verdicts, refusal_in
from pevudlo.hints.explanation import Refusal
from pevudlo.hints.meanings import Where
from pevudlo.lang.board import Board
from pevudlo.lang.causes import causes
from pevudlo.lang.grammar import PROFILE_COMMAND
from pevudlo.lang.instructions import may_be_refused
from pevudlo.lang.keys import axes_of
from pevudlo.lang.profiles import USUAL
from pevudlo.lang.replies import NoReply, Ok, Reply, RowAdded, RowFault, Settled
from pevudlo.record.numbers import Numbers
from pevudlo.record.looks import Looker
from pevudlo.talk import Talk
from pevudlo.values.shaped import input_lines
from pevudlo.wire.library import Library
from pevudlo.wire.peers import Peer, inner_of

Kept = TypeVar("Kept", bound=Reply)
MOST_SAID = 60
"""How many letters of a line are said."""

LOST = "the book's rows weren't the file's"

MOST_EDITS = 256
"""More edits of rows than these cost more than a new book."""


class Book:
    """A book, and a second one with the same declarations that gives the verdicts.

    Both are told a profile first, whether the text says one or not, so that no line behind it may choose it.
    """

    def __init__(self, begin: Callable[[], Peer], begin_second: Callable[[], Peer]) -> None:
        self.peer, self._second = begin(), begin_second()
        self.talk = Talk(self.peer, Where.FILE)
        self.board = self.talk.board
        self.verdicts = Verdicts(self._second, self.board)
        self.faults: dict[int, RowFault] = {}
        # The rows that may be refused for their data, by their ids. None where that isn't known yet.
        self._by_address: set[int] | None = None
        # A number for each row, which is another one once the row was touched.
        self.editions: dict[int, int] = {}
        self.refused: dict[int, str] = {}
        self.header = ""
        self._looker = Looker(inner_of(self.peer), self.board)
        self._edits: int | None = None
        self._listed: list[str] = []
        self._rows: Sequence[FileRow] = []
        self._inputs: dict[str, list[str]] = {}

    def close(self) -> None:
        """Ends both."""
        self.peer.close()
        self._second.close()

    # What is told.

    def begin(self, pieces: Sequence[Piece]) -> list[str]:
        """Tells whole lines as a fresh run has them, in one write, and gives those that change something."""
        told = told_first(pieces)
        lines = [f"show {piece.key} end" if piece.kind is Kind.SHOW else piece.line for piece in told]
        has_header = any(piece.kind is Kind.PROFILE for piece in told[:1])
        first = [] if has_header else [profile_line(USUAL)]
        replies = [reply[0] for reply in self.peer.ask_all([*first, *lines])][len(first) :]
        for piece, reply in zip(told, replies):
            if piece.kind in HEADING:
                self.board.note(piece.line, reply)
        self.header = refusal_in(replies[0]) if has_header else ""
        declared = [(piece, refusal_in(reply)) for piece, reply in zip(told, replies) if piece.kind in DECLARING]
        accepted = [piece.line for piece, refused in declared if not refused]
        self._second.ask_all([profile_line(self.board.profile), *accepted])
        self.refused = {at: refused for at, (_, refused) in enumerate(declared) if refused}
        above: set[str] = set()
        for piece, reply in zip(told, replies):
            self.verdicts.note(piece, above, reply)
            if piece.kind in DECLARING and not refusal_in(reply):
                above.add(piece.name)
            if piece.kind is Kind.INPUT and not refusal_in(reply):
                self._inputs.setdefault(piece.key, []).append(piece.line)
        return [line for piece, line in zip(told, lines) if piece.kind is not Kind.SHOW]

    def declare(self, lines: Sequence[str], done: Update) -> None:
        """Tells both books further declarations."""
        for line in lines:
            self._tell(line, Ok, done)
            self._second.ask(line)
        if lines:
            self.verdicts.forget_names()

    def to_rows(self, old: Sequence[FileRow], new: Sequence[FileRow], hunk: Hunk | None, done: Update) -> bool:
        """Sends the edits that make these rows of the old ones. Whether a row was taken out."""
        hunk = hunk or same_ends(old, new)
        gone, put = old[hunk.start : hunk.end], new[hunk.start : hunk.new_end]
        for at, to in matched([row.text for row in gone], [row.text for row in put]):
            put[to].book = gone[at].book
        replaced = pairs(gone, put)
        kept = {row.book for row in put} | {row.book for row, _ in replaced}
        left_out = [row for row in gone if row.book not in kept]
        others = len(left_out) + sum(not row.book for row in put)
        if others > MOST_EDITS:
            raise NewBook(f"{others:,} rows are others")
        for row in left_out:
            self._tell(f"delete {row.book}", Ok, done)
            self.editions.pop(row.book, None)
        for row, other in replaced:
            self._tell(f"replace {row.book} {other.text}", Ok, done)
            other.book = row.book
        last = new[hunk.start - 1].book if hunk.start else 0
        for row in put:
            if not row.book:
                place = f"after {last}" if last else "start"
                row.book = self._tell(f"insert {place} {row.text}", RowAdded, done).row
            last = row.book
        if self._by_address is not None:
            self._by_address -= {row.book for row in gone}
            self._by_address |= ids_by_address(put)
        return bool(left_out)

    def to_inputs(self, inputs: Iterable[Shown], done: Update) -> None:
        """Gives each key the input data that these lines say, as far as it is other than what it was told."""
        wanted: dict[str, list[str]] = {}
        for each in inputs:
            wanted.setdefault(each.key, []).append(each.piece.line)
        for key in [*wanted, *self._inputs.keys() - wanted.keys()]:
            have, want = self._inputs.get(key, []), wanted.get(key, [])
            if have != want:
                before, after = self._overlaid(key, have), self._overlaid(key, want)
                for part in differing_ranges(before, after):
                    for line in input_lines(key, part.start, after[part.start : part.stop]):
                        self._tell(line, Ok, done)
        self._inputs = wanted

    def settle(self, rows: Sequence[FileRow], done: Update, is_saved: bool = True) -> None:
        """Settles all rows, and sees which were touched. Raises NewBook where the book's rows aren't these.

        The rows of a text that is saved are always compared, and those of one that is typed where something was sent.
        """
        done.rows = len(rows)
        done.count = self.talk.ask("settle", Settled).count
        if done.sent or done.count or is_saved:
            inner = inner_of(self.peer)
            touched = self._ask(inner, len(done.sent)) if isinstance(inner, Library) else self._list(rows)
            done.touched = frozenset(touched)
        if (done.sent or done.count) and self._may_have_faults(rows, done):
            self.faults = {fault.row: fault for fault in self.talk.faults()}

    def _may_have_faults(self, rows: Sequence[FileRow], done: Update) -> bool:
        """Whether rows are refused for their data now, or were before an update: others than before alone may be."""
        if self._by_address is None:
            self._by_address = ids_by_address(rows)
        return bool(self.faults) or not self._by_address.isdisjoint(done.touched)

    # What is seen.

    def look(self, key: str, anchor: FileRow | None) -> Numbers:
        """The numbers of a key behind a row, or at the start. All rows are settled."""
        look = self._looker.look(key, "start" if anchor is None else f"after {anchor.book}")
        if look.numbers is None:
            raise NoReply(f"row {look.pending} is unsettled behind a settle")
        return look.numbers

    def origin(self, key: str, last: FileRow) -> int | None:
        """The id of the row that gives a key its value behind a row, 0 for the start. None where only a walk tells."""
        inner = inner_of(self.peer)
        return inner.origin(key, last.book) if isinstance(inner, Library) else None

    def cause(self, row: FileRow) -> str:
        """Why a row is refused for its data, in words."""
        board = Board(self.board.sets, self.board.fields, texts={row.book: row.text})
        return causes([self.faults[row.book]], board, self.talk.look)[row.book]

    def _tell(self, line: str, kind: type[Kept], done: Update) -> Kept:
        """Tells a command that has to be accepted, and gives its reply. Raises NewBook where it is refused."""
        done.sent.append(line)
        try:
            return self.talk.ask(line, kind)
        except Refusal as refusal:
            raise NewBook(f"`{short_line(line)}` is refused: {refusal.text}") from refusal

    def _overlaid(self, key: str, lines: Sequence[str]) -> list[int]:
        """The numbers that input lines leave, later ones over earlier ones, and all over what a set begins with."""
        numbers = [int(key.endswith(".context"))] * prod(axes_of(self.board, key))
        for line in lines:
            _, _, first, *values = line.split(" ")
            numbers[int(first) : int(first) + len(values)] = map(int, values)
        return numbers

    def _ask(self, library: Library, sent: int) -> list[int]:
        """The ids of the rows that edits touched since they were asked for. Nobody else may have edited the book."""
        touched, edits = library.touched(self._edits or 0)
        if self._edits not in (None, edits - sent):
            raise NewBook(LOST)
        self._edits = edits
        self.editions.update(dict.fromkeys(touched, edits))
        return touched

    def _list(self, rows: Sequence[FileRow]) -> list[int]:
        """The ids of the rows of a new edition since the last list. The book's list has to be that of these rows."""
        listed = self.peer.ask("list")[1:]
        if len(listed) != len(rows):
            raise NewBook(LOST)
        low, high = ends(self._listed, listed)
        end = len(rows) - high
        if rows[:low] != self._rows[:low] or rows[end:] != self._rows[len(self._rows) - high :]:
            low, end = 0, len(rows)
        touched: list[int] = []
        for line, row in zip(listed[low:end], rows[low:end]):
            number, _, edition, _, text = line.split(" ", 4)
            if (number, text) != (str(row.book), row.text):
                raise NewBook(LOST)
            if self.editions.get(row.book) != int(edition):
                self.editions[row.book] = int(edition)
                touched.append(row.book)
        self._listed, self._rows = listed, rows
        return touched


def profile_line(profile: int) -> str:
    """The command that chooses a profile."""
    return f"{PROFILE_COMMAND} {profile}"


def told_first(pieces: Sequence[Piece]) -> list[Piece]:
    """What a new book is told: all that changes something, and one look at a key between two declarations."""
    told: list[Piece] = []
    looked: set[str] = set()
    for piece in pieces:
        if piece.kind in DECLARING:
            looked.clear()
        if piece.kind not in (Kind.NOTHING, Kind.TIME) and not (piece.kind is Kind.SHOW and piece.key in looked):
            told.append(piece)
        if piece.kind is Kind.SHOW:
            looked.add(piece.key)
    return told


def same_ends(old: Sequence[FileRow], new: Sequence[FileRow]) -> Hunk:
    """Where rows differ. Those that stand before and behind that are the same in the book."""
    low, high = ends([row.text for row in old], [row.text for row in new])
    hunk = Hunk(low, len(old) - high, len(new) - high)
    for one, other in [*zip(old[:low], new[:low]), *zip(old[hunk.end :], new[hunk.new_end :])]:
        other.book = one.book
    return hunk


def ids_by_address(rows: Iterable[FileRow]) -> set[int]:
    """The ids of the rows that may be refused for their data."""
    return {row.book for row in rows if may_be_refused(row.text)}


def pairs(gone: Sequence[FileRow], put: Sequence[FileRow]) -> list[tuple[FileRow, FileRow]]:
    """Old rows that become new ones, between the rows that stay."""
    found: list[tuple[FileRow, FileRow]] = []
    places = {row.book: at for at, row in enumerate(gone)}
    start = to = 0
    for end in [*(at for at, row in enumerate(put) if row.book), len(put)]:
        stop = places[put[end].book] if end < len(put) else len(gone)
        olds, news = gone[start:stop], put[to:end]
        if olds and news:
            both = aligned([row.text for row in olds], [row.text for row in news])
            found += ((olds[one], news[other]) for one, other in both)
        start, to = stop + 1, end + 1
    return found


def short_line(line: str) -> str:
    """A line, cut where it is long."""
    return line if len(line) <= MOST_SAID else line[: MOST_SAID - 3] + "..."
