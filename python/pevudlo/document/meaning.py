"""What a text means: rows, input data and looks, read from above to below as a fresh run takes its lines."""

from __future__ import annotations

from bisect import bisect_left
from collections.abc import Mapping, Sequence
from dataclasses import dataclass, field
from enum import Enum
from typing import NamedTuple

from pevudlo.document.pieces import DECLARING, HEADING, Kind, Piece, piece_of, pieces_of
from pevudlo.document.verdicts import NO_ROW, ROWS_FULL, Verdicts
from pevudlo.lang.grammar import wrong_column
from pevudlo.lang.order import RowOrder

MOST_ROWS = 4_096


@dataclass(eq=False, slots=True)
class FileRow:
    """A row that a text means. `book` is its id in the running book, 0 where that doesn't have it yet."""

    text: str
    book: int = 0
    is_alive: bool = True


class Change(Enum):
    """What became of a row further down in the text."""

    TAKEN_OUT = "taken out"
    REPLACED = "replaced"


class Former(NamedTuple):
    """What became of the row that a line says, and the line further down that took it out or replaced it."""

    change: Change
    by: int


class Shown(NamedTuple):
    """What a line is: its piece, its refusal where it has one, and the row of the program that it says.

    No row is said by two lines. Where a line further down took the row out or replaced it, `former` says so, and there
    is no `row`. `anchor` is the row behind which a look is taken, or a former row stood, None for the start. `taken` is
    the line whose row a `delete` takes out.
    """

    piece: Piece
    refused: str = ""
    row: FileRow | None = None
    anchor: FileRow | None = None
    former: Former | None = None
    taken: int | None = None

    @property
    def kind(self) -> Kind:
        """What kind of line it is."""
        return self.piece.kind

    @property
    def key(self) -> str:
        """The key of a look or of input data."""
        return self.piece.key

    @property
    def may_be_told(self) -> bool:
        """Whether something may be told of it beside values: it is refused, is input data, or does nothing any more."""
        return bool(self.refused) or self.former is not None or self.kind in (Kind.INPUT, Kind.TIME)


class Hunk(NamedTuple):
    """Where two lists of rows differ: from `start` on, up to `end` in the old one and `new_end` in the new one."""

    start: int
    end: int
    new_end: int


@dataclass
class Meaning:
    """What lines mean. `ids` are those that a fresh run gives the rows, where all lines were read.

    `head` is how many lines there are up to the last declaration, or the profile where there is none. `row_lines` are
    those that have a row, and `told_lines` those of which something may be told beside values. `hunk` says where the
    rows are others than before, where that is known, and `has_inputs` whether input data may be.
    `is_held`: a refused line keeps its old row. `is_full`: a row is refused since there are too many.
    """

    lines: list[str] = field(default_factory=list)
    shown: list[Shown] = field(default_factory=list)
    rows: list[FileRow] = field(default_factory=list)
    ids: list[int] = field(default_factory=list)
    head: int = 0
    row_lines: list[int] = field(default_factory=list)
    told_lines: list[int] = field(default_factory=list)
    is_straight: bool = False
    is_held: bool = False
    is_full: bool = False
    has_inputs: bool = True
    hunk: Hunk | None = None

    @property
    def inputs(self) -> list[Shown]:
        """The lines of input data that aren't refused."""
        told = [self.shown[at] for at in self.told_lines]
        return [each for each in told if each.kind is Kind.INPUT and not each.refused]

    @property
    def held(self) -> tuple[int, ...]:
        """The lines that keep the row that they were, although they are refused."""
        return tuple(at for at in self.row_lines if self.shown[at].refused) if self.is_held else ()


class Reader:
    """Reads lines from above to below. `refused` are the refusals of declarations, by how many stand above them.

    `header` is that of a first command for the profile.
    """

    def __init__(self, verdicts: Verdicts, refused: Mapping[int, str], header: str = "") -> None:
        self._verdicts, self._refused, self._header = verdicts, refused, header
        self._order, self._rows = RowOrder(), dict[int, FileRow]()
        # The line that says a row, and what became of the lines that said it.
        self._said, self._former = dict[FileRow, int](), dict[int, Former]()
        self._above: set[str] = set()
        self._alive = self._declared = 0
        self._is_full = False

    def read(self, lines: list[str]) -> Meaning:
        """What these lines mean. Raises NewBook where only a fresh run can say it."""
        pieces = pieces_of(lines)
        shown = [self._line(at, piece) for at, piece in enumerate(pieces)]
        order = [(row, self._rows[row]) for row in self._order]
        if self._former:
            shown = as_they_ended(shown, self._former, [row for _, row in order])
            order = [(at, row) for at, row in order if row.is_alive]
        meaning = Meaning(lines, shown, [row for _, row in order], [at for at, _ in order])
        meaning.head = 1 + max((at for at, piece in enumerate(pieces) if piece.kind in HEADING), default=-1)
        meaning.row_lines = [at for at, each in enumerate(shown) if each.row is not None]
        meaning.told_lines = [at for at, each in enumerate(shown) if each.may_be_told]
        meaning.is_straight = all(piece.is_straight for piece in pieces)
        meaning.is_full = self._is_full
        return meaning

    def _line(self, at: int, piece: Piece) -> Shown:
        """What the line of an index is, below those that were read."""
        match piece.kind:
            case Kind.ROW:
                return self._row(at, piece)
            case Kind.SET | Kind.FIELD:
                return self._declaration(piece)
            case Kind.DELETE | Kind.REPLACE:
                return self._edit(at, piece)
            case Kind.SHOW:
                return self._look(piece)
            case Kind.PROFILE:
                return Shown(piece, self._header)
            case Kind.INPUT | Kind.WRONG:
                return Shown(piece, self._verdicts.of(piece, self._above))
        return Shown(piece)

    def _row(self, at: int, piece: Piece) -> Shown:
        """A row that is put in."""
        if piece.place == "after" and not self._is_alive(piece.row):
            return Shown(piece, NO_ROW)
        if self._alive >= MOST_ROWS and wrong_column(piece.line) is None:
            self._is_full = True
            return Shown(piece, ROWS_FULL)
        if refused := self._verdicts.of(piece, self._above):
            return Shown(piece, refused)
        row, number = FileRow(piece.text), len(self._rows) + 1
        self._rows[number], self._said[row] = row, at
        self._alive += 1
        if piece.place == "after":
            self._order.put_after(piece.row, number)
        elif piece.place == "start":
            self._order.put_first(number)
        else:
            self._order.put_last(number)
        return Shown(piece, row=row)

    def _declaration(self, piece: Piece) -> Shown:
        """A set or a field."""
        refused = self._refused.get(self._declared, "")
        self._declared += 1
        if not refused:
            self._above.add(piece.name)
        return Shown(piece, refused)

    def _edit(self, at: int, piece: Piece) -> Shown:
        """A row that is taken out, or gets another instruction."""
        if not self._is_alive(piece.row):
            return Shown(piece, NO_ROW)
        row = self._rows[piece.row]
        said = self._said[row]
        if piece.kind is Kind.DELETE:
            row.is_alive = False
            self._alive -= 1
            self._former[said] = Former(Change.TAKEN_OUT, at)
            return Shown(piece, taken=said)
        if refused := self._verdicts.of(piece, self._above):
            return Shown(piece, refused)
        row.text = piece.text
        self._former[said], self._said[row] = Former(Change.REPLACED, at), at
        return Shown(piece, row=row)

    def _look(self, piece: Piece) -> Shown:
        """A look at a place of the present program."""
        refused = self._verdicts.of(piece, self._above)
        if not refused and piece.place == "after" and not self._is_alive(piece.row):
            refused = NO_ROW
        if refused or piece.place == "start":
            return Shown(piece, refused)
        at = piece.row if piece.place == "after" else self._order.last
        return Shown(piece, anchor=None if at is None else self._rows[at])

    def _is_alive(self, row: int) -> bool:
        """Whether the text has a row of this id by now."""
        return row in self._rows and self._rows[row].is_alive


def as_they_ended(shown: Sequence[Shown], former: Mapping[int, Former], order: Sequence[FileRow]) -> list[Shown]:
    """What lines are at the end of the text, where some rows that they say were taken out or replaced.

    `order` has the rows in program order, and those that were taken out where they stood.
    """
    last: FileRow | None = None
    before, stands = dict[FileRow, FileRow | None](), dict[FileRow, FileRow | None]()
    for row in order:
        before[row], last = last, row if row.is_alive else last
        stands[row] = last
    ended = list(shown)
    for at, each in enumerate(shown):
        if at in former and each.row is not None:
            ended[at] = each._replace(row=None, anchor=before[each.row], former=former[at])
        elif each.anchor is not None:
            ended[at] = each._replace(anchor=stands[each.anchor])
    return ended


def spliced(
    before: Meaning, lines: list[str], same: tuple[int, int], verdicts: Verdicts, above: set[str], hold: bool
) -> Meaning | None:
    """The meaning of a text that differs from an earlier one in rows, looks, input data and comments alone; else None.

    It reads the lines that differ: all but the `same` ones at the start and at the end. With `hold`, a line that was a
    row and is refused keeps the row that it was.
    """
    low, high = same[0], len(lines) - same[1]
    olds = before.shown[low : len(before.lines) - same[1]]
    news = [piece_of(line) for line in lines[low:high]]
    start = bisect_left(before.row_lines, low)
    end = start + sum(shown.row is not None for shown in olds)
    if not may_splice(before, low, news, start - end):
        return None
    last = before.rows[start - 1] if start else None
    shown = read_again(olds if hold and len(olds) == len(news) else [], news, last, verdicts, above)
    put = [each.row for each in shown if each.row is not None]
    here = [low + at for at, each in enumerate(shown) if each.row is not None]
    told = [low + at for at, each in enumerate(shown) if each.may_be_told]
    stop, more = len(before.lines) - same[1], len(lines) - len(before.lines)
    meaning = Meaning(
        lines,
        before.shown.copy(),
        before.rows.copy(),
        head=before.head,
        row_lines=put_between(before.row_lines, low, here, stop, more),
        told_lines=put_between(before.told_lines, low, told, stop, more),
        is_straight=True,
        is_held=before.is_held or any(each.refused and each.row is not None for each in shown),
        has_inputs=any(each.kind is Kind.INPUT for each in (*olds, *shown)),
        hunk=Hunk(start, end, start + len(put)),
    )
    meaning.shown[low:stop] = shown
    meaning.rows[start:end] = put
    move_looks(meaning.shown, high, put[-1] if put else last)
    return meaning


def put_between(numbers: list[int], low: int, here: list[int], stop: int, more: int) -> list[int]:
    """Lines below `low`, those `here`, and those from `stop` on, before which so many more stand now."""
    start, end = bisect_left(numbers, low), bisect_left(numbers, stop)
    if not more and numbers[start:end] == here:
        return numbers
    below = numbers[end:]
    return [*numbers[:start], *here, *([at + more for at in below] if more else below)]


def read_again(
    olds: Sequence[Shown], news: Sequence[Piece], last: FileRow | None, verdicts: Verdicts, above: set[str]
) -> list[Shown]:
    """What new lines are, below a row. A refused one keeps the row of the old line in its place, if it has one."""
    shown: list[Shown] = []
    for at, piece in enumerate(news):
        refused = verdicts.of(piece, above)
        held = olds[at].row if refused and olds else None
        text = held.text if held is not None else piece.text if piece.kind is Kind.ROW and not refused else ""
        row = FileRow(text) if text else None
        last = row or last
        is_look = piece.kind is Kind.SHOW and piece.place == "end" and not refused
        shown.append(Shown(piece, refused, row, last if is_look else None))
    return shown


def may_splice(before: Meaning, low: int, news: Sequence[Piece], more: int) -> bool:
    """Whether lines from `low` on may be read alone, behind all that is declared. `more` rows come, and new ones."""
    count = len(before.rows) + more + sum(piece.kind is Kind.ROW for piece in news)
    return (
        before.is_straight
        and low >= before.head
        and count <= MOST_ROWS
        and not before.is_full
        and all(piece.is_straight for piece in news)
        and not any(shown.refused for shown in before.shown[: before.head] if shown.kind in DECLARING)
    )


def move_looks(shown: list[Shown], low: int, last: FileRow | None) -> None:
    """Of the lines from `low` on, looks up to the next row are taken behind the last one now."""
    for at in range(low, len(shown)):
        each = shown[at]
        if each.row is not None:
            break
        if each.kind is Kind.SHOW and each.piece.place == "end" and not each.refused:
            shown[at] = each._replace(anchor=last)
