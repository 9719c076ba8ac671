"""What stands beside lines in few letters: values, a refusal, and what an update did. For terminals and editors."""

from __future__ import annotations

from collections.abc import Sequence

from pevudlo.document.document import Document
from pevudlo.document.meaning import FileRow
from pevudlo.document.pieces import Kind
from pevudlo.document.states import Mark, State
from pevudlo.document.update import Update
from pevudlo.draw.arrays import differing, extent
from pevudlo.hints.notes import note_of
from pevudlo.lang.keys import width_of
from pevudlo.lang.same import same_words
from pevudlo.record.numbers import Numbers

MOST = 40
"""How many letters the numbers of a key take."""

MOST_BITS = 64


def short(numbers: Sequence[int], before: Numbers | None, width: int, most: int = MOST) -> str:
    """The first numbers, with `*` behind those that are other than before. Bits stand side by side."""
    changed = differing(numbers, before) if before is not None and len(before) == len(numbers) else frozenset[int]()
    if width == 1 and len(numbers) <= MOST_BITS and not changed:
        return "".join(map(str, numbers))
    words: list[str] = []
    for at, number in enumerate(numbers):
        words.append(f"{number}*" if at in changed else str(number))
        most -= len(words[-1]) + 1
        if most < 0 and len(words) > 1:
            words.pop()
            break
    if len(words) == len(numbers):
        return " ".join(words)
    least, greatest = extent(numbers)
    more = f", {len(changed):,} changed" if changed else ""
    return f"{' '.join(words)} … {len(numbers):,} from {least} to {greatest}{more}"


def refusal_text(document: Document, number: int) -> str:
    """Why a line is refused, the hint first, and what stays where it is held: the words of all narrow views."""
    told = document.explanation(number)
    assert told is not None
    return "; ".join(part for part in (told.in_one_line(), document.stays(number)) if part)


def note_on(document: Document, number: int) -> str:
    """The note on a line, or nothing."""
    shown = document.shown[number]
    is_input = shown.kind is Kind.INPUT and not shown.refused
    return note_of(shown.piece.line, document.book.board) if is_input else ""


def kept_mark(document: Document, number: int, done: Update, most: int) -> Mark | None:
    """What stood beside the row of a line before, where the row wasn't touched since."""
    shown = document.shown[number]
    row = shown.row
    if row is None or shown.refused or row.book in done.touched:
        return None
    kept = document.marks.get(row.book)
    return kept[1] if kept is not None and kept[0] == (document.book.editions[row.book], most) else None


def row_mark(document: Document, row: FileRow, done: Update, most: int) -> Mark:
    """What stands beside a row. It is kept where the row wasn't touched."""
    if row.book in document.book.faults:
        return Mark(State.FAULT, f"it stores nothing, since {document.book.cause(row)}")
    is_touched, parts, is_other = row.book in done.touched, list[str](), False
    for key, numbers in document.written(row).items():
        before = document.earlier(row, key) if is_touched else None
        is_other = is_other or before is None or before != numbers
        name = key.partition(".")[2] or key
        parts.append(f"{name} {short(numbers, before, width_of(document.book.board, key), most)}")
    state = State.KEPT if not is_touched else State.NEW if is_other else State.SAME
    mark = Mark(state, "  ".join(parts))
    if not is_touched:
        document.marks[row.book] = (document.book.editions[row.book], most), mark
    return mark


def headline(document: Document, done: Update) -> str:
    """How many rows ran again or weren't run, why a new book was begun, and what is refused."""
    rows = "1 row" if done.rows == 1 else f"{done.rows:,} rows"
    if done.fresh:
        said = f"a new book ({done.fresh}): {done.count:,} of {rows} ran"
    else:
        said = f"{done.count:,} of {rows} ran again"
        same = len(done.touched) - done.count
        said += f", {same:,} {same_words(same)}" if same else ""
    lines = document.shown
    refused = sum(bool(lines[at].refused) for at in document.told_lines)
    if refused:
        said += "; 1 line is refused" if refused == 1 else f"; {refused:,} lines are refused"
    faults = len(document.book.faults)
    if faults:
        said += "; 1 row is refused for its data" if faults == 1 else f"; {faults:,} rows are refused for their data"
    return said
