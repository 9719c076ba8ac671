"""What came of a line, in words."""

from __future__ import annotations

from array import array
from collections.abc import Sequence
from itertools import groupby

from pevudlo.draw.grids import Grid, text_of
from pevudlo.hints.explanation import MOST_SHOWN
from pevudlo.hints.notes import note_of
from pevudlo.lang.board import Board
from pevudlo.lang.causes import MOST_NAMED, count_words, row_words
from pevudlo.lang.profiles import WORD
from pevudlo.lang.replies import Faults, Ok, OrderTaken, PendingReply, Refused, RowFault, Settled, Values, Verdict, Word
from pevudlo.lang.same import same_words
from pevudlo.talk import Answer

VERDICTS = {
    Word.KEPT: "the result is the present row's, and settles it",
    Word.REPEATED: "the row is settled already",
    Word.STALE: "an edit touched the row after the order was taken",
    Word.GONE: "no row has this id any more",
    Word.FOREIGN: "the order isn't of this book",
}


def fault_lines(answer: Answer) -> list[str]:
    """The lines of the reply to `faults`, each with its cause."""
    return [f"{line}: {answer.causes[fault.row]}" for line, fault in zip(answer.lines[1:], answer.faults)]


def ran_text(answer: Answer) -> tuple[str, list[str]]:
    """Behind a line that ran rows: how many are refused for their data, and the causes of the first ones."""
    more = [row_words(fault.row, answer.causes[fault.row]) for fault in answer.faults[:MOST_NAMED]]
    if len(answer.faults) > MOST_NAMED:
        more.append("`faults` lists them all")
    return f"{answer.lines[0]}: {count_words(answer.faults)}", more


def values_text(line: str, values: Values, board: Board) -> tuple[str, list[str]]:
    """What stands behind the line's number where values are shown, and the lines of the grid."""
    _, key, *place = line.split(" ")
    where = f"after row {place[1]}" if len(place) == 2 else f"at the {place[0]}"
    axes, width = board.axes_of(key), board.width_of(key)
    assert axes is not None and width is not None
    grid = Grid(key, axes, width, array("Q", values.numbers) if width <= WORD else values.numbers)
    shape = f"{board.set_of(key)} {'x'.join(map(str, axes))}"
    bits = "1 bit" if width == 1 else f"{width} bits"
    return f"values of {key} {where} ({shape}, {bits})", text_of(grid).split("\n")


def same_text(answer: Answer) -> str:
    """Which rows a line settled that weren't run, or how many."""
    rows = answer.same_rows if len(answer.same_rows) <= MOST_NAMED else ()
    who = ("row" if len(rows) == 1 else "rows") + " " + ", ".join(map(str, rows))
    if not rows:
        who = "1 row" if answer.same == 1 else f"{answer.same:,} rows"
    return f"{who} {same_words(answer.same)}"


def told(answer: Answer, board: Board, most: int = MOST_SHOWN) -> tuple[str, list[str]]:
    """What an answer says: the line behind its number, and further lines. `most` is that of Explanation.lines."""
    head, more = reply_text(answer, board, most)
    if not answer.same:
        return head, more
    return f"{head}{';' if ':' in head else ':'} {same_text(answer)}", more


def reply_text(answer: Answer, board: Board, most: int) -> tuple[str, list[str]]:
    """What a reply says, in a line and further ones."""
    reply, first = answer.reply, answer.lines[0]
    match reply:
        case Refused():
            assert answer.explanation is not None
            return f"{first}: {answer.explanation.text}", answer.explanation.lines(most)
        case Values():
            return values_text(answer.line, reply, board)
        case PendingReply():
            return f"{first}: row {reply.row} writes it last, and is unsettled", []
        case Faults():
            return first, fault_lines(answer)
        case Settled() | Verdict() if answer.faults:
            return ran_text(answer)
        case Verdict():
            return f"{first}: {VERDICTS[reply.word]}", []
        case OrderTaken():
            return f"{first}: {board.texts[reply.row]}", []
        case Ok() if note := note_of(answer.line, board):
            return first, [f"note: {note}"]
    return first, list(answer.lines[1:])


def ranged(numbers: Sequence[int]) -> str:
    """Numbers that rise, with commas. Three and more without a gap are a range: `5, 7 to 12`."""
    groups = (list(group) for _, group in groupby(enumerate(numbers), lambda pair: pair[1] - pair[0]))
    parts = [[number for _, number in group] for group in groups]
    return ", ".join(f"{part[0]} to {part[-1]}" if len(part) > 2 else ", ".join(map(str, part)) for part in parts)


def ending(commands: int, refused: list[int], faults: Sequence[RowFault], stopped: bool) -> str:
    """How many commands there were, which lines were refused, and which rows are refused for their data at the end."""
    count = "1 command" if commands == 1 else f"{commands} commands"
    said = "none refused"
    if refused:
        where = "line" if len(refused) == 1 else "lines"
        said = f"{len(refused)} refused: {where} {ranged(refused)}"
    rows = f"; {count_words(faults)}" if faults else ""
    return f"{count}, {said}{rows}" + ("; stopped at the first refusal" if stopped else "")


def matters(answer: Answer) -> bool:
    """Whether an answer is a refusal, a value, or tells of rows that are refused for their data."""
    return bool(answer.faults) or isinstance(answer.reply, (Refused, Values, PendingReply))
