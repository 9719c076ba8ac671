"""What a line of a file is by its text alone."""

from __future__ import annotations

from collections.abc import Sequence
from enum import Enum
from functools import lru_cache
from typing import NamedTuple

from pevudlo.lang.grammar import PROFILE_COMMAND, wrong_column
from pevudlo.lang.instructions import FIELDS, INSTRUCTIONS, NONE, Operand
from pevudlo.wire.pipe import is_comment

BARE = "insert end "
"""What an instruction that stands alone is told behind."""

LONG = 1_000
"""A longer line is no row that is known at a glance."""


NAMED = {
    name: [at for at, operand in enumerate(each.operands, 1) if operand in FIELDS or operand is Operand.SET]
    for name, each in INSTRUCTIONS.items()
}
"""Which words of an instruction are names of sets and fields."""


class Kind(Enum):
    """The kinds of lines."""

    NOTHING = "a comment, or an empty line"
    WRONG = "a line that isn't in the grammar"
    PROFILE = "the first command, where it is one for the profile"
    SET = "a set"
    FIELD = "a field"
    INPUT = "input data"
    ROW = "a row"
    REPLACE = "another instruction for a row"
    DELETE = "the end of a row"
    SHOW = "a look"
    TIME = "a line that says when rows run, or asks for all of them"


DECLARING = (Kind.SET, Kind.FIELD)
HEADING = (Kind.PROFILE, *DECLARING)
"""Kinds of lines that say what the others may name, and how wide that is."""

FIRM = (*DECLARING, Kind.DELETE, Kind.REPLACE)
"""Kinds of lines on which other lines hang."""


class Piece(NamedTuple):
    """A line. `line` is the command that it is told as, and `text` its instruction; `names` are sets and fields in it.

    `place` is start, end or after, and `row` the id behind `after`, `replace` and `delete`. `name` is what it declares.
    `shift` says how many letters `line` has before the line as it stands.
    """

    kind: Kind
    line: str
    text: str = ""
    names: frozenset[str] = frozenset()
    place: str = ""
    row: int = 0
    key: str = ""
    name: str = ""
    shift: int = 0

    @property
    def is_straight(self) -> bool:
        """Whether the line stands where it acts, and names no row."""
        is_first = self.kind is Kind.ROW and self.place == "start"
        return not (self.row or self.place == "after" or is_first or self.kind in (Kind.DELETE, Kind.REPLACE))


def first_command(lines: Sequence[str]) -> int | None:
    """The index of the first line that is a command of a script, or would be one; None where there is none."""
    return next((at for at, line in enumerate(lines) if not is_comment(line)), None)


def header_at(lines: Sequence[str]) -> int | None:
    """The index of the first command where it is one for the profile, right or wrong; else None."""
    at = first_command(lines)
    return at if at is not None and lines[at].split(" ", 1)[0] == PROFILE_COMMAND else None


def header_of(lines: Sequence[str]) -> str:
    """The first command where it is one for the profile; else nothing."""
    at = header_at(lines)
    return "" if at is None else lines[at]


def pieces_of(lines: Sequence[str]) -> list[Piece]:
    """Reads a whole text."""
    pieces, at = [piece_of(line) for line in lines], header_at(lines)
    if at is not None:
        pieces[at] = Piece(Kind.PROFILE, lines[at])
    return pieces


@lru_cache(maxsize=65_536)
def piece_of(line: str) -> Piece:
    """Reads a line that isn't the first command for the profile."""
    if is_comment(line):
        return Piece(Kind.NOTHING, line)
    is_bare = line.split(" ", 1)[0] in INSTRUCTIONS
    told = f"{BARE}{line}" if is_bare else line
    shift = len(BARE) if is_bare else 0
    words = told.split(" ")
    # The program says what is wrong with the words of a row: it is asked of each of them.
    is_row = words[:2] == ["insert", "end"] and len(line) < LONG and is_whole(words[2:])
    if not is_row and wrong_column(told) is not None:
        return Piece(Kind.WRONG, told, shift=shift)
    return read_piece(told, words, shift)


def is_whole(words: Sequence[str]) -> bool:
    """Whether these words are the name of an instruction with as many words as it takes."""
    instruction = INSTRUCTIONS.get(words[0]) if words else None
    return instruction is not None and len(words) == len(instruction.operands) + 1


def read_piece(line: str, words: Sequence[str], shift: int) -> Piece:
    """A line that is in the grammar, but perhaps for the words of an instruction."""
    match words[0]:
        case "set":
            return Piece(Kind.SET, line, name=words[1])
        case "field":
            return Piece(Kind.FIELD, line, names=frozenset((words[2],)), name=words[1])
        case "input":
            return Piece(Kind.INPUT, line, names=owner(words[1]), key=words[1])
        case "insert":
            at = 3 if words[1] == "after" else 2
            text, row = " ".join(words[at:]), int(words[2]) if at == 3 else 0
            return Piece(Kind.ROW, line, text, names_in(text), words[1], row, shift=shift)
        case "replace":
            text = " ".join(words[2:])
            return Piece(Kind.REPLACE, line, text, names_in(text), row=int(words[1]))
        case "delete":
            return Piece(Kind.DELETE, line, row=int(words[1]))
        case "show":
            row = int(words[3]) if words[2] == "after" else 0
            return Piece(Kind.SHOW, line, names=owner(words[1]), place=words[2], row=row, key=words[1])
    return Piece(Kind.TIME, line)


def owner(key: str) -> frozenset[str]:
    """The field or the set that a key names."""
    return frozenset((key.partition(".")[0],))


@lru_cache(maxsize=65_536)
def names_in(text: str) -> frozenset[str]:
    """The sets and fields that an instruction names."""
    words = text.split(" ")
    return frozenset([words[at] for at in NAMED[words[0]] if words[at] != NONE])
