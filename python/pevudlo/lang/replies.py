"""The replies of the program, read by their grammar."""

from __future__ import annotations

import re
from dataclasses import dataclass
from enum import Enum
from typing import Callable, Sequence, Union


class Status(Enum):
    """What becomes of a row."""

    WAITING = "waiting"
    OUT = "out"
    SETTLED = "settled"


class Word(Enum):
    """The word of a verdict on a result."""

    KEPT = "kept"
    REPEATED = "repeated"
    STALE = "stale"
    GONE = "gone"
    FOREIGN = "foreign"


class Cause(Enum):
    """Why a row was refused when it ran."""

    COLLISION = "collision"
    BAD_ADDRESS = "bad-address"


@dataclass(frozen=True)
class Ok:
    """It is done."""


@dataclass(frozen=True)
class RowAdded:
    """The new row has this id."""

    row: int


@dataclass(frozen=True)
class OrderTaken:
    """The run's order of this number, for a row of an edition."""

    order: int
    row: int
    edition: int


@dataclass(frozen=True)
class Nothing:
    """No waiting row is ready."""


@dataclass(frozen=True)
class Verdict:
    """What became of a result. `edition` is the row's present one, where it is stale."""

    word: Word
    edition: int | None = None


@dataclass(frozen=True)
class Values:
    """The numbers of a key, by processor."""

    numbers: tuple[int, ...]


@dataclass(frozen=True)
class PendingReply:
    """This row writes the key last before the place, and is unsettled."""

    row: int


@dataclass(frozen=True)
class Row:
    """A row of the program: its id, its edition, its status and its instruction's text."""

    row: int
    edition: int
    status: Status
    text: str


@dataclass(frozen=True)
class Rows:
    """The rows in program order."""

    rows: tuple[Row, ...]


@dataclass(frozen=True)
class RowFault:
    """A settled row that was refused when it ran, the cause, and the processor that the cause names."""

    row: int
    cause: Cause
    processor: int


@dataclass(frozen=True)
class Faults:
    """The settled rows that were refused when they ran, in program order."""

    faults: tuple[RowFault, ...]


@dataclass(frozen=True)
class Settled:
    """So many orders were run."""

    count: int


@dataclass(frozen=True)
class Refused:
    """The command is refused by the fault of this number. `detail` is fault 9's processor, or fault 20's column."""

    number: int
    detail: int | None = None


Reply = Union[Ok, RowAdded, OrderTaken, Nothing, Verdict, Values, PendingReply, Rows, Faults, Settled, Refused]


class NoReply(ValueError):
    """The lines are no reply of the program."""


NUMBER = "(0|[1-9][0-9]*)"
MADE: tuple[tuple[str, Callable[..., Reply]], ...] = (
    ("ok", lambda: Ok()),
    ("row N", lambda row: RowAdded(int(row))),
    ("order N row N edition N", lambda order, row, edition: OrderTaken(int(order), int(row), int(edition))),
    ("nothing", lambda: Nothing()),
    ("(kept|repeated|gone|foreign)", lambda word: Verdict(Word(word))),
    ("stale N", lambda edition: Verdict(Word.STALE, int(edition))),
    ("pending N", lambda row: PendingReply(int(row))),
    ("settled N", lambda count: Settled(int(count))),
    ("refused (9|20) N", lambda number, detail: Refused(int(number), int(detail))),
    ("refused N", lambda number: Refused(int(number))),
)
PLAIN: dict[str, Reply] = {"ok": Ok(), "nothing": Nothing(), "kept": Verdict(Word.KEPT)}
"""Replies that come most often, by their line."""

FORMS = tuple((re.compile(form.replace("N", NUMBER)), made) for form, made in MADE)
ROW = re.compile(f"{NUMBER} edition {NUMBER} (waiting|out|settled) (.+)".replace("N", NUMBER))
FAULT = re.compile(f"{NUMBER} (collision|bad-address) {NUMBER}")


def matched(pattern: re.Pattern[str], line: str) -> re.Match[str]:
    """The match of a whole line. Raises NoReply where there is none."""
    match = pattern.fullmatch(line)
    if match is None:
        raise NoReply(f"no reply of the program: {line[:80]!r}")
    return match


def parse_row(line: str) -> Row:
    """A line of the reply to `list`."""
    row, edition, status, text = matched(ROW, line).groups()
    return Row(int(row), int(edition), Status(status), text)


def parse_fault(line: str) -> RowFault:
    """A line of the reply to `faults`."""
    row, cause, processor = matched(FAULT, line).groups()
    return RowFault(int(row), Cause(cause), int(processor))


def parse_values(line: str) -> Values:
    """The numbers of a line `values V V ..`."""
    word, _, numbers = line.partition(" ")
    # No number begins or ends with a space, and int takes no empty word.
    if word != "values" or not numbers.isascii() or not numbers.replace(" ", "").isdigit():
        raise NoReply(f"no numbers: {line[:80]!r}")
    try:
        return Values(tuple(map(int, numbers.split(" "))))
    except ValueError as error:
        raise NoReply(f"no numbers: {line[:80]!r}") from error


def parse(lines: Sequence[str]) -> Reply:
    """The reply that these lines are. Raises NoReply where they are none."""
    if not lines:
        raise NoReply("a reply has a line")
    first, *more = lines
    if first in PLAIN and not more:
        return PLAIN[first]
    word, _, rest = first.partition(" ")
    if word in ("rows", "faults"):
        if rest != str(len(more)):
            raise NoReply(f"{first[:80]!r} has {len(more)} lines behind it")
        return Rows(tuple(map(parse_row, more))) if word == "rows" else Faults(tuple(map(parse_fault, more)))
    if more:
        raise NoReply(f"{first[:80]!r} has lines behind it")
    if word == "values":
        return parse_values(first)
    for pattern, made in FORMS:
        match = pattern.fullmatch(first)
        if match is not None:
            return made(*match.groups())
    raise NoReply(f"no reply of the program: {first[:80]!r}")
