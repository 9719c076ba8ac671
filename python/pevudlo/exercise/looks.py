"""The looks of a text that are compared: which they are, what they see, and what is wanted."""

from __future__ import annotations

from collections import Counter
from collections.abc import Iterator, Sequence
from dataclasses import dataclass
from enum import Enum

from pevudlo.document.document import Document
from pevudlo.document.pieces import Kind, piece_of

VALUES = "# values "
"""What a comment below a look begins with that says what is wanted."""


@dataclass(frozen=True)
class Check:
    """A look that is compared: a line `show KEY PLACE`, and how many such lines stand above it in its text.

    `said` are the numbers of the comment below it, None where there is none.
    """

    line: str
    above: int = 0
    said: tuple[int, ...] | None = None

    @property
    def name(self) -> str:
        """The look without its word: `c end`."""
        return self.line.removeprefix("show ")


class Outcome(Enum):
    """What came of a check, with its sign."""

    RIGHT = "✓"
    WRONG = "✗"
    PENDING = "○"
    NOTHING = "–"


@dataclass(frozen=True)
class Verdict:
    """What came of a check. Where it is wrong, the first processor with another number, and how many have one.

    `got` and `wanted` are its numbers. Where the set has another count of processors, `processor` is -1 and they are
    the counts. `block` is the block of input data that shows it: 0 is the text's own.
    """

    outcome: Outcome
    processor: int = 0
    got: int = 0
    wanted: int = 0
    others: int = 0
    block: int = 0


def said_in(comment: str) -> tuple[int, ...] | None:
    """The numbers of a comment that says values. None where it says none."""
    words = comment.removeprefix(VALUES).split(" ") if comment.startswith(VALUES) else []
    if not words or not all(word.isascii() and word.isdigit() and len(word) < 40 for word in words):
        return None
    return tuple(map(int, words))


def is_look(line: str) -> bool:
    """Whether a line is a look at a key."""
    return line.startswith("show ") and piece_of(line).kind is Kind.SHOW


def checks_in(lines: Sequence[str]) -> list[Check]:
    """The looks of a text, each with what the comment below it says."""
    above = Counter[str]()
    found: list[Check] = []
    for at, line in enumerate(lines):
        if is_look(line):
            found.append(Check(line, above[line], said_in(lines[at + 1]) if at + 1 < len(lines) else None))
            above[line] += 1
    return found


def places(lines: Sequence[str], checks: Sequence[Check]) -> list[int | None]:
    """The line of each check in a text, by its index. None where the text hasn't as many such lines."""
    above = Counter[str]()
    found: dict[tuple[str, int], int] = {}
    for at, line in enumerate(lines):
        if line.startswith("show "):
            found[line, above[line]] = at
            above[line] += 1
    return [found.get((check.line, check.above)) for check in checks]


def seen(document: Document, at: int | None) -> Sequence[int] | None:
    """What the look in a line sees. None where there is none, or where it is refused."""
    shown = document.shown[at] if at is not None else None
    if shown is None or shown.kind is not Kind.SHOW or shown.refused:
        return None
    return document.book.look(shown.key, shown.anchor)


def compared(got: Sequence[int] | None, wanted: Sequence[int] | None, block: int = 0) -> Verdict:
    """What comes of a check that sees numbers where others are wanted."""
    if got is None or wanted is None:
        return Verdict(Outcome.NOTHING, block=block)
    if len(got) != len(wanted):
        return Verdict(Outcome.WRONG, -1, len(got), len(wanted), block=block)
    others = [at for at, (one, other) in enumerate(zip(got, wanted)) if one != other]
    if not others:
        return Verdict(Outcome.RIGHT, block=block)
    return Verdict(Outcome.WRONG, others[0], got[others[0]], wanted[others[0]], len(others), block)


def stretches(lines: Sequence[str]) -> Iterator[int]:
    """How many lines of a script are told up to each last look before it goes on. What stands behind comes later."""
    end = 0
    for at, line in enumerate(lines):
        kind = piece_of(line).kind
        if kind is Kind.SHOW:
            end = at + 1
        elif end and kind not in (Kind.NOTHING, Kind.TIME):
            yield end
            end = 0
    if end:
        yield end
