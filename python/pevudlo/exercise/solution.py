"""A solution: the program of an exercise as it is to be, and further blocks of input data with which it is tried."""

from __future__ import annotations

from collections.abc import Callable, Sequence
from dataclasses import dataclass

from pevudlo.document.document import Document, library_or_program
from pevudlo.document.pieces import Kind, piece_of
from pevudlo.exercise.looks import Check, Outcome, Verdict, checks_in, compared, places, seen
from pevudlo.wire.peers import Peer

Numbers = Sequence[int]

MOST_KEPT = 256
"""Of so many input data it is kept what the solution gives."""


@dataclass(frozen=True)
class Solution:
    """The lines of a program with its looks, and the blocks of input data behind these.

    A block is given after those before it, as in a script: what it doesn't give stays.
    """

    lines: tuple[str, ...]
    blocks: tuple[tuple[str, ...], ...]

    def given(self, block: int) -> tuple[str, ...]:
        """The lines of input data up to a block, 0 being those of the text that is tried."""
        return tuple(line for each in self.blocks[:block] for line in each)


def read_solution(lines: Sequence[str]) -> Solution:
    """Reads a solution. Raises ValueError where its program goes on behind a further block of input data."""
    program: list[str] = []
    blocks: list[list[str]] = []
    has_looks = is_open = False
    for number, line in enumerate(lines, 1):
        kind = piece_of(line).kind
        if has_looks and kind is Kind.INPUT:
            blocks += [] if is_open else [[]]
            blocks[-1].append(line)
            is_open = True
        elif blocks and kind not in (Kind.NOTHING, Kind.TIME, Kind.SHOW):
            raise ValueError(f"line {number}: behind further input data stand looks alone, and no `{line[:60]}`")
        elif not blocks:
            program.append(line)
        has_looks = has_looks or kind is Kind.SHOW
        is_open = is_open and kind is not Kind.SHOW
    return Solution(tuple(program), tuple(map(tuple, blocks)))


def inputs_in(lines: Sequence[str]) -> tuple[str, ...]:
    """The lines of input data of a text."""
    return tuple(line for line in lines if line.startswith("input ") and piece_of(line).kind is Kind.INPUT)


class Wanted:
    """What a solution wants of texts. `checks` are its looks before the further blocks."""

    def __init__(self, solution: Solution, begin: Callable[[], Peer] = library_or_program) -> None:
        self.solution, self.checks = solution, checks_in(solution.lines)
        self._document, self._tried = Document(begin), Document(begin)
        self._kept: dict[tuple[str, ...], list[Numbers | None]] = {}

    def close(self) -> None:
        """Ends what runs the solution and the texts."""
        self._document.close()
        self._tried.close()

    def numbers(self, inputs: tuple[str, ...]) -> list[Numbers | None]:
        """What each check of the solution sees with these lines of input data behind its own."""
        if inputs not in self._kept:
            lines = [*self.solution.lines, *inputs]
            self._document.update_lines(lines)
            if len(self._kept) >= MOST_KEPT:
                self._kept.clear()
            self._kept[inputs] = [seen(self._document, at) for at in places(lines, self.checks)]
        return self._kept[inputs]

    def own(self, lines: Sequence[str], got: Sequence[Numbers | None]) -> list[Verdict]:
        """What comes of the checks of a text that sees these numbers, with its own input data."""
        return [compared(one, other) for one, other in zip(got, self.numbers(inputs_in(lines)), strict=True)]

    def further(self, lines: Sequence[str], block: int) -> list[Verdict]:
        """What comes of the checks of a text with the input data of a further block, counted from 1."""
        given = self.solution.given(block)
        text = [*lines, *given]
        self._tried.update_lines(text)
        got = [seen(self._tried, at) for at in places(text, self.checks)]
        wanted = self.numbers((*inputs_in(lines), *given))
        return [compared(one, other, block) for one, other in zip(got, wanted, strict=True)]

    def judged(self, lines: Sequence[str]) -> list[Verdict]:
        """What comes of the checks of a text: with its own input data, and where that is right with each block."""
        self._tried.update_lines(list(lines))
        got = [seen(self._tried, at) for at in places(lines, self.checks)]
        verdicts = self.own(lines, got)
        for block in range(1, len(self.solution.blocks) + 1):
            if any(each.outcome is Outcome.RIGHT for each in verdicts):
                verdicts = later(verdicts, self.further(lines, block))
        return verdicts


def later(verdicts: Sequence[Verdict], further: Sequence[Verdict]) -> list[Verdict]:
    """The verdicts with those of a further block in the place of what was right so far."""
    return [new if old.outcome is Outcome.RIGHT else old for old, new in zip(verdicts, further, strict=True)]


def said_checks(lines: Sequence[str]) -> list[Check]:
    """The looks of an exercise with a comment below them that says what is wanted."""
    return [check for check in checks_in(lines) if check.said is not None]
