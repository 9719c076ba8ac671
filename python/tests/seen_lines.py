"""What people have to see of each line of a text, by a fresh run of it by the program and by its accepted lines.

Which keys an instruction writes is the plain model's. Nothing here is asked of a document.
"""

from __future__ import annotations

import re
from collections.abc import Sequence
from dataclasses import dataclass
from math import prod

from paris_model import Board
from paris_model_book import keys_of
from random_editor import TIME, Fresh, is_refused, numbers_of, told

from pevudlo.wire.pipe import is_comment

START = 0
"""The place before all rows."""

LIVING_SIGNS = ("▶", "=", "")
SYNTAX = "20"
"""The fault that has a column."""


@dataclass(frozen=True)
class Wanted:
    """What has to be seen of a line.

    `sign` and `words` stand beside it, where they are known; `row` is the row of the program that it says. `place` is
    the row behind which its keys are read, START for the start. `gone` says what became of its row, and `by` in which
    line; of a line that takes out a row `by` is that row's line.
    """

    sign: str = ""
    words: str = ""
    row: int | None = None
    place: int = START
    gone: str = ""
    by: int = 0


class Reading:
    """The lines of a text with what has to be seen of them, and the values of all keys at all places."""

    def __init__(self, lines: Sequence[str]) -> None:
        self.lines, self.fresh, self.board = list(lines), Fresh(lines), Board()
        self._order, self._alive, self._count = list[int](), set[int](), 0
        self._said: dict[int, list[int]] = {}
        self._ends: dict[int, tuple[str, int]] = {}
        self.instructions: dict[int, str] = {}
        self.inputs: dict[str, list[int]] = {}
        self.declared: dict[str, int] = {}
        self._looks: dict[int, int] = {}
        for at, line in enumerate(lines):
            if not is_comment(line) and not self.is_refused(at):
                self._take(at, told(line).split(" "))
        self.program = [row for row in self._order if row in self._alive]
        assert self.program == [row for row, _ in self.fresh.rows]
        assert [self.instructions[row] for row in self.program] == [text for _, text in self.fresh.rows]
        self.faults = {int(fault.split(" ")[0]) for fault in self.fresh.faults}
        self.values = self._all_values()
        self.wanted = [self._wanted(at) for at in range(len(self.lines))]

    @property
    def has_taken_out(self) -> bool:
        """Whether a row is taken out further down."""
        return len(self.program) < self._count

    def is_refused(self, at: int) -> bool:
        """Whether a line is refused in a file."""
        return not is_comment(self.lines[at]) and is_refused(self.lines[at], self.fresh.refused[at])

    # What the accepted lines make.

    def _take(self, at: int, words: list[str]) -> None:
        """Takes in an accepted line."""
        match words:
            case ["set", name, axes]:
                self.board.axes[name], self.declared[name] = list(map(int, axes.split("x"))), at
            case ["field", name, of, width]:
                self.board.fields[name], self.declared[name] = (of, int(width)), at
            case ["input", key, *_]:
                self.inputs.setdefault(key, []).append(at)
            case ["insert", "start", *text]:
                self._insert(at, 0, text)
            case ["insert", "end", *text]:
                self._insert(at, len(self._order), text)
            case ["insert", "after", row, *text]:
                self._insert(at, self._order.index(int(row)) + 1, text)
            case ["replace", row, *text]:
                self._end(int(row), "replaced", at)
                self._said[int(row)].append(at)
                self.instructions[int(row)] = " ".join(text)
            case ["delete", row]:
                self._end(int(row), "taken out", at)
                self._alive.remove(int(row))
            case ["show", _, "start"]:
                self._looks[at] = START
            case ["show", _, "after", row]:
                self._looks[at] = int(row)
            case ["show", _, "end"]:
                self._looks[at] = self._order[-1] if self._order else START

    def _insert(self, at: int, place: int, text: list[str]) -> None:
        """A new row. Rows that were taken out keep their places among the others."""
        self._count += 1
        self._order.insert(place, self._count)
        self._alive.add(self._count)
        self._said[self._count] = [at]
        self.instructions[self._count] = " ".join(text)

    def _end(self, row: int, what: str, by: int) -> None:
        """The line that said a row last doesn't any more."""
        self._ends[self._said[row][-1]] = what, by

    def _standing(self, row: int) -> int:
        """A row itself, or the last one before it that is in the program."""
        before = self._order[: self._order.index(row) + 1] if row else []
        return next((each for each in reversed(before) if each in self._alive), START)

    def _before(self, row: int) -> int:
        """The last row before another one that is in the program."""
        at = self._order.index(row)
        return self._standing(self._order[at - 1]) if at else START

    def _row_said(self, at: int) -> int | None:
        """The row that a line said, if any."""
        return next((row for row, said in self._said.items() if at in said), None)

    # What is seen.

    def _wanted(self, at: int) -> Wanted:
        """What has to be seen of a line."""
        line = self.lines[at]
        if is_comment(line) or self.is_refused(at):
            refused = "" if is_comment(line) else self._fault(at)
            return Wanted("✗" if refused else "", refused, place=self._above(at))
        row, word = self._row_said(at), told(line).split(" ")[0]
        if at in self._ends:
            assert row is not None
            what, by = self._ends[at]
            return Wanted("-", f"{what} by line {by + 1}", place=self._before(row), gone=what, by=by)
        if row is not None:
            return Wanted("!" if row in self.faults else "▶=", row=row, place=self._before(row))
        if at in self._looks:
            return Wanted("→", place=self._standing(self._looks[at]))
        if word == "delete":
            taken = next(other for other, end in self._ends.items() if end == ("taken out", at))
            return Wanted("-", f"takes out the row of line {taken + 1}", place=self._above(at), by=taken)
        if note := self._note(line):
            return Wanted("i", note)
        return Wanted("·" if word in TIME else "", place=self._above(at) if word in TIME else START)

    def _fault(self, at: int) -> str:
        """The reply to a refused line. A column is that of the line as it stands in its file."""
        words = self.fresh.refused[at].split(" ")
        if words[1] == SYNTAX:
            words[2] = str(int(words[2]) - len(told(self.lines[at])) + len(self.lines[at]))
        return " ".join(words)

    def _note(self, line: str) -> str:
        """The note on input data with as many numbers as its set has processors, of which the first is no value."""
        command, *words = line.split(" ")
        if command != "input" or len(words) < 4:
            return ""
        axes = self.board.axes[self.board.set_of(words[0])]
        if prod(axes) != len(words) - 1:
            return ""
        return f"{words[1]} is the first processor here, and {len(words) - 2} values go from there on"

    def _above(self, at: int) -> int:
        """The row of the last line above one that says a row of the program."""
        rows = ((line, row) for row, said in self._said.items() if row in self._alive for line in said[-1:])
        return max(((line, row) for line, row in rows if line < at), default=(0, START))[1]

    def _all_values(self) -> dict[tuple[str, int], list[int]]:
        """The values of each key at each place."""
        places = [(key, row) for row in (START, *self.program) for key in self.fresh.keys]
        asked = [f"show {key} after {row}" if row else f"show {key} start" for key, row in places]
        return {place: numbers_of(reply) for place, reply in zip(places, self.fresh.answers(asked))}

    def written(self, row: int) -> set[str]:
        """The keys that a row writes."""
        return keys_of(self.board, self.instructions[row])[1]

    def sources(self, at: int, key: str) -> list[int]:
        """The lines that the value of a key comes from that a line reads: of a row, or of input data."""
        place = self.wanted[at].place
        rows = self.program[: self.program.index(place) + 1] if place else []
        writers = [row for row in rows if key in self.written(row)]
        return self._said[writers[-1]][-1:] if writers else self.inputs.get(key, [])


def reads_as(words: str, numbers: Sequence[int]) -> bool:
    """Whether short values are those of these numbers: all of them, or the first ones and what is said of all."""
    text, is_cut, rest = words.replace("*", "").partition(" … ")
    parts = list(text) if re.fullmatch("[01]{2,}", text) and len(text) == len(numbers) else text.split(" ")
    found = [int(part) for part in parts]
    if not is_cut:
        return found == list(numbers)
    summary = f"{len(numbers):,} from {min(numbers)} to {max(numbers)}"
    return found == list(numbers[: len(found)]) and re.sub(", [0-9,]+ changed$", "", rest) == summary


def check_mark(reading: Reading, at: int, sign: str, words: str, where: str = "") -> None:
    """Fails where what stands beside a line isn't what has to be seen. `where` names the line that ended its row."""
    wanted = reading.wanted[at]
    if wanted.row is not None and wanted.sign != "!":
        assert sign.strip() in LIVING_SIGNS, (at, sign)
        parts = dict(part.split(" ", 1) for part in words.split("  "))
        written = {key.partition(".")[2] or key: key for key in reading.written(wanted.row)}
        assert parts.keys() == written.keys(), (at, words)
        assert all(reads_as(parts[name], reading.values[key, wanted.row]) for name, key in written.items()), (at, words)
    elif wanted.sign == "→":
        key, numbers = words.split(" ", 1)
        assert (sign, key) == ("→", reading.lines[at].split(" ")[1])
        assert reads_as(numbers, reading.values[key, wanted.place]), (at, words)
    elif wanted.sign == "✗":
        # A hint comes first, and then the fault behind it.
        assert sign == "✗" and re.search(rf"(?:^|\(){wanted.words}: ", words), (at, words, wanted)
    else:
        expected = re.sub(r"line \d+$", where, wanted.words) if where else wanted.words
        assert sign == wanted.sign and words.startswith(expected), (at, sign, words, wanted)
        assert sign in ("✗", "!", "·") or words == expected, (at, words)
