"""What an entry of the reference is: a command, an instruction or a fault, with its words and an example."""

from __future__ import annotations

from collections.abc import Iterator
from dataclasses import dataclass
from enum import Enum

DECLARING = ("paris", "set", "field", "input", "delete", "replace", "release")
"""The commands whose reply is `ok`."""


class Kind(Enum):
    """What an entry is about."""

    COMMAND = "command"
    INSTRUCTION = "instruction"
    FAULT = "fault"


@dataclass(frozen=True)
class Step:
    """A command and the lines of its reply.

    A step may stand for several lines: `times` of them, with the numbers from 1 up in the place of `{n}` in the line
    and in the reply.
    """

    line: str
    reply: tuple[str, ...]
    times: int = 1

    def asked(self) -> Iterator[tuple[str, tuple[str, ...]]]:
        """Each line with its reply."""
        for n in range(1, self.times + 1):
            yield self.line.replace("{n}", str(n)), tuple(line.replace("{n}", str(n)) for line in self.reply)

    @property
    def is_told(self) -> bool:
        """Whether the reply says more than that the line was accepted."""
        return self.reply[0].split(" ")[0] not in ("ok", "row", "settled")


@dataclass(frozen=True)
class Example:
    """A whole script with its replies. The last step is what the example is about, or the last ones."""

    steps: tuple[Step, ...]

    def asked(self) -> Iterator[tuple[str, tuple[str, ...]]]:
        """Each line of the script with its reply."""
        for step in self.steps:
            yield from step.asked()

    def script(self) -> str:
        """The lines of the script, each with a line feed."""
        return "".join(f"{line}\n" for line, _ in self.asked())


@dataclass(frozen=True)
class Entry:
    """An entry. Its `name` is what is asked for: a command, an instruction, or a fault's name.

    `number` is a fault's number, else 0. `flags` says of an instruction which flags it writes, and when; empty where it
    writes none. `example` is None where no script shows the entry.
    """

    kind: Kind
    name: str
    spelling: str
    does: str
    flags: str = ""
    example: Example | None = None
    number: int = 0


def steps(text: str) -> tuple[Step, ...]:
    """The steps of a text: a line for each command, its reply behind `=>` and, where it has more lines, between ` / `.

    Where no reply is said, it is `ok`, or `row` with the next id.
    """
    made: list[Step] = []
    rows = 0
    for line in text.strip().split("\n"):
        command, said, reply = line.strip().partition(" => ")
        if command.startswith("insert ") and not reply.startswith("refused"):
            rows += 1
            reply = reply or f"row {rows}"
        if not said and command.split(" ")[0] in DECLARING:
            reply = "ok"
        made.append(Step(command, tuple(reply.split(" / "))))
    return tuple(made)


def example(text: str) -> Example:
    """An example of its text."""
    return Example(steps(text))


def worked(data: str, rows: str, shows: dict[str, str]) -> Example:
    """An example of declarations and input data, rows that are inserted and settled, and looks: `KEY PLACE` with its
    values. A look without a place is one at the end. The rows are cut at ` ; `.
    """
    inserted = rows.split(" ; ")
    looks = [(key if " " in key else f"{key} end", values) for key, values in shows.items()]
    lines = [
        *data.strip().split("\n"),
        *(f"insert end {row}" for row in inserted),
        f"settle => settled {len(inserted)}",
        *(f"show {look} => values {values}" for look, values in looks),
    ]
    return example("\n".join(lines))
