"""Random schedules as lines of a script with the model's replies, and scripts in parts with its last values."""

from __future__ import annotations

from collections import Counter
from collections.abc import Iterator
from random import Random

from paris_model_book import Book, FLAGS
from random_instructions import Maker, WIDTHS

from pevudlo.lang.instructions import INSTRUCTIONS

GEOMETRIES = ([1], [2], [4], [2, 2], [8], [2, 4], [2, 2, 2], [16])
KEYS = (*WIDTHS, *(f"S.{flag}" for flag in FLAGS))
MOST_ROWS = 14

REFUSED = {
    "set S 32": "refused 3",
    "set V 3": "refused 2",
    "field n8 S 4": "refused 3",
    "field z Q 8": "refused 4",
    "field z S 65": "refused 6",
    "input z 0 1": "refused 7",
    "input n8 64 1": "refused 8",
    "input b1 0 2": "refused 9 0",
    "insert end u-move-1L n8 z 8": "refused 7",
    "insert end u-add-3-1L n8 n4 m8 8": "refused 12",
    "insert end load-test n8": "refused 15",
    "insert end send-1L b1 ad n8 1 b1": "refused 16",
    "insert after 65535 set-context S": "refused 10",
    "delete 65535": "refused 10",
    "replace 65535 set-context S": "refused 10",
    "bring 0": "refused 22",
    "bring 65535": "refused 22",
}
"""Lines that are refused in each schedule, whatever stands before them."""

LATER = ("set T 4", "field e T 8", "field f T 1", "field g S 8")
"""What is declared in the midst of a schedule, in this order."""


class Lines:
    """Lines on a set S with the fields of WIDTHS, and a model that is told of those that are accepted."""

    def __init__(self, seed: int) -> None:
        self.maker = Maker(GEOMETRIES[seed % len(GEOMETRIES)], seed)
        self.dice: Random = self.maker.dice
        self.book = Book()

    def first(self, rows: int) -> Iterator[str]:
        """Declarations, data for each key, and so many rows."""
        yield "set S " + "x".join(map(str, self.maker.board.axes["S"]))
        yield from (f"field {name} S {width}" for name, width in WIDTHS.items())
        yield from (f"input {key} 0 {numbers_of(values)}" for key, values in self.maker.world().items())
        yield from (f"insert end {self.instruction()}" for _ in range(rows))

    def instruction(self) -> str:
        return self.maker.instruction(self.dice.choice(list(INSTRUCTIONS.values())))

    def input(self, keys: tuple[str, ...] = KEYS) -> str:
        """New numbers for some processors of a key."""
        key = self.dice.choice(keys)
        values = self.maker.world()[key]
        first = self.dice.randrange(len(values))
        count = self.dice.randint(1, len(values) - first)
        return f"input {key} {first} {numbers_of(values[first : first + count])}"

    def looks(self, rows: list[int]) -> Iterator[str]:
        """Looks at each key at the start, behind each of some rows, and at the end."""
        for key in self.book.given:
            yield from (f"show {key} {spot}" for spot in ("start", *(f"after {row}" for row in rows), "end"))


def numbers_of(values: list[int]) -> str:
    return " ".join(map(str, values))


class Schedule(Lines):
    """A schedule. `lines` are a script, `replies` what the model answers, and `met` how often each kind of reply came.

    An order that is lost isn't brought any more.
    """

    def __init__(self, seed: int, moves: int) -> None:
        super().__init__(seed)
        self.lines: list[str] = []
        self.replies: list[str] = []
        self.met: Counter[str] = Counter()
        self.earlier: list[str] = []
        self.lost: set[int] = set()
        for line in self.first(self.dice.randint(2, MOST_ROWS)):
            self.say(line)
        for _ in range(moves):
            self.move()
            self.look()

    def say(self, line: str, kind: str = "") -> None:
        """Adds a line with its reply."""
        said = [REFUSED[line]] if line in REFUSED else self.book.answer(line)
        word = kind or line.split(" ")[0]
        self.met[f"{word} {said[0].split(' ')[0]}"] += 1
        self.lines.append(line)
        self.replies += said

    def look(self) -> None:
        """Looks at everything: each key at each place, the rows, and those that are refused for their data."""
        for line in (*self.looks([row.id for row in self.book.rows]), "list", "faults"):
            self.say(line)

    def move(self) -> None:
        """Adds a move."""
        match self.dice.choice("eeeeeeetttttttttbbbbbbbbbblrs"):
            case "e":
                self.edit()
            case "t":
                self.say("take")
            case "b" if self.book.orders:
                self.bring()
            case "l" if self.book.orders:
                self.lost.add(self.order())
                self.met["lose"] += 1
            case "r":
                self.say("release")
            case "s" if self.dice.random() < 0.3:
                self.say("settle")
            case _:
                self.say(self.dice.choice(list(REFUSED)), "refused")

    def order(self) -> int:
        """The number of an order, most often one of the last."""
        count = len(self.book.orders)
        return self.dice.choice((count, max(count - self.dice.randrange(4), 1), self.dice.randint(1, count)))

    def bring(self) -> None:
        number = self.order()
        if number in self.lost:
            self.met["bring lost"] += 1
        else:
            self.say(f"bring {number}")

    def edit(self) -> None:
        """Adds an edit."""
        rows = self.book.rows
        match self.dice.choice("iiibnnnndorrdec"):
            case "i":
                self.give(self.input())
            case "b" if self.earlier:
                self.say(self.earlier.pop(), "back")
            case "n" if len(rows) < MOST_ROWS:
                self.say(f"insert {self.spot()} {self.instruction()}")
            case "d" | "n" if len(rows) > 2:
                self.say(f"delete {self.dice.choice(rows).id}")
            case "o" if out := [row.id for row in rows if row.status == "out"]:
                self.say(f"delete {self.dice.choice(out)}", "delete-out")
            case "r" if rows:
                self.say(f"replace {self.dice.choice(rows).id} {self.instruction()}")
            case "e" if declared := [line for line in LATER if line.split(" ")[1] not in self.declared()]:
                self.say(declared[0])
            case _:
                self.say(self.dice.choice(list(REFUSED)), "refused")

    def declared(self) -> set[str]:
        return {*self.book.board.axes, *self.book.board.fields}

    def spot(self) -> str:
        ids = [f"after {row.id}" for row in self.book.rows]
        return self.dice.choice([*ids, "start", "end"])

    def give(self, line: str) -> None:
        """Adds an input, and keeps the one that undoes it."""
        _, key, first, *numbers = line.split(" ")
        old = self.book.start[key][int(first) : int(first) + len(numbers)]
        self.earlier.append(f"input {key} {first} {numbers_of(old)}")
        self.say(line)


class Parts(Lines):
    """A script in parts, whose sessions give the same program in whatever order the desk takes their lines.

    Each session has rows and keys of its own: it replaces and deletes these rows alone, puts rows in behind them
    alone, and gives data to these keys alone. The first one puts rows in at the start and at the end too. In between
    each takes orders, brings some of them, and gives up what is out. `last` are looks at the end, with the replies
    that the model gives.
    """

    def __init__(self, seed: int, sessions: int, length: int) -> None:
        super().__init__(seed)
        self.edits = 0
        self.begin = list(self.first(MOST_ROWS))
        self.replies = [reply for line in self.begin for reply in self.accepted(line)]
        self.sessions = [self.session(number, sessions, length) for number in range(sessions)]
        self.book.answer("settle")
        rows = [row.id for row in self.book.rows if row.id <= MOST_ROWS]
        self.last = {line: self.book.answer(line)[0] for line in self.looks(rows)}
        self.texts = [row.text for row in self.book.rows]

    def accepted(self, line: str) -> list[str]:
        """Tells the model of an edit that is accepted in each order, and gives its reply."""
        self.edits += 1
        return self.book.answer(line)

    def session(self, number: int, sessions: int, length: int) -> list[str]:
        """The lines of a session."""
        rows = [row for row in range(1, MOST_ROWS + 1) if row % sessions == number]
        keys = KEYS[number::sessions]
        lines = [f"field own{number} S 8"]
        self.accepted(lines[0])
        for _ in range(length):
            if self.dice.random() < 0.5:
                lines.append(self.call())
            else:
                lines.append(self.own_edit(number, rows, keys))
                self.accepted(lines[-1])
        return lines

    def call(self) -> str:
        """A line that changes no program."""
        key = self.dice.choice(KEYS)
        bring = f"bring {self.dice.randint(1, 6)}"
        return self.dice.choice(("take", "take", "take", bring, bring, "release", f"show {key} end", "list"))

    def own_edit(self, number: int, rows: list[int], keys: tuple[str, ...]) -> str:
        """An edit of what is the session's own."""
        ends = ["start", "end"] if number == 0 else []
        match self.dice.choice("iiinnrrd"):
            case "n" if rows or ends:
                spot = self.dice.choice([*ends, *(f"after {row}" for row in rows)])
                return f"insert {spot} {self.instruction()}"
            case "r" if rows:
                return f"replace {self.dice.choice(rows)} {self.instruction()}"
            case "d" if len(rows) > 1:
                row = self.dice.choice(rows)
                rows.remove(row)
                return f"delete {row}"
        return self.input(keys)
