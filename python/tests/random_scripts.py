"""Random scripts in which rows are cut off often: edits that are undone, inputs that are given once more, rows that are
replaced by what they were, sums behind flags, and orders that are out meanwhile.

All commands are accepted. The model says which rows and orders there are. A wide script is one in profile two, whose
fields have 65 bits and more: products, quotients and moves of bits are frequent in it, and so are extreme numbers.
"""

from __future__ import annotations

import os
import subprocess
from random import Random

from paris_model_book import Book

from pevudlo.wire.program import find

SCRIPTS = int(os.environ.get("PEVUDLO_SCRIPTS", "200"))
"""How many random scripts of a kind are compared."""

WORKERS = ("1", "2", "16")
WIDTHS = {"a": 4, "b": 4, "c": 4, "d": 4, "x": 3, "f": 1, "to": 2}
KEYS = ("a", "b", "a", "b", "c", "f", "to", "S.carry", "S.context")
AXES = ("4", "2x2", "2", "1")
MOST_ROWS = 9
COMMANDS = {
    **{"input": 10, "again": 4, "undo": 10, "insert": 6, "delete": 2, "replace": 6},
    **{"take": 14, "bring": 12, "release": 1, "settle": 3, "list": 3, "show": 3, "faults": 1},
}
SHAPES = {
    "u-add-3-1L {to} {a} {b} {length}": 9,
    "u-subtract-3-1L {to} {a} {b} {length}": 4,
    "u-add-carry-3-1L {to} {a} {b} {length}": 2,
    "u-max-3-1L {to} {a} {b} {length}": 3,
    "logand-3-1L {to} {a} {b} {length}": 2,
    "u-multiply-3-1L {to} {a} {b} {length}": 2,
    "u-lt-1L {a} {b} {length}": 3,
    "u-move-1L {to} {a} {length}": 2,
    "u-move-constant-1L {to} {constant} {length}": 1,
    "u-move-always-1L a b 4": 1,
    "scan-with-u-add-1L {to} {a} 0 {length} {direction} inclusive none": 1,
    "send-1L {to} to {a} {length} none": 2,
    "get-1L {to} to {a} {length}": 1,
    "load-context f": 1,
    "set-context S": 1,
    "invert-context S": 1,
    "store-test f": 1,
    "logand-context-with-test S": 1,
}

WIDE_WIDTHS = {"a": 128, "b": 127, "c": 100, "d": 65, "x": 128, "f": 1, "to": 2}
WIDE_LENGTHS = (65, 100, 127, 128)
WIDE_SHAPES = {
    "u-multiply-3-1L {to} {a} {b} {length}": 6,
    "s-multiply-3-1L {to} {a} {b} {length}": 6,
    "u-truncate-3-1L {to} {a} {b} {length}": 7,
    "u-rem-3-1L {to} {a} {b} {length}": 6,
    "u-add-3-1L {to} {a} {b} {length}": 4,
    "s-subtract-3-1L {to} {a} {b} {length}": 3,
    "u-add-carry-3-1L {to} {a} {b} {length}": 2,
    "s-negate-2-1L {to} {a} {length}": 1,
    "s-max-3-1L {to} {a} {b} {length}": 1,
    "u-min-3-1L {to} {a} {b} {length}": 1,
    "logxor-3-1L {to} {a} {b} {length}": 1,
    "lognot-2-1L {to} {a} {length}": 1,
    "u-le-1L {a} {b} {length}": 1,
    "s-lt-1L {a} {b} {length}": 2,
    "u-move-2L {to} {a} {length} {other}": 2,
    "s-move-2L {to} {a} {length} {other}": 3,
    "u-move-constant-1L {to} {constant} {length}": 5,
    "u-move-always-1L a x 128": 1,
    "get-from-news-1L {to} {a} 0 {direction} {length}": 1,
    "scan-with-u-add-1L {to} {a} 0 {length} {direction} inclusive none": 2,
    "scan-with-u-max-1L {to} {a} 0 {length} {direction} exclusive f": 1,
    "spread-with-u-add-1L {to} {a} 0 {length}": 1,
    "reduce-with-logand-1L {to} {a} 0 {length} 0": 1,
    "send-1L {to} to {a} {length} none": 1,
    "send-with-u-add-1L {to} to {a} {length} f": 1,
    "get-1L {to} to {a} {length}": 1,
    "get-1L {to} {b} {a} {length}": 1,
    "load-context f": 1,
    "set-context S": 2,
    "store-test f": 1,
}


class RandomScript:
    """A script of so many commands, determined by a seed, with the replies that the model gives to it."""

    widths, shapes = WIDTHS, SHAPES
    header: tuple[str, ...] = ()

    def __init__(self, seed: int, commands: int) -> None:
        self.random = Random(seed)
        self.book = Book()
        self.lines: list[str] = []
        self.replies: list[str] = []
        self._undo = ""
        self._texts: dict[int, list[str]] = {}
        for line in self.header:
            self.tell(line)
        self._declare()
        for _ in range(commands):
            self.tell(self.command())
        self._look_at_all()
        self.tell("settle")
        self._look_at_all()

    def tell(self, line: str) -> None:
        """One line more, with its reply."""
        self.lines.append(line)
        self.replies += self.book.answer(line)

    def _declare(self) -> None:
        """A set with its fields, some input data, and the first rows."""
        self.tell(f"set S {self.random.choice(AXES)}")
        for name, width in self.widths.items():
            self.tell(f"field {name} S {width}")
        for key in ("a", "b", "to"):
            self.tell(self._input(key))
        for _ in range(self.random.randint(2, 5)):
            self.tell(f"insert end {self.instruction()}")
        self.tell("settle")

    def _look_at_all(self) -> None:
        """Everything that the program shows at the end."""
        for key in (*self.widths, "S.context", "S.test", "S.carry", "S.overflow"):
            self.tell(f"show {key} end")
        self.tell("list")
        self.tell("faults")

    def instruction(self) -> str:
        """An instruction whose operands are wide enough."""
        shape = self.random.choices(list(self.shapes), list(self.shapes.values()))[0]
        to, a, b = self.operands()
        length = self.length(min(self.widths[name] for name in (to, a, b)))
        direction = self.random.choice(("upward", "downward"))
        constant = self.constant(length)
        other = self.length(self.widths[a]) if "{other}" in shape else 0
        return shape.format(to=to, a=a, b=b, length=length, direction=direction, constant=constant, other=other)

    def operands(self) -> list[str]:
        """Three fields."""
        return [self.random.choice("abcdx") for _ in range(3)]

    def length(self, most: int) -> int:
        """A length of an operand."""
        return self.random.randint(1, most)

    def constant(self, length: int) -> int:
        """A constant of so many bits."""
        return self.random.randrange(1 << length)

    def number(self, key: str, count: int) -> int:
        """A number of a key of so many processors."""
        return self.random.randrange(min(1 << self.widths.get(key, 1), 3 + count))

    def command(self) -> str:
        """A command. Where it has no row or order to name, it is another one."""
        rows, orders, dice = self.book.rows, self.book.orders, self.random
        word = dice.choices(list(COMMANDS), list(COMMANDS.values()))[0]
        if word == "undo" and self._undo:
            undo, self._undo = self._undo, ""
            return undo
        if word == "input":
            return self._input(dice.choice(KEYS))
        if word == "again":
            return self._numbers_of(dice.choice(KEYS))
        if word == "insert" and len(rows) < MOST_ROWS:
            self._undo = f"delete {self.book.next}"
            return f"insert {self._place()} {self._text_for(dice.choice(rows).id if rows else 0)}"
        if word == "delete" and rows:
            self._undo = ""
            return f"delete {dice.choice(rows).id}"
        if word == "replace" and rows:
            row = dice.choice(rows)
            self._texts.setdefault(row.id, []).append(row.text)
            self._undo = f"replace {row.id} {row.text}"
            return f"replace {row.id} {self._text_for(row.id)}"
        if word == "bring" and orders:
            return f"bring {len(orders) if dice.random() < 0.7 else dice.randint(1, len(orders))}"
        if word == "show":
            return f"show {dice.choice((*self.widths, 'S.carry', 'S.overflow', 'S.test'))} {self._place()}"
        return word if word in ("take", "release", "settle", "faults") else "list"

    def _place(self) -> str:
        """A place of the program."""
        return self.random.choice(("start", "end", *(f"after {row.id}" for row in self.book.rows)))

    def _text_for(self, row: int) -> str:
        """An instruction that a row had, or has, or another one."""
        had = self._texts.get(row, [])
        return self.random.choice(had) if had and self.random.random() < 0.6 else self.instruction()

    def _numbers_of(self, key: str) -> str:
        """The input data that a key has, as a command that gives them."""
        return f"input {key} 0 {' '.join(map(str, self.book.start[key]))}"

    def _input(self, key: str) -> str:
        """New numbers for some processors of a key. To undo it is to give those that it has."""
        self._undo = self._numbers_of(key)
        count = len(self.book.start[key])
        first = self.random.randrange(count)
        many = self.random.randint(1, count - first)
        new = [str(self.number(key, count)) for _ in range(many)]
        return f"input {key} {first} {' '.join(new)}"


class WideScript(RandomScript):
    """A script in profile two."""

    widths, shapes = WIDE_WIDTHS, WIDE_SHAPES
    header = ("paris 2",)

    def operands(self) -> list[str]:
        """Three fields that have one of the lengths that are looked at most, or more bits."""
        least = self.random.choice(WIDE_LENGTHS)
        return [self.random.choice([name for name in "abcdx" if self.widths[name] >= least]) for _ in range(3)]

    def length(self, most: int) -> int:
        """One of the lengths that are looked at most, the greatest most often, or another one."""
        lengths = [length for length in WIDE_LENGTHS if length <= most]
        if not lengths or self.random.random() < 0.15:
            return super().length(most)
        return self.random.choice((lengths[-1], self.random.choice(lengths)))

    def constant(self, length: int) -> int:
        """A power of two, which moves bits up or down as a factor or a divisor, or its neighbour, or another number."""
        power = 1 << self.random.randrange(length)
        top = (1 << length) - 1
        return self.random.choice(
            (power, power - 1, (power + 1) & top, top, top - 1, self.random.randrange(1 << length))
        )

    def number(self, key: str, count: int) -> int:
        """A small number, or one as `constant` gives them."""
        width = self.widths.get(key, 1)
        return super().number(key, count) if width <= 2 or self.random.random() < 0.3 else self.constant(width)


def by_program(script: RandomScript, workers: str) -> list[str]:
    """What the program writes for a script."""
    text = "".join(f"{line}\n" for line in script.lines)
    ran = subprocess.run([find(), "--workers", workers], input=text, capture_output=True, text=True, check=True)
    return ran.stdout.split("\n")[:-1]


def first_difference(script: RandomScript, replies: list[str]) -> str:
    """The lines up to the first one of which the reply is another."""
    wanted = script.replies + [""] * (len(replies) - len(script.replies))
    at = next((at for at, reply in enumerate(wanted) if replies[at : at + 1] != [reply]), None)
    return "" if at is None else "\n".join([*script.lines, f"reply {at + 1}: {replies[at : at + 1]}, not {wanted[at]}"])
