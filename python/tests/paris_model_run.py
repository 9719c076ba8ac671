"""One instruction, as it is written, on a world of plain lists: what it leaves, or why it is refused."""

from __future__ import annotations

from collections.abc import Callable

from paris_model import (
    Board,
    COMPARISONS,
    Gives,
    RefusedAtRun,
    Values,
    World,
    combined,
    is_outside,
    low,
    of_two,
    signed,
    stored,
)

PLAIN_CONTEXT = ("set-context", "clear-context", "load-context")
CONTEXTS = (*PLAIN_CONTEXT, "invert-context", "logand-context", "logior-context", "logand-context-with-test")


class Run:
    """An instruction on a world. `after` is the world that it leaves; the old one is only read."""

    def __init__(self, board: Board, world: World, text: str) -> None:
        self.board, self.old = board, world
        self.after: World = {key: list(values) for key, values in world.items()}
        self.name, *self.words = text.split(" ")
        first = self.words[0]
        self.set = first if first in board.axes else board.fields[first][0]
        self.all = range(board.count(self.set))
        self.selected = [v for v in self.all if world[f"{self.set}.context"][v] == 1]

    def flag(self, name: str) -> str:
        """The key of a flag of the instruction's set."""
        return f"{self.set}.{name}"

    def store(self, key: str, processor: int, number: int, length: int = 1) -> None:
        """Replaces the low bits of a key in one processor."""
        self.after[key][processor] = stored(number, self.old[key][processor], length)

    def value(self, key: str, processor: int, length: int) -> int:
        """The operand of a length in one processor."""
        return low(self.old[key][processor], length)

    def write(self, key: str, processor: int, gives: Gives, length: int) -> None:
        """Stores what an instruction gives in one processor."""
        if gives.result is not None:
            self.store(key, processor, gives.result, length)
        for name in ("test", "carry", "overflow"):
            number = getattr(gives, name)
            if number is not None:
                self.store(self.flag(name), processor, number)

    def sources(self) -> None:
        """Instructions that combine two sources, and comparisons."""
        *key, a, b, length = self.words
        size = int(length)
        for v in self.selected:
            carry = self.old[self.flag("carry")][v]
            gives = of_two(self.name, self.value(a, v, size), self.value(b, v, size), size, carry)
            self.write(key[0] if key else a, v, gives, size)

    def moves(self) -> None:
        """Instructions of one source, and constants, coordinates and addresses."""
        to, size = self.words[0], int(self.words[-1] if self.name[2:] != "move-2L" else self.words[2])
        for v in self.all if self.name == "u-move-always-1L" else self.selected:
            self.write(to, v, self.moved(v, size), size)

    def moved(self, v: int, size: int) -> Gives:
        """What an instruction with at most one source gives in one processor."""
        if self.name == "u-move-constant-1L":
            return Gives(int(self.words[1]))
        if self.name == "my-news-coordinate-1L":
            return Gives(self.board.coordinate(self.set, int(self.words[1]), v))
        if self.name == "my-send-address-1L":
            return Gives(v)
        if self.name in ("u-move-2L", "s-move-2L"):
            more = int(self.words[3])
            number = self.value(self.words[1], v, more)
            if self.name == "u-move-2L":
                return Gives(number, overflow=int(number >= 2**size))
            return Gives(signed(number, more), overflow=is_outside(signed(number, more), size))
        x = self.value(self.words[1], v, size)
        if self.name == "s-negate-2-1L":
            return Gives(-signed(x, size), overflow=int(signed(x, size) == -(2 ** (size - 1))))
        return Gives(2**size - 1 - x if self.name == "lognot-2-1L" else x)

    def tests(self) -> None:
        """The test flag and a field."""
        for v in self.selected:
            if self.name == "store-test":
                self.store(self.words[0], v, self.old[self.flag("test")][v])
            else:
                bit = self.old[self.words[0]][v] if self.name == "load-test" else int(self.name == "set-test")
                self.store(self.flag("test"), v, bit)

    def contexts(self) -> None:
        """The context flag, in every processor."""
        for v in self.all:
            context, test = self.old[self.flag("context")][v], self.old[self.flag("test")][v]
            if self.name == "store-context":
                self.store(self.words[0], v, context)
                continue
            other = self.old[self.words[0]][v] if self.words[0] in self.old else 0
            bits = {
                "set-context": 1,
                "clear-context": 0,
                "invert-context": 1 - context,
                "load-context": other,
                "logand-context": context & other,
                "logior-context": context | other,
                "logand-context-with-test": context & test,
            }
            self.store(self.flag("context"), v, bits[self.name])

    def news(self) -> None:
        """To and from the neighbour on an axis that wraps round."""
        to, a, axis, direction, length = self.words
        for v in self.selected:
            line = self.board.line(self.set, int(axis), v)
            step = 1 if direction == "upward" else -1
            other = line[(line.index(v) + step) % len(line)]
            if self.name == "get-from-news-1L":
                self.store(to, v, self.value(a, other, int(length)), int(length))
            else:
                self.store(to, other, self.value(a, v, int(length)), int(length))

    def operator(self) -> str:
        """The combiner in the instruction's name, or `copy`."""
        return self.name.split("-with-")[1].removesuffix("-1L")

    def put(self, to: str, v: int, numbers: Values, size: int) -> None:
        """Stores what numbers combine to. The exact sum decides on overflow."""
        exact = combined(self.operator(), numbers, size)
        self.write(to, v, Gives(exact, overflow=int(exact >= 2**size) if self.operator() == "u-add" else None), size)

    def scans(self) -> None:
        """Scans along the line of each processor, from the start of its segment to itself."""
        to, a, axis, length, direction, *inclusive, segments = self.words
        for v in self.selected:
            line = self.board.line(self.set, int(axis), v)
            if direction == "downward":
                line.reverse()
            before = line[: line.index(v) + 1]
            begins = [i for i, p in enumerate(before) if segments != "none" and self.old[segments][p] == 1]
            segment = [p for p in before[begins[-1] if begins else 0 :] if p in self.selected]
            if self.operator() == "copy":
                self.store(to, v, self.value(a, segment[0], int(length)), int(length))
                continue
            counted = [p for p in segment if p != v or inclusive == ["inclusive"]]
            self.put(to, v, [self.value(a, p, int(length)) for p in counted], int(length))

    def spreads(self) -> None:
        """Spreads and reduces over the selected processors of each line."""
        to, a, axis, length, *coordinate = self.words
        for v in self.selected:
            line = self.board.line(self.set, int(axis), v)
            if self.name == "spread-with-copy-1L":
                self.store(to, v, self.value(a, line[int(coordinate[0])], int(length)), int(length))
            elif not coordinate or line[int(coordinate[0])] == v:
                self.put(to, v, [self.value(a, p, int(length)) for p in line if p in self.selected], int(length))

    def addressed(self, b: str) -> None:
        """Refuses an address outside the set."""
        for v in self.selected:
            if self.old[b][v] >= len(self.all):
                raise RefusedAtRun(f"bad-address {v}")

    def gets(self) -> None:
        """A value from the address that each processor holds."""
        to, b, a, length = self.words
        self.addressed(b)
        for v in self.selected:
            self.store(to, v, self.value(a, self.old[b][v], int(length)), int(length))

    def sends(self) -> None:
        """Values to the addresses that processors hold."""
        to, b, a, length, notify = self.words
        self.addressed(b)
        arriving = [[self.value(a, v, int(length)) for v in self.selected if self.old[b][v] == r] for r in self.all]
        if self.name == "send-1L":
            for r in self.all:
                if len(arriving[r]) > 1:
                    raise RefusedAtRun(f"collision {r}")
        for r in self.all:
            if arriving[r] and self.name == "send-1L":
                self.store(to, r, arriving[r][0], int(length))
            elif arriving[r]:
                numbers = [self.value(to, r, int(length)), *arriving[r]]
                self.store(to, r, combined(self.operator(), numbers, int(length)), int(length))
            if notify != "none":
                self.store(notify, r, int(bool(arriving[r])))

    def family(self) -> Callable[[], None]:
        """What runs an instruction of this name."""
        name = self.name
        if name.startswith("scan-"):
            return self.scans
        if name.startswith(("spread-", "reduce-")):
            return self.spreads
        if name.startswith("send-1L") or name.startswith("send-with-"):
            return self.sends
        if name == "get-1L":
            return self.gets
        if name.endswith("-news-1L"):
            return self.news
        if name in ("set-test", "clear-test", "load-test", "store-test"):
            return self.tests
        if name in CONTEXTS or name == "store-context":
            return self.contexts
        if name.endswith("-3-1L") or name.split("-")[1] in COMPARISONS:
            return self.sources
        return self.moves


def run(board: Board, world: World, text: str) -> World:
    """The world that an instruction leaves. Raises `RefusedAtRun` where its data refuse it. The old world stays."""
    made = Run(board, world, text)
    made.family()()
    return made.after
