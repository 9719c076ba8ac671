"""A book as docs/MACHINE.md says it: recipes are made anew after each edit, and what is shown is run anew.

It answers the lines of a script that are accepted. It knows no refused commands, but for those that the profile
decides: a `paris` that isn't the first command, and a field that is too wide. Rows are cut off after each of them.
"""

from __future__ import annotations

from collections.abc import Iterable, Iterator
from dataclasses import dataclass
from typing import NamedTuple

from paris_model import Board, COMPARISONS, RefusedAtRun, World
from paris_model_run import CONTEXTS, PLAIN_CONTEXT, run

FLAGS = ("context", "test", "carry", "overflow")
CARRIES = ("u-add-3-1L", "u-add-carry-3-1L", "u-subtract-3-1L", "s-add-3-1L", "s-subtract-3-1L")
OVERFLOWS = (
    *CARRIES,
    *("s-negate-2-1L", "u-multiply-3-1L", "s-multiply-3-1L", "u-truncate-3-1L", "u-rem-3-1L", "u-move-2L", "s-move-2L"),
    *("scan-with-u-add-1L", "spread-with-u-add-1L", "reduce-with-u-add-1L"),
)
WIDEST = {"1": 64, "2": 128}
"""The greatest width of a field by the profile's word."""

Recipe = int


def flags_written(name: str) -> set[str]:
    """The flags that an instruction of this name writes."""
    written = set()
    if name in CARRIES:
        written.add("carry")
    if name in OVERFLOWS:
        written.add("overflow")
    if name in ("set-test", "clear-test", "load-test") or name.split("-")[1] in COMPARISONS:
        written.add("test")
    if name in CONTEXTS:
        written.add("context")
    return written


def stores_into_first(name: str) -> bool:
    """Whether the first word of an instruction is a field that it stores into."""
    no_field = ("load-test", "load-context", "logand-context", "logior-context")
    return name not in no_field and name.split("-")[1] not in COMPARISONS


def keys_of(board: Board, text: str) -> tuple[set[str], set[str]]:
    """The keys that an instruction reads, and those that it writes."""
    name, *words = text.split(" ")
    of_set = words[0] if words[0] in board.axes else board.fields[words[0]][0]
    named = [word for word in words if word in board.fields]
    writes = {f"{of_set}.{flag}" for flag in flags_written(name)}
    reads = set(named[1:] if stores_into_first(name) else named)
    if named and stores_into_first(name):
        writes.add(named[0])
    if name.startswith("send-") and not name.endswith("-news-1L") and words[-1] != "none":
        writes.add(words[-1])
        reads = {word for word in words[1:3]}
    if name not in ("u-move-always-1L", *PLAIN_CONTEXT):
        reads.add(f"{of_set}.context")
    if name in ("logand-context-with-test", "store-test"):
        reads.add(f"{of_set}.test")
    if name == "u-add-carry-3-1L":
        reads.add(f"{of_set}.carry")
    is_whole = name == "u-move-always-1L" and int(words[-1]) == board.fields[words[0]][1]
    if not (is_whole or name in (*PLAIN_CONTEXT, "store-context")):
        reads |= writes
    return reads, writes


@dataclass(frozen=True)
class Work:
    """What a row has to compute: its instruction, and the numbers of each key that it reads."""

    text: str
    inputs: tuple[tuple[str, tuple[int, ...]], ...]


@dataclass
class Row:
    """A row: its id, instruction, the edit that set it, and what the last edits made of it.

    `last` is the work of its last result, whatever became of the row since.
    """

    id: int
    text: str
    set_by: int
    edition: int
    status: str = "waiting"
    last: Work | None = None


@dataclass(frozen=True)
class Order:
    """An order that was taken: for which row, of which edition, with what to compute."""

    id: int
    edition: int
    work: Work


class Cut(NamedTuple):
    """A row that was cut off, and behind which command."""

    command: str
    row: int


class Present(NamedTuple):
    """A row as it is now: what it has to compute, and whether what it reads comes from settled rows or the start."""

    row: Row
    work: Work
    is_firm: bool


@dataclass(frozen=True)
class Pass:
    """What one pass over the rows finds: the recipe of each row by its id, the rows that its keys come from, and at the
    start and behind each row the origin of each key. An origin is a row's id, or 0 for the start."""

    recipes: dict[int, Recipe]
    sources: dict[int, set[int]]
    origins: list[dict[str, int]]


@dataclass(frozen=True)
class Once:
    """What one run from the input data gives: the world at the start and behind each row, and by their ids the causes
    of rows that are refused."""

    worlds: list[World]
    causes: dict[int, str]


class Book:
    """Answers accepted lines. `cut` tells of each row that was cut off, in their order. What a pass or a run gives is
    kept until the next edit."""

    def __init__(self) -> None:
        self.board = Board()
        self.widest, self.is_begun = WIDEST["1"], False
        self.edits, self.next = 0, 1
        self.start: World = {}
        self.given: dict[str, int] = {}
        self.rows: list[Row] = []
        self.orders: list[Order] = []
        self.cut: list[Cut] = []
        self.met: dict[tuple[object, ...], Recipe] = {}
        self.passes: dict[int, Pass] = {}
        self.runs: dict[int, Once] = {}

    def answer(self, line: str) -> list[str]:
        """The reply to a line, as lines."""
        command, *words = line.split(" ")
        if command == "paris":
            return [self.chosen(words)]
        self.is_begun = True
        reply: str | list[str] = getattr(self, f"do_{command}")(words)
        self.cut_off(command)
        return [reply] if isinstance(reply, str) else reply

    def chosen(self, words: list[str]) -> str:
        """The reply to the command that chooses the profile, which counts as the first one, right or wrong."""
        if self.is_begun:
            return "refused 20 1"
        self.is_begun = True
        if not words:
            return "refused 20 6"
        if words[0] not in WIDEST:
            return "refused 20 7"
        if words[1:]:
            return f"refused 20 {len(f'paris {words[0]} ') + 1}"
        self.widest = WIDEST[words[0]]
        return "ok"

    def cut_off(self, command: str) -> None:
        """Settles, in program order, each row that would compute again what it computed last."""
        if all(row.status == "settled" or row.last is None for row in self.rows):
            return
        for row, work, is_firm in self.walk():
            if row.status != "settled" and is_firm and work == row.last:
                self.cut.append(Cut(command, row.id))
                row.status = "settled"

    def walk(self) -> Iterator[Present]:
        """Each row as it is now, in program order. A status may be changed on the way."""
        passed, once = self.passed(), self.ran()
        for place, row in enumerate(self.rows):
            reads = sorted(keys_of(self.board, row.text)[0])
            inputs = tuple((key, tuple(once.worlds[place][key])) for key in reads)
            is_firm = all(map(self.is_settled, passed.sources[row.id]))
            yield Present(row, Work(row.text, inputs), is_firm)

    def declare(self, keys: Iterable[str], of_set: str, number: int) -> None:
        for key in keys:
            self.start[key] = [number] * self.board.count(of_set)
            self.given[key] = self.edits

    def do_set(self, words: list[str]) -> str:
        name, axes = words
        self.edits += 1
        self.board.axes[name] = [int(length) for length in axes.split("x")]
        self.declare([f"{name}.{flag}" for flag in FLAGS[1:]], name, 0)
        self.declare([f"{name}.context"], name, 1)
        return "ok"

    def do_field(self, words: list[str]) -> str:
        name, of_set, width = words
        if not 1 <= int(width) <= self.widest:
            return "refused 6"
        self.edits += 1
        self.board.fields[name] = (of_set, int(width))
        self.declare([name], of_set, 0)
        return "ok"

    def recipe(self, *parts: object) -> Recipe:
        """A number for what a recipe is made of: the same for the same parts, another for others."""
        return self.met.setdefault(parts, len(self.met))

    def passed(self) -> Pass:
        """What a pass over the present rows finds."""
        if self.edits not in self.passes:
            self.passes = {self.edits: self.passed_anew()}
        return self.passes[self.edits]

    def passed_anew(self) -> Pass:
        made: dict[str, Recipe] = {key: self.recipe("start", edit) for key, edit in self.given.items()}
        found = Pass({}, {}, [{key: 0 for key in self.given}])
        for row in self.rows:
            reads, writes = keys_of(self.board, row.text)
            recipe = self.recipe(row.id, row.set_by, *((key, made[key]) for key in sorted(reads)))
            found.recipes[row.id] = recipe
            found.sources[row.id] = {found.origins[-1][key] for key in reads}
            found.origins.append({**found.origins[-1], **{key: row.id for key in writes}})
            made.update((key, recipe) for key in writes)
        return found

    def ran(self) -> Once:
        """What a run of the present rows gives."""
        if self.edits not in self.runs:
            self.runs = {self.edits: self.ran_anew()}
        return self.runs[self.edits]

    def ran_anew(self) -> Once:
        once = Once([self.start], {})
        for row in self.rows:
            try:
                once.worlds.append(run(self.board, once.worlds[-1], row.text))
            except RefusedAtRun as cause:
                once.worlds.append(once.worlds[-1])
                once.causes[row.id] = str(cause)
        return once

    def judge(self, before: dict[int, Recipe]) -> None:
        """Unsettles the rows whose recipe is another one."""
        for row_id, recipe in self.passed().recipes.items():
            if before.get(row_id) != recipe:
                row = self.row(row_id)
                row.edition, row.status = self.edits, "waiting"

    def row(self, row_id: int) -> Row:
        return next(row for row in self.rows if row.id == row_id)

    def do_input(self, words: list[str]) -> str:
        key, first, *numbers = words
        before = self.passed().recipes
        self.edits += 1
        self.start[key][int(first) : int(first) + len(numbers)] = [int(number) for number in numbers]
        self.given[key] = self.edits
        self.judge(before)
        return "ok"

    def do_insert(self, words: list[str]) -> str:
        where, *rest = words
        place = {"start": 0, "end": len(self.rows)}.get(where)
        if place is None:
            place = self.rows.index(self.row(int(rest.pop(0)))) + 1
        before = self.passed().recipes
        self.edits += 1
        self.rows.insert(place, Row(self.next, " ".join(rest), self.edits, self.edits))
        self.next += 1
        self.judge(before)
        return f"row {self.next - 1}"

    def do_delete(self, words: list[str]) -> str:
        before = self.passed().recipes
        self.edits += 1
        self.rows.remove(self.row(int(words[0])))
        self.judge(before)
        return "ok"

    def do_replace(self, words: list[str]) -> str:
        before = self.passed().recipes
        self.edits += 1
        row = self.row(int(words[0]))
        row.text, row.set_by = " ".join(words[1:]), self.edits
        self.judge(before)
        return "ok"

    def is_settled(self, origin: int) -> bool:
        """Whether what comes from an origin is settled."""
        return not origin or self.row(origin).status == "settled"

    def do_take(self, _: list[str]) -> str:
        for row, work, is_firm in self.walk():
            if row.status == "waiting" and is_firm:
                row.status = "out"
                self.orders.append(Order(row.id, row.edition, work))
                return f"order {len(self.orders)} row {row.id} edition {row.edition}"
        return "nothing"

    def do_bring(self, words: list[str]) -> str:
        order = self.orders[int(words[0]) - 1]
        for row, work, is_firm in self.walk():
            if row.id == order.id:
                if row.edition != order.edition:
                    return f"stale {row.edition}"
                if row.status == "settled":
                    return "repeated"
                if not is_firm or work != order.work:
                    return "foreign"
                row.status, row.last = "settled", work
                return "kept"
        return "gone"

    def do_release(self, _: list[str]) -> str:
        for row in self.rows:
            row.status = "waiting" if row.status == "out" else row.status
        return "ok"

    def do_settle(self, words: list[str]) -> str:
        """Runs rows, or cuts them off, in program order: at each of them all before it are settled."""
        self.do_release(words)
        ran = 0
        for row, work, _ in self.walk():
            if row.status != "settled" and work == row.last:
                self.cut.append(Cut("settle", row.id))
            elif row.status != "settled":
                ran += 1
                row.last = work
            row.status = "settled"
        return f"settled {ran}"

    def do_list(self, _: list[str]) -> list[str]:
        rows = [f"{row.id} edition {row.edition} {row.status} {row.text}" for row in self.rows]
        return [f"rows {len(rows)}", *rows]

    def do_faults(self, _: list[str]) -> list[str]:
        known = self.ran().causes
        causes = [f"{row.id} {known[row.id]}" for row in self.rows if row.status == "settled" and row.id in known]
        return [f"faults {len(causes)}", *causes]

    def do_show(self, words: list[str]) -> str:
        key, where = words[0], words[1]
        place = {"start": 0, "end": len(self.rows)}.get(where)
        if place is None:
            place = self.rows.index(self.row(int(words[2]))) + 1
        origin = self.passed().origins[place][key]
        if not self.is_settled(origin):
            return f"pending {origin}"
        return " ".join(["values", *(str(number) for number in self.ran().worlds[place][key])])
