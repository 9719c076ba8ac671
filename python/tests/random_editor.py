"""A random editor of files, and whether a document says of a text what a fresh run by the program says of it."""

from __future__ import annotations

import re
import subprocess
from collections.abc import Callable, Iterator, Sequence
from typing import TYPE_CHECKING

from random_lines import RandomLines

from pevudlo.lang.board import Board
from pevudlo.lang.instructions import FLAGS, INSTRUCTIONS
from pevudlo.wire.pipe import is_comment
from pevudlo.wire.program import find

if TYPE_CHECKING:
    from pevudlo.document.document import Document
    from pevudlo.document.update import Update

TIME = ("settle", "take", "bring", "release", "list", "faults")
NAMING = re.compile(r"delete|replace|insert (start|after)|show \S+ after")
MOVING = re.compile(r"delete|insert (start|after)")
HEAD = RandomLines(0).lines(8)[:8] + ["input a 0 1 2 3 4 5", "input b 0 3 0 2 1 7", "input f 0 0 1 1"]
MOST_LINES = 60


class RandomEditor:
    """Makes texts, each of them the one before with some lines changed. All are determined by a seed.

    One that `names_rows` has more lines that do, most of them rows that are there, and lines with carriage returns.
    """

    def __init__(self, seed: int, names_rows: bool = False) -> None:
        self.made = RandomLines(seed)
        self.random = self.made.random
        self.names_rows = names_rows
        self.is_straight = seed % 2 == 0 and not names_rows
        self.lines = list(HEAD)
        for _ in range(self.random.randint(*((10, 35) if names_rows else (0, 25)))):
            self.lines.append(self.line())
        self.lines += ["show c end"] * names_rows

    def line(self) -> str:
        """A line. Of every second editor none names a row."""
        if self.names_rows and self.random.random() < 0.4:
            return self.of_a_row()
        if self.random.random() < 0.5:
            return self.random.choice(("insert end ", "")) + self.made.instruction()
        while NAMING.match(line := self.made.command()) and self.is_straight:
            pass
        return line

    def of_a_row(self) -> str:
        """A line that names a row, which is there most often; sometimes one with a carriage return."""
        chance = self.random
        row = chance.randint(1, max(1, sum(told(line).startswith("insert ") for line in self.lines)))
        instruction = f"u-{chance.choice(('add', 'max', 'subtract'))}-3-1L {' '.join(chance.choices('abc', k=3))} 8"
        lines = [f"delete {row}", f"delete {row}", f"replace {row} {instruction}", f"insert after {row} {instruction}"]
        lines += [f"show {self.made.key()} after {row}", *[f"show {self.made.key()} end"] * 2]
        lines += [f"insert start {instruction}", f"input {chance.choice('abc')} 1 {row}", *[instruction] * 3]
        line = chance.choice(lines)
        at = chance.choice((chance.randrange(len(line)), len(line)))
        return f"{line[:at]}\r{line[at:]}" if chance.random() < 0.05 else line

    def declaration(self) -> str:
        """A set or a field, perhaps of a name that is taken."""
        while not (line := self.made.command()).startswith(("set ", "field ")):
            pass
        return line

    def edit(self) -> None:
        """Changes the text in some places."""
        for _ in range(1 if self.random.random() < 0.7 else self.random.randint(2, 6)):
            self.change()
        del self.lines[MOST_LINES:]

    def change(self) -> None:
        """Changes the text in one place, most often below what is declared first."""
        lines, chance = self.lines, self.random
        low = 0 if chance.random() < 0.12 else min(len(HEAD), len(lines))
        at, what = chance.randint(low, len(lines)), chance.randrange(20)
        if what == 0:
            lines.insert(chance.randint(1, min(len(HEAD), len(lines)) or 1), self.declaration())
        elif what < 6 or len(lines) <= len(HEAD) + 3 or at == len(lines):
            lines.insert(at, self.line())
        elif what < 9:
            del lines[at]
        elif what < 13:
            lines[at] = self.line()
        elif what < 15:
            lines.insert(chance.randint(low, len(lines) - 1), lines.pop(at))
        elif what < 16:
            lines.insert(chance.randint(low, len(lines)), lines[at])
        elif what < 18:
            place = chance.randrange(len(lines[at]) + 1)
            lines[at] = lines[at][:place] + chance.choice(("", " ", "1", "a", "x")) + lines[at][place + 1 :]
        elif what < 19:
            lines[at : at + 2] = lines[at : at + 2][::-1]
        else:
            lines[at : at + 3] = [self.line() for _ in range(chance.randint(0, 5))]


class Fresh:
    """A fresh run of a text by the program: refusals by line, rows and faults as they are listed, all keys."""

    def __init__(self, lines: Sequence[str]) -> None:
        self._told = [(at, told(line)) for at, line in enumerate(lines) if not is_comment(line)]
        replies = run([line for _, line in self._told] + ["settle", "list", "faults"])
        self.refused = {at: next(replies)[0] for at, _ in self._told}
        assert next(replies)[0].startswith("settled ")
        self.rows = [(int(row.split(" ")[0]), row.split(" ", 4)[4]) for row in next(replies)[1:]]
        self.faults = next(replies)[1:]
        board = Board()
        for at, line in self._told:
            if line.startswith(("set ", "field ")):
                board.note(line, self.refused[at])
        self.keys = [*board.fields, *(f"{name}.{flag}" for name in board.sets for flag in FLAGS)]

    def answers(self, asked: Sequence[str]) -> list[str]:
        """The first lines of the replies to lines behind the text and a `settle`."""
        replies = list(run([line for _, line in self._told] + ["settle", *asked]))
        return [reply[0] for reply in replies[len(replies) - len(asked) :]]


def told(line: str) -> str:
    """A line as a script has it."""
    return f"insert end {line}" if line.split(" ")[0] in INSTRUCTIONS else line


def run(lines: Sequence[str]) -> Iterator[list[str]]:
    """The replies to lines, by a run of the program."""
    data = "".join(f"{line}\n" for line in lines).encode("utf-8", "surrogateescape")
    out = subprocess.run([find()], input=data, stdout=subprocess.PIPE, check=False).stdout
    replies = iter(out.decode("utf-8", "surrogateescape").split("\n")[:-1])
    for first in replies:
        word, _, count = first.partition(" ")
        yield [first, *(next(replies) for _ in range(int(count) if word in ("rows", "faults") else 0))]


def is_refused(line: str, reply: str) -> bool:
    """Whether a line of a file is refused. What a line says of time is refused where it isn't in the grammar alone."""
    return reply.startswith("refused 20 " if line.split(" ")[0] in TIME else "refused")


def numbers_of(reply: str) -> list[int]:
    """The numbers of a reply to a look."""
    word, *numbers = reply.split(" ")
    assert word == "values", reply
    return [int(number) for number in numbers]


def compare(document: Document, lines: Sequence[str], some: int = 0) -> int:
    """Fails where a document isn't what a fresh run says. Gives how many values were compared.

    `some` says behind how many rows the keys are looked at, 0 behind all.
    """
    fresh = Fresh(lines)
    wanted = {at: reply for at, reply in fresh.refused.items() if is_refused(lines[at], reply)}
    assert {at: shown.refused for at, shown in enumerate(document.shown) if shown.refused} == wanted, "refusals"
    assert [row.text for row in document.rows] == [text for _, text in fresh.rows], "rows"
    book = document.book
    listed = book.peer.ask("list")[1:]
    assert [row.split(" ", 4)[::4] for row in listed] == [
        [str(row.book), row.text] for row in document.rows
    ], "the book"
    ids = {row: ours.book for (row, _), ours in zip(fresh.rows, document.rows)}
    faults = [fault.split(" ") for fault in fresh.faults]
    found = [[str(fault.row), fault.cause.value, str(fault.processor)] for fault in book.faults.values()]
    assert found == [[str(ids[int(row)]), *rest] for row, *rest in faults], "faults"
    rows = list(zip((row for row, _ in fresh.rows), document.rows))[:: max(1, len(fresh.rows) // some) if some else 1]
    asked = [(f"show {key} start", f"show {key} start") for key in fresh.keys]
    asked += [(f"show {key} after {row}", f"show {key} after {ours.book}") for row, ours in rows for key in fresh.keys]
    theirs = dict(zip((line for line, _ in asked), fresh.answers([line for line, _ in asked])))
    replies = [reply[0] for reply in book.peer.ask_all([line for _, line in asked])]
    assert replies == list(theirs.values()), "values"
    for row, ours in rows:
        for key, numbers in document.written(ours).items():
            assert list(numbers) == numbers_of(theirs[f"show {key} after {row}"]), "what is written"
    return len(asked) + (0 if some else compare_looks(document, lines, fresh, theirs))


def compare_looks(document: Document, lines: Sequence[str], fresh: Fresh, theirs: dict[str, str]) -> int:
    """The same of the looks of a text in which each row stands below those that are put in before it."""
    if any(MOVING.match(line) for line in lines):
        return 0
    above = count = 0
    for at, line in enumerate(lines):
        is_taken = not fresh.refused.get(at, "refused").startswith("refused")
        above += is_taken and told(line).startswith("insert ")
        if is_taken and line.startswith("show "):
            _, key, place = line.split(" ", 2)
            behind = place if place != "end" else f"after {fresh.rows[above - 1][0]}" if above else "start"
            seen = document.book.look(key, document.shown[at].anchor)
            assert list(seen) == numbers_of(theirs[f"show {key} {behind}"]), "a look"
            count += 1
    return count


LOST = "the book's rows weren't the file's"


def edited(document: Document, seed: int, texts: int, see: Callable[[Update], None] = lambda done: None) -> int:
    """Compares a document behind each of so many texts of an editor. Gives how many values were compared."""
    editor, values = RandomEditor(seed), 0
    for _ in range(texts):
        if editor.random.random() < 0.3:
            # As it is typed, and then as it is saved.
            see(document.update_lines(list(editor.lines), hold=True))
        values += saved(document, list(editor.lines), see)
        editor.edit()
    return values


def saved(document: Document, lines: list[str], see: Callable[[Update], None] = lambda done: None) -> int:
    """Compares a document behind a text. Gives how many values were compared."""
    done = document.update_lines(lines)
    see(done)
    assert LOST not in done.fresh and done.count <= len(done.touched), "the book"
    return compare(document, lines)
