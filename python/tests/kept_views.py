"""Views that renew only what they are told is other, each beside one that is made anew from the whole.

`Page` is a live page over rows that are edited, taken back, run, and brought late; `Text` is a text that is typed and
taken back, in an editor, on a terminal and on a page. A walk makes random moves, and compares behind each.

`python kept_views.py FIRST COUNT STEPS` makes so many walks of so many moves of each, and says how often each came.
"""

from __future__ import annotations

import io
import os
import sys
import tempfile
import time
from collections import Counter
from collections.abc import Callable, Iterator, Sequence
from contextlib import redirect_stdout
from pathlib import Path
from random import Random
from typing import Any

from live_tabs import Copy, numbers_in, unrolled, until
from random_editor import RandomEditor
from random_instructions import Maker
from random_schedules import GEOMETRIES, numbers_of

from pevudlo import find_library
from pevudlo.client.pieces import Kind
from pevudlo.document.document import Document
from pevudlo.document.screen import Screen
from pevudlo.document.update import Update
from pevudlo.lang.instructions import INSTRUCTIONS
from pevudlo.lang.keys import axes_of, width_of
from pevudlo.lang.replies import OrderTaken, Refused, Status, Verdict, Word
from pevudlo.live.followed import FollowedSession
from pevudlo.live.running import RunningSession
from pevudlo.live.session import NOW, Look, Session
from pevudlo.lsp import values
from pevudlo.lsp.diagnostics import diagnostics
from pevudlo.lsp.opened import Opened
from pevudlo.wire.library import Library

MOST_ROWS = 16
MOST_BACK = 30
"""So many texts are kept to go back to."""

SIZE = {"COLUMNS": "400", "LINES": "80"}
"""A terminal with room for all lines of a text."""

EVERYWHERE = {"range": {"start": {"line": 0, "character": 0}, "end": {"line": 9_999, "character": 0}}}

Place = tuple[str, int]
"""A key, and the row that left it, 0 being the start."""


class Tab(Copy):
    """A tab that asks for each value once, and again where it is told that it may be other."""

    def __init__(self, session: Session) -> None:
        super().__init__()
        self.session = session
        self.values: dict[Place, list[int] | Kind] = {}

    def look(self) -> None:
        """Takes in what is new, and asks for the values that aren't known."""
        with self.session.lock:
            self.take(self.session.state(self.version))
            is_other = self.news["began"] or "sets" in self.news
            touched, anew = set(unrolled(self.news["touched"])), set(self.news["anew"])
            self.values = {
                (key, row): numbers
                for (key, row), numbers in ({} if is_other else self.values).items()
                if row not in touched and not (row == 0 and key in anew) and (row == 0 or row in self.texts)
            }
            for key, row in self.places():
                if (key, row) not in self.values:
                    (piece,) = self.session.looks([Look(key, row, False, NOW)], self.version, self.edits)
                    self.values[key, row] = numbers_in(piece)

    def places(self) -> Iterator[Place]:
        """Where there are values: what is given, and what settled rows write."""
        yield from ((key, 0) for key in self.state["given"])
        for row in self.ids:
            if row not in self.unsettled:
                yield from ((key, row) for key in self.session.board.keys_written(self.texts[row]))

    def check(self, place: Callable[[Place], Sequence[int]]) -> None:
        """Fails where it differs from a tab that is told all, or where a value is another than at its place."""
        anew = Copy()
        anew.take(self.session.state(0))
        assert (self.ids, self.texts, self.unsettled) == (anew.ids, anew.texts, anew.unsettled)
        assert self.faults == anew.faults
        for name in ("given", "sets", "fields"):
            assert self.state[name] == anew.state[name], name
        for each in self.places():
            assert self.values[each] == list(place(each)), each


class Page:
    """A live page with a tab that looks behind each move, and one that looks now and then.

    `results` are what rows left when they ran last, by what is told of runs alone. Of those in `unknown`, which came
    with another program, it isn't known.
    """

    def __init__(self, seed: int, library: Path) -> None:
        self.maker = Maker(GEOMETRIES[seed % len(GEOMETRIES)], seed)
        self.dice: Random = self.maker.dice
        self.met: Counter[str] = Counter()
        self.session = RunningSession(library, 1)
        self.results: dict[int, dict[str, list[int]]] = {}
        self.unknown = set[int]()
        self.orders: list[int] = []
        axes = "x".join(map(str, self.maker.board.axes["S"]))
        lines = [f"set S {axes}", *(f"field {name} S {width}" for name, width in self.maker.widths.items())]
        lines += [f"input {key} 0 {numbers_of(each)}" for key, each in self.maker.world().items()]
        for line in (*lines, *(f"insert end {self.instruction()}" for _ in range(8))):
            self.tell(line)
        self.tabs = [Tab(self.session), Tab(self.session)]

    def instruction(self) -> str:
        return self.maker.instruction(self.dice.choice(list(INSTRUCTIONS.values())))

    def tell(self, line: str) -> Any:
        """Hands over a line, and gives its reply."""
        step = self.session.run(line)
        self.met[f"{step.word} {'refused' if step.is_refused else 'taken'}"] += 1
        return step.reply

    def step(self) -> None:
        """A move, and what is seen behind it."""
        before = set(self.session.book.unsettled())
        ran = self.move(before)
        rows = self.session.rows
        for tab in self.tabs[: 1 if self.dice.random() < 0.8 else 2]:
            tab.look()
            assert tab.ids == [row.row for row in rows] and [tab.texts[row] for row in tab.ids] == [
                r.text for r in rows
            ]
            assert tab.unsettled == {row.row for row in rows if row.status is not Status.SETTLED}
            tab.check(self.at)
        self.see_results(ran)

    def see_results(self, ran: set[int] | None) -> None:
        """Renews what rows left that ran. None says that another program has come, of whose rows nothing is known."""
        board, settled = self.session.board, set(self.tabs[0].ids) - self.tabs[0].unsettled
        if ran is None:
            self.results.clear()
            self.unknown = set(board.rows)
        for row in settled:
            found = {key: list(self.at((key, row))) for key in board.keys_written(board.texts[row])}
            if row in (ran or ()) or row in self.unknown:
                self.results[row] = found
                self.unknown.discard(row)
            assert self.results.get(row) == found, row

    def at(self, place: Place) -> Sequence[int]:
        """The numbers at a place."""
        key, row = place
        board = self.session.board
        count = self.maker.count if board.set_of(key) else 0
        assert axes_of(board, key) and count
        found = self.session.book.look(key, row, count, width_of(board, key) > 64)
        assert found is not None and not isinstance(found, int), place
        return found

    # Moves. Each gives the rows that ran, or None where another program has come.

    def move(self, before: set[int]) -> set[int] | None:
        """A random move. `before` are the rows that were unsettled before it."""
        match self.dice.choice("eeeeeeeeeeeeuurhtttbbbbbgssff"):
            case "u":
                return self.go("undo", self.session.undo)
            case "r":
                return self.go("redo", self.session.redo)
            case "h":
                history = self.session.background.history
                place = self.dice.randint(0, len(history.done) + len(history.undone))
                return self.go("history", lambda: self.session.go_to(max(place, self.least)))
            case "t":
                self.take()
            case "b" if self.orders:
                return self.bring()
            case "g":
                self.tell("release")
            case "s":
                return self.run(before)
            case "f":
                return self.run_for(before)
            case _:
                self.edit()
        return set()

    @property
    def least(self) -> int:
        """How many steps of the history declare and give what each program has."""
        return min(2 * len(self.maker.widths), len(self.session.background.history.done))

    def go(self, word: str, move: Callable[[], None]) -> set[int] | None:
        """A move in the history, which ends at what each program has."""
        if word == "undo" and len(self.session.background.history.done) <= self.least:
            return set()
        try:
            move()
        except ValueError:
            self.met[f"{word} refused"] += 1
            return set()
        self.met[word] += 1
        return None

    def take(self) -> None:
        reply = self.tell("take")
        if isinstance(reply, OrderTaken):
            self.orders.append(reply.order)
            self.met["order"] += 1

    def bring(self) -> set[int]:
        """Brings an order, perhaps late or once more. Gives its row where the result is kept."""
        number = self.dice.choice(self.orders[-6:])
        row = self.session.board.ordered[number]
        reply = self.tell(f"bring {number}")
        if isinstance(reply, Verdict):
            self.met[f"brought {reply.word.name}"] += 1
        return {row} if reply == Verdict(Word.KEPT) else set()

    def run(self, before: set[int]) -> set[int]:
        """The workers run rows, all of them or some."""
        self.session.go_on()
        if self.dice.random() < 0.6:
            deadline = time.monotonic() + 0.2
            while self.session.book.unsettled_count() and time.monotonic() < deadline:
                time.sleep(0.0002)
        self.session.stop()
        until(lambda: not self.session.background.crew.running)
        self.met["run"] += 1
        return before

    def run_for(self, before: set[int]) -> set[int]:
        """The rows run that one value stands on. They are told by their ids."""
        board = self.session.board
        row = self.dice.choice([0, *board.rows])
        keys = board.keys_written(board.texts[row]) if row else list(board.fields)
        ran = self.session.book.settle_for(self.dice.choice(keys), row)
        assert ran is not None and set(ran) <= before and not set(ran) & set(self.session.book.unsettled())
        assert ran == [each for each in board.rows if each in set(ran)]
        self.met["run for"] += 1
        self.met["rows that ran for a value"] += len(ran)
        return set(ran)

    def edit(self) -> None:
        """A random edit."""
        rows, dice = self.session.board.rows, self.dice
        match dice.choice("iiinnnnnnddrrrrsfx"):
            case "i":
                key, numbers = dice.choice(list(self.maker.world().items()))
                first = dice.randrange(len(numbers))
                self.tell(f"input {key} {first} {numbers_of(numbers[first:])}")
            case "n" if len(rows) < MOST_ROWS:
                spot = dice.choice(["start", "end", *(f"after {row}" for row in rows)])
                self.tell(f"insert {spot} {self.instruction()}")
            case "d" | "n" if rows:
                self.tell(f"delete {dice.choice(rows)}")
            case "r" if rows:
                self.tell(f"replace {dice.choice(rows)} {self.instruction()}")
            case "s" if rows:
                row = dice.choice(rows)
                self.tell(f"replace {row} {self.session.board.texts[row]}")
            case "f" if len(self.session.board.fields) < len(self.maker.widths) + 3:
                self.tell(f"field more{len(self.session.board.fields)} S 8")
            case _:
                assert isinstance(self.tell("delete 65535"), Refused)

    def close(self) -> None:
        self.session.close()


class Text:
    """A text in an editor, on a terminal and on a page, each with a document of its own."""

    def __init__(self, seed: int, library: Path, folder: Path) -> None:
        self.editor, self.dice = RandomEditor(seed), Random(seed)
        self.met: Counter[str] = Counter()
        self.library, self.earlier = library, list[list[str]]()
        self.opened = self.begun("")
        self.watched = Document(self.begin)
        self.screen = Screen(self.watched, "text")
        path = folder / f"text{seed}.paris"
        path.write_text("")
        self.page = FollowedSession(path, library, 1)
        self.tab = Tab(self.page)

    def begin(self) -> Library:
        return Library(self.library)

    def begun(self, text: str) -> Opened:
        return Opened("file:///text.paris", text, 1, self.begin)

    @property
    def lines(self) -> list[str]:
        """The lines of the text, in letters that each view has."""
        return [line.encode("utf-8", "replace").decode() for line in self.editor.lines]

    @property
    def text(self) -> str:
        return "".join(f"{line}\n" for line in self.lines)

    def step(self) -> None:
        """Another text, or one of before, perhaps as it is typed first; and what is seen behind it."""
        if self.earlier and self.dice.random() < 0.2:
            self.editor.lines = list(self.dice.choice(self.earlier))
            self.met["text of before"] += 1
        else:
            self.editor.edit()
        if self.dice.random() < 0.2:
            self.met["text as it is typed"] += 1
            self.put(hold=True)
        self.put(hold=False)
        self.met["text"] += 1
        self.earlier = [*self.earlier, list(self.editor.lines)][-MOST_BACK:]
        self.check()

    def put(self, hold: bool) -> None:
        """The views take the text in, and show it."""
        lines, text = self.lines, self.text
        self.opened.change([{"text": text}], 1)
        if not hold:
            self.opened.save()
        self.opened.renew()
        values.hints(self.opened, EVERYWHERE)
        drawn(self.screen, self.watched.update_lines(lines, hold))
        self.page.take(text, hold)

    def check(self) -> None:
        """Fails where a view differs from one that is made of this text alone."""
        anew = self.begun(self.text)
        anew.save()
        anew.renew()
        try:
            self.met["touched"] += len(self.opened.done.touched)
            self.met["kept"] += len(self.opened.document.rows) - len(self.opened.done.touched)
            self.opened.done = anew.done = Update()
            assert values.hints(self.opened, EVERYWHERE) == values.hints(anew, EVERYWHERE)
            assert diagnostics(self.opened, True) == diagnostics(anew, True)
            assert drawn(self.screen, Update()) == drawn(Screen(anew.document, "text"), Update())
            self.check_page(anew.document)
        finally:
            anew.document.close()

    def check_page(self, anew: Document) -> None:
        """What the page's tab knows, beside a document of this text alone."""
        self.tab.look()
        rows = dict(zip(self.tab.ids, anew.rows))
        assert [self.tab.texts[row] for row in self.tab.ids] == [row.text for row in anew.rows]
        assert not self.tab.unsettled and not self.page.trouble
        ours = {row.book: row for row in anew.rows}
        assert [rows[row] for row in self.tab.faults] == [ours[row] for row in anew.book.faults]
        self.tab.check(lambda place: anew.book.look(place[0], rows.get(place[1])))

    def close(self) -> None:
        self.opened.document.close()
        self.watched.close()
        self.page.close()


def drawn(screen: Screen, done: Update) -> str:
    """What a terminal shows of an update."""
    out = io.StringIO()
    with redirect_stdout(out):
        screen.show(done)
    return out.getvalue()


def walk(seed: int, steps: int, folder: Path) -> Counter[str]:
    """So many moves on a page, and so many of a text. Gives how often each came."""
    met = Counter[str]()
    views: list[Page | Text] = [Page(seed, find_library()), Text(seed, find_library(), folder)]
    for view in views:
        try:
            for _ in range(steps):
                view.step()
        finally:
            view.close()
        met += view.met
    return met


def main(first: int, count: int, steps: int) -> int:
    """Makes walks, and says what came in them."""
    os.environ.update(SIZE)
    met, wrong = Counter[str](), 0
    with tempfile.TemporaryDirectory() as folder:
        for seed in range(first, first + count):
            try:
                met += walk(seed, steps, Path(folder))
            except AssertionError as error:
                wrong += 1
                print(f"walk {seed}: {error}", flush=True)
    print(f"{count} walks of {steps} moves of each kind, {wrong} wrong: {dict(met)}")
    return int(wrong > 0)


if __name__ == "__main__":
    sys.exit(main(*map(int, sys.argv[1:])))
