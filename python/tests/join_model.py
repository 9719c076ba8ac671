"""People who edit one program in editors of several manners, a server, and a scheduler of all that is on its way.

Each line that somebody types has a word that stands nowhere else. So at the end it is seen whether one was lost, or is
there twice.
"""

from __future__ import annotations

import json
import random
from collections import Counter, deque
from collections.abc import Callable
from dataclasses import dataclass, field
from enum import Enum
from itertools import count
from typing import Any

from pevudlo.join.edits import Hunk, hunks
from pevudlo.join.state import Put, Send, State
from pevudlo.serve.guests import op_text
from pevudlo.serve.lines import Change, Done, Lines, Op
from pevudlo.serve.room import inverse_of

Told = dict[str, Any]
Act = Callable[[], object]
COMMON = ("", "", "u-add-3-1L c a b 8")
"""Lines that may stand in several places."""

MOST_TYPED = 3
VISITOR = 99


@dataclass(frozen=True)
class Manner:
    """What an editor does.

    `tells_first`: it tells of an edit before it answers that it made it. `is_silent`: of an edit that it doesn't make,
    since its text moved on, it says that it made it. `counts_told`: its versions count what it told, so an edit comes
    into a text of which the server doesn't know the last lines. `in_parts`: it may tell of an edit before all parts of
    it are made.
    """

    name: str
    tells_first: bool = False
    is_silent: bool = False
    counts_told: bool = False
    in_parts: bool = False


MANNERS = (
    Manner("tells its edit before its answer", tells_first=True),
    Manner("tells its edit behind its answer"),
    Manner("says of what it refuses that it did it", is_silent=True),
    Manner("tells an edit part by part, as Neovim does", is_silent=True, in_parts=True),
    Manner("puts edits into what it hasn't told", counts_told=True),
)


@dataclass
class Words:
    """Makes words, and notes which of them somebody took out."""

    numbers: count[int] = field(default_factory=lambda: count(1))
    made: dict[str, int] = field(default_factory=dict)
    dropped: set[str] = field(default_factory=set)
    moved: dict[str, set[int]] = field(default_factory=dict)
    second: set[str] = field(default_factory=set)
    twice: set[str] = field(default_factory=set)

    def new(self, by: int) -> str:
        """A word of a seat that stands nowhere."""
        word = f"# word-{next(self.numbers)}"
        self.made[word] = by
        return word

    def drop(self, text: str) -> None:
        """Somebody takes a line out, which may say what came second."""
        self.dropped.add(core(text))

    def move(self, texts: list[str], by: int) -> None:
        """A seat moves a line over others. It may be seen as if these had been moved over it."""
        for text in texts:
            self.moved.setdefault(core(text), set()).add(by)


def core(text: str) -> str:
    """The line that was typed, also where it came second and stands in a comment."""
    return text.split(": ")[-1] if text.startswith("#? ") else text


@dataclass
class Server:
    """The server: its lines, and what it tells each seat, in order. A message has answers first, then operations."""

    lines: Lines
    seats: int
    words: Words
    number: int = 0
    first: int = 1
    told: list[deque[Told]] = field(default_factory=list)

    def __post_init__(self) -> None:
        self.told = [deque() for _ in range(self.seats)]
        for at in range(self.seats):
            self.tell_text(at)

    def tell_text(self, seat: int, is_chapter: bool = False) -> None:
        """Tells a seat the whole text, perhaps that of a new chapter."""
        lines = [[number, text, 0] for number, text in zip(self.lines.ids, self.lines.texts)]
        self.told[seat].append({"text": {"n": self.number, "lines": lines}, "is_chapter": is_chapter})

    def begin(self) -> None:
        """A new chapter with the same text: all lines have other ids."""
        self.first = self.lines.next
        self.lines = Lines.of(self.lines.texts, self.first, 0)
        self.number += 1
        for at in range(self.seats):
            self.tell_text(at, True)

    def edit(self, seat: int, changes: list[Change], is_busy: bool) -> None:
        """Does an edit of a seat, or says that it is busy. One of an earlier chapter takes no line out."""
        if is_busy:
            self.told[seat].append({"refused": "wait a moment"})
            return
        done, clashes, put = self.lines.take_all(changes, seat, f"Seat {seat}")
        self.words.twice |= {core(change.was) for change in changes if change.id < self.first}
        self.words.second |= {clash.mine for clash in clashes}
        self.number += bool(done)
        self.told[seat].append({"answer": {"n": self.number, "put": put}})
        self.tell(done, seat)

    def tell(self, done: list[Done], by: int) -> None:
        """Tells all what was done, as one message."""
        ops = [json.loads(op_text(self.number, by, each)) for each in done]
        for told in self.told:
            told.append({"ops": ops})

    def do(self, done: list[Done], by: int) -> None:
        """Does what somebody in a browser does, or takes back."""
        self.number += 1
        self.tell(self.lines.repeat_all(done, by), by)


class Typist:
    """Somebody with an editor, and the state that keeps it in step. `now` gives the time."""

    def __init__(self, seat: int, manner: Manner, server: Server, words: Words, choose: random.Random) -> None:
        self.seat, self.manner, self.server, self.words, self.choose = seat, manner, server, words, choose
        self.lines: list[str] = []
        self.version, self.now = 1, 0.0
        self.is_told, self.last = True, 0
        self.state = State([], 1, pace=0.0)
        self.to_state: deque[Act] = deque()
        self.to_server: deque[list[Change]] = deque()
        self.to_editor: deque[Put] = deque()

    # What the person does.

    def type(self) -> None:
        """Types something."""
        self.choose.choice((self.put_lines, self.put_lines, self.change, self.change, self.take_out, self.move))()
        self.is_told = False
        self.version += not self.manner.counts_told

    def place(self) -> int:
        """A place in the text; its end where the editor's versions don't count what wasn't told."""
        return len(self.lines) if self.manner.counts_told else self.choose.randint(0, len(self.lines))

    def put_lines(self) -> None:
        """Puts lines in."""
        at, news = self.place(), [self.words.new(self.seat) for _ in range(self.choose.randint(1, MOST_TYPED))]
        if self.choose.random() < 0.2:
            news.insert(0, self.choose.choice(COMMON))
        self.lines[at:at] = news
        self.last = at + len(news) - 1

    def change(self) -> None:
        """Gives a line another text."""
        if not self.lines or (self.manner.counts_told and self.is_told):
            return self.put_lines()
        at = min(self.place(), len(self.lines) - 1)
        if self.manner.counts_told and self.lines[at] not in [*self.words.made][-MOST_TYPED:]:
            return self.put_lines()
        self.words.drop(self.lines[at])
        self.lines[at], self.last = self.words.new(self.seat), at
        return None

    def take_out(self) -> None:
        """Takes lines out."""
        if self.manner.counts_told:
            return self.put_lines()
        at = self.place()
        for line in self.lines[at : at + self.choose.randint(1, MOST_TYPED)]:
            self.words.drop(line)
            del self.lines[at]
        self.last = min(at, max(0, len(self.lines) - 1))
        return None

    def move(self) -> None:
        """Moves a line of one's own."""
        own = [at for at, line in enumerate(self.lines) if self.words.made.get(line) == self.seat]
        if not own or self.manner.counts_told:
            return self.put_lines()
        at = self.choose.choice(own)
        line = self.lines.pop(at)
        self.last = self.place()
        self.lines.insert(self.last, line)
        self.words.move(self.lines[min(at, self.last) : max(at, self.last) + 1], self.seat)
        return None

    # What the editor does.

    def tell(self) -> None:
        """Tells what was typed."""
        self.version += self.manner.counts_told
        lines, version, last = list(self.lines), self.version, self.last
        self.is_told = True
        self.to_state.append(lambda: self.state.changed(lines, version, last, self.now))

    def take_edit(self) -> None:
        """Makes an edit of the server, or not, and answers."""
        put = self.to_editor.popleft()
        is_made = put.version == self.version
        if is_made:
            if not self.manner.counts_told:
                assert self.lines == list(put.old)
            self.apply(hunks(put.old, put.new))
        says = is_made or self.manner.is_silent
        if is_made and self.manner.tells_first:
            self.tell()
        # What it told before may wait, and an answer doesn't wait behind it.
        place = self.choose.randint(0, len(self.to_state))
        self.to_state.insert(place, lambda: self.state.put_answered(says, self.now))

    def apply(self, edits: list[Hunk]) -> None:
        """Makes the parts of an edit, from below to above."""
        for hunk in reversed(edits):
            self.lines[hunk.start : hunk.end] = hunk.lines
            self.is_told = False
            self.version += not self.manner.counts_told
            if self.manner.in_parts and self.choose.random() < 0.5:
                self.last = max(0, min(hunk.start + len(hunk.lines), len(self.lines) - 1))
                self.tell()

    # What is on its way.

    def hear(self) -> None:
        """Takes in what the server told."""
        told = self.server.told[self.seat].popleft()
        if "text" in told:
            # What was moved before this is heard is moved while the chapter begins.
            self.words.twice |= self.words.moved.keys() if told["is_chapter"] else set()
            self.state.told_text(told["text"])
        elif "refused" in told:
            self.state.refused(True, self.now)
        elif "answer" in told:
            self.state.accepted(told["answer"]["n"], told["answer"]["put"])
        for op in told.get("ops", ()):
            self.state.told_op(op)

    def arrive(self) -> None:
        """An edit arrives at the server, which is busy at times."""
        self.server.edit(self.seat, self.to_server.popleft(), self.choose.random() < 0.1)

    def part(self) -> None:
        """The connection ends, with all that is on its way, and another one begins."""
        self.to_server.clear()
        self.server.told[self.seat].clear()
        self.state.parted()
        self.server.tell_text(self.seat)

    def step(self) -> bool:
        """Sends what is next."""
        match self.state.next(self.now):
            case Send(changes):
                self.to_server.append(list(changes))
            case Put() as put:
                self.to_editor.append(put)
            case None:
                return False
        return True

    def acts(self) -> list[Act]:
        """What may happen next, but for typing."""
        found: list[Act] = [lambda: self.to_state.popleft()()] if self.to_state else []
        found += [] if self.is_told else [self.tell]
        found += [self.take_edit] if self.to_editor else []
        found += [self.arrive] if self.to_server else []
        return found + ([self.hear] if self.server.told[self.seat] else [])


class Trouble(Enum):
    """What disturbs a play."""

    NONE = "nothing"
    LOST = "connections are lost, with what is on its way"
    CHAPTERS = "new chapters begin, in which all lines have other ids"


class Play:
    """Some typists at one program, and a visitor in a browser. All is determined by a seed."""

    def __init__(self, seed: int, manners: tuple[Manner, ...]) -> None:
        self.choose = random.Random(seed)
        self.words, self.trouble = Words(), [*Trouble][seed % len(Trouble)]
        begin = [self.words.new(VISITOR) for _ in range(12)]
        begin[3:3] = COMMON
        self.server = Server(Lines.of(begin, 1, 0), len(manners), self.words)
        self.typists = [Typist(at, manner, self.server, self.words, self.choose) for at, manner in enumerate(manners)]
        self.done: list[Done] = []
        self.settle()

    def visit(self) -> None:
        """Somebody in a browser changes or takes out a line, or takes that back."""
        lines = self.server.lines
        if self.done and self.choose.random() < 0.4:
            back = inverse_of(self.done.pop())
            if back.op is Op.INSERT or lines.at(back.id) is not None:
                self.words.twice.add(core(back.text))
                self.server.do([back], VISITOR)
        elif lines.ids:
            at = self.choose.randrange(len(lines.ids))
            done = Done(Op.DELETE, lines.ids[at], was=lines.texts[at])
            self.words.drop(lines.texts[at])
            self.server.do([done], VISITOR)
            before = lines.ids[at - 1] if at else 0
            self.done.append(Done(Op.DELETE, done.id, after=before, was=done.was))

    def disturb(self, typist: Typist) -> None:
        """A connection is lost, or a new chapter begins. In a third of the plays neither is so."""
        if self.trouble is Trouble.LOST:
            typist.part()
        elif self.trouble is Trouble.CHAPTERS:
            self.done.clear()
            self.words.twice |= self.words.moved.keys()
            self.server.begin()

    def run(self, steps: int) -> None:
        """So many things happen."""
        for _ in range(steps):
            typist = self.choose.choice(self.typists)
            acts, luck = typist.acts(), self.choose.random()
            typist.now += self.choose.choice((0.001, 0.01, 0.1, 0.4))
            if luck < 0.12:
                typist.type()
            elif luck < 0.14:
                self.visit()
            elif luck < 0.145:
                self.disturb(typist)
            elif luck < 0.5:
                typist.step()
            elif acts:
                self.choose.choice(acts)()

    def settle(self) -> None:
        """All that is on its way comes, and nobody types."""
        is_moving = True
        for _ in range(2_000):
            if not is_moving:
                return
            is_moving = False
            for typist in self.typists:
                typist.now += 10.0
                for act in typist.acts()[:1] or [typist.step]:
                    is_moving = act() is not False or is_moving
        raise AssertionError("it doesn't come to rest")

    def check(self) -> None:
        """All have one text, and each word that nobody took out is in it once; no other one is in it twice.

        A line that a visitor took out and put back, or that somebody moves while a new chapter begins, may be there as
        another one too. So may one that two moved, and one that came second, where it is moved or the answer is lost.
        """
        texts = self.server.lines.texts
        for typist in self.typists:
            assert typist.lines == texts, typist.manner
            assert typist.state.is_at_rest
        moved = self.words.moved
        second = self.words.second if self.trouble is Trouble.LOST else self.words.second & moved.keys()
        twice = self.words.twice | second | {word for word, seats in moved.items() if len(seats) > 1}
        counts = Counter(map(core, texts))
        for word in self.words.made:
            assert word in self.words.dropped or counts[word] >= 1, f"{word} is lost"
            assert counts[word] <= 1 or word in twice, f"{word} is there {counts[word]} times"
