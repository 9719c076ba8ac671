"""A script as moments: what its program is behind each part that ran rows, and the values that rows left then.

Each number is from a reply of the program. Values that are the same bytes stand once, also those of two moments.
"""

from __future__ import annotations

from collections.abc import Iterable, Sequence, Sized
from dataclasses import dataclass, field

from pevudlo.draw.grids import MOST_CELLS
from pevudlo.draw.shapes import processors_of
from pevudlo.draw.visible import visible
from pevudlo.hints.meanings import Where
from pevudlo.lang.causes import causes
from pevudlo.lang.grammar import PROFILE_COMMAND
from pevudlo.lang.keys import axes_of, width_of
from pevudlo.lang.profiles import WORD
from pevudlo.lang.replies import PendingReply, Row, Settled, Status, Values
from pevudlo.lang.same import same_words
from pevudlo.client.ledger import ranges_of, texts_of
from pevudlo.client.news import News, refusal, shortened
from pevudlo.client.pieces import packed
from pevudlo.progress import PROGRESS, Progress, line_of
from pevudlo.record.looks import Looker
from pevudlo.talk import EDITS, Answer, Talk
from pevudlo.wire.peers import Peer
from pevudlo.wire.pipe import is_comment

MOST_WHOLE = 4_096
"""A value of more numbers is summed up."""

MOST_NUMBERS = 400_000
"""How many numbers a page has. A large value counts as few of them, and one of a small set as some."""

PICTURE_COUNTS, LEAST_COUNT = 512, 24

RUNS = ("settle", "bring")
TITLE = 36


@dataclass
class Span:
    """The lines since the last moment: edits of settled rows, input data that was given, what stands between the rows,
    and what runs said. `has_run` tells whether rows ran, so that the program is shown before the next edit.

    `after` is the row behind which a line stands now, 0 above all, and -1 below all.
    """

    edits: list[str] = field(default_factory=list)
    given: set[str] = field(default_factory=set)
    notes: list[News] = field(default_factory=list)
    said: list[str] = field(default_factory=list)
    comments: list[tuple[int, str]] = field(default_factory=list)
    after: int = -1
    is_changed: bool = False
    has_run: bool = False


class Moments:
    """A script that is run by a peer. `moments` are what a page has of it, and `block` are all its values as bytes."""

    def __init__(self, peer: Peer, told: Progress = PROGRESS, numbers: int = MOST_NUMBERS) -> None:
        self.moments: list[News] = []
        self.block = bytearray()
        self.intro: list[str] = []
        self.left_out = 0
        self.numbers, self._left = numbers, numbers
        self._peer, self._told = peer, told
        self._talk = Talk(peer, Where.SCRIPT)
        self._looker = Looker(peer, self._talk.board)
        self._known: dict[bytes, int] = {}
        self._at: dict[str, int] = {}
        self._editions: dict[int, tuple[int, str]] = {}
        self._comments: dict[int, list[str]] = {}
        self._given: dict[str, None] = {}
        self._span = Span(after=0)
        self._until = 0

    @property
    def board_news(self) -> News:
        """What is declared in the end."""
        board = self._talk.board
        return {
            "sets": {name: list(axes) for name, axes in board.sets.items()},
            "fields": [[name, each.set, each.width] for name, each in board.fields.items()],
        }

    def run(self, lines: Iterable[str]) -> None:
        """Runs all lines. A moment is made of each part that runs rows, once an edit follows it, and at the end."""
        count = len(lines) if isinstance(lines, Sized) else None
        is_begun = False
        for number, line in enumerate(lines, 1):
            self._told.at(line_of(number, count))
            self._until = number
            if is_comment(line):
                text = visible(line.removeprefix("#").strip())
                if text and not is_begun:
                    self.intro.append(text)
                elif text:
                    self._span.comments.append((number, text))
                continue
            is_begun = True
            self._line(number, line)
        self._flush_comments(None)
        if self._span.is_changed or self._span.notes or not self.moments:
            self._make(self._until)

    def _line(self, number: int, line: str) -> None:
        """Runs a line."""
        self._told.settling(line, self._peer)
        word = line.split(" ")[0]
        if word in EDITS and self._span.has_run:
            self._make(number - 1)
        answer = self._talk.tell_causes(line)
        assert answer is not None
        if answer.explanation is not None:
            self._flush_comments(None)
            told = refusal(answer.explanation, answer.lines[0])
            self._note(number, "wrong", text=visible(line[:400]), refused=told)
        elif word in EDITS:
            self._edited(line, answer)
        elif word == "show":
            self._looked(number, line, answer)
        else:
            self._said(number, line, answer)

    def _edited(self, line: str, answer: Answer) -> None:
        """An edit was accepted."""
        word, span = line.split(" ")[0], self._span
        span.is_changed = True
        if word == "insert":
            span.after = int(answer.lines[0].split(" ")[1])
            self._flush_comments(span.after)
        if word == "input":
            key = line.split(" ")[1]
            span.given.add(key)
            self._given.setdefault(key)
        if self.moments and word not in ("set", "field"):
            span.edits.append(line)
            if answer.same:
                span.said.append(f"{answer.same:,} {same_words(answer.same)}")

    def _looked(self, number: int, line: str, answer: Answer) -> None:
        """A look: its value is kept beside those of the rows, since others may come until the moment is made."""
        _, key, place = line.split(" ", 2)
        self._flush_comments(None)
        reply = answer.reply
        if isinstance(reply, PendingReply):
            self._note(number, "look", key=key, place=place, pending=reply.row)
        elif isinstance(reply, Values):
            self._note(number, "look", key=key, place=place, pending=0)
            self._keep(f"{key}@{-number}", key, reply.numbers)

    def _said(self, number: int, line: str, answer: Answer) -> None:
        """A line that runs rows, or another one."""
        self._flush_comments(None)
        word, reply = line.split(" ")[0], answer.reply
        if isinstance(reply, Settled):
            again = f", {answer.same:,} {same_words(answer.same)}" if answer.same else ""
            self._span.said.append(f"{reply.count:,} {'row' if reply.count == 1 else 'rows'} ran{again}")
            self._span.after, self._span.has_run = -1, True
        elif word in RUNS and answer.lines[0] == "kept":
            self._span.said.append(f"{shortened(line)}: kept")
            self._span.has_run = True
            self._note(number, "said", text=f"{shortened(line)} → kept")
        elif word == PROFILE_COMMAND:
            board = self._talk.board
            self._note(number, "said", text=f"Profile {board.profile}: fields of up to {board.widest} bits")
        elif word != "list":
            self._note(number, "said", text=f"{shortened(line)} → {shortened(answer.lines[0])}")

    def _note(self, number: int, kind: str, **more: object) -> None:
        """A line of the script that stands between the rows."""
        self._span.notes.append({"number": number, "kind": kind, "after": self._span.after, **more})

    def _flush_comments(self, row: int | None) -> None:
        """Comments stand above the row that they were above in the script, or else where other lines stand."""
        comments, self._span.comments = self._span.comments, []
        if row is not None:
            self._comments[row] = [text for _, text in comments]
            return
        for number, text in comments:
            self._note(number, "comment", text=text)

    # Moments.

    def _make(self, until: int) -> None:
        """Makes a moment of the program as it is behind so many lines."""
        self._looker.changed()
        rows = self._looker.rows()
        span, self._span = self._span, Span()
        before = dict(self._at)
        self._forget(rows)
        ran = self._see(rows, span)
        touched = [row for row in ran if any(before.get(f"{key}@{row}") != at for key, at in self._of(row))]
        news: News = {
            "title": self._title(span),
            "line": "; ".join(map(shortened, span.edits[:3])) + (" .." if len(span.edits) > 3 else ""),
            "said": ", ".join(span.said),
            "until": until,
            "order": ranges_of(row.row for row in rows),
            "texts": texts_of([row.row for row in rows], [row.text for row in rows]),
            "un": ranges_of(row.row for row in rows if row.status is not Status.SETTLED),
            "given": list(self._given),
            "anew": sorted(span.given),
            "touched": ranges_of(touched),
            "faults": self._faults(),
            "notes": span.notes,
            "comments": {str(row): texts for row, texts in self._comments.items() if texts},
            "values": dict(self._at),
            **self.board_news,
        }
        self.moments.append(without(news, self.moments))

    def _title(self, span: Span) -> str:
        """What a moment is, in a few words."""
        if not self.moments:
            return "the program"
        last = span.edits[-1] if span.edits else ", ".join(span.said) or "the end"
        return shortened(last if len(last) <= TITLE else last[: TITLE - 2] + "..")

    def _forget(self, rows: Sequence[Row]) -> None:
        """Rows that are gone, or that are to run again, have no values now."""
        now = {row.row: (row.edition, row.text) for row in rows if row.status is Status.SETTLED}
        for row in [row for row, known in self._editions.items() if now.get(row) != known]:
            del self._editions[row]
        for name in [name for name in self._at if is_of_row(name) and row_of(name) not in self._editions]:
            del self._at[name]

    def _see(self, rows: Sequence[Row], span: Span) -> list[int]:
        """Looks at what rows left that ran, and at input data that was given. Gives the rows."""
        for key in sorted(span.given):
            self._look(f"{key}@0", key, "start")
        ran, board = list[int](), self._talk.board
        for number, row in enumerate(rows, 1):
            if row.row in self._editions or row.status is not Status.SETTLED:
                continue
            self._told.say(f"looks at row {number:,} of {len(rows):,}")
            self._editions[row.row] = (row.edition, row.text)
            ran.append(row.row)
            keys = board.keys_written(row.text)
            if not self._may_look(keys):
                self.left_out += 1
                continue
            for key in keys:
                self._look(f"{key}@{row.row}", key, f"after {row.row}")
        return ran

    def _of(self, row: int) -> list[tuple[str, int]]:
        """The values of a row."""
        keys = self._talk.board.keys_written(self._talk.board.texts[row])
        return [(key, self._at[f"{key}@{row}"]) for key in keys if f"{key}@{row}" in self._at]

    def _may_look(self, keys: Iterable[str]) -> bool:
        """Whether these keys may still be looked at; then they count."""
        counts = (processors_of(axes_of(self._talk.board, key)) for key in keys)
        wanted = sum(max(LEAST_COUNT, count) if count <= MOST_CELLS else PICTURE_COUNTS for count in counts)
        if wanted > self._left:
            self._left = 0
            return False
        self._left -= wanted
        return True

    def _look(self, name: str, key: str, place: str) -> None:
        """Keeps a value, where it is there."""
        numbers = self._looker.look(key, place).numbers
        if numbers is not None:
            self._keep(name, key, numbers)

    def _keep(self, name: str, key: str, numbers: Sequence[int]) -> None:
        """Puts the bytes of a value into the block, where they don't stand there."""
        width = width_of(self._talk.board, key)
        words = numbers if width <= WORD else list(numbers)
        data = packed(words, width, len(numbers) > MOST_WHOLE)
        data += bytes(-len(data) % 8)
        at = self._known.get(data)
        if at is None:
            at = self._known[data] = len(self.block)
            self.block += data
        self._at[name] = at

    def _faults(self) -> list[list[object]]:
        """The rows that are refused for their data, with their causes in words."""
        found = self._talk.faults()
        words = causes(found, self._talk.board, lambda key, place: self._looker.look(key, place).numbers)
        return [[fault.row, fault.cause.value, fault.processor, words[fault.row]] for fault in found]


def is_of_row(name: str) -> bool:
    """Whether a value is of a row, and not of input data or of a look."""
    return row_of(name) > 0


def row_of(name: str) -> int:
    """The row that left a value."""
    return int(name.rpartition("@")[2])


def without(news: News, before: Sequence[News]) -> News:
    """A moment without what stands in those before it: declarations, and values that are the same."""
    if not before:
        return news
    known: dict[str, object] = {}
    for moment in before:
        values = moment["values"]
        assert isinstance(values, dict)
        known |= values
    values = news["values"]
    assert isinstance(values, dict)
    left = {name: at for name, at in values.items() if known.get(name) != at}
    declared = {name: news[name] for name in ("sets", "fields")}
    is_same = any(all(moment.get(name) == value for name, value in declared.items()) for moment in before[-1:])
    return {**{name: value for name, value in news.items() if not (is_same and name in declared)}, "values": left}
