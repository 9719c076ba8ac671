"""Texts of several editors: lines with ids, conflicts, undo by inverse edits, and journals."""

from __future__ import annotations

import json
import os
from collections.abc import Iterator
from dataclasses import dataclass, field
from difflib import SequenceMatcher
from pathlib import Path
from random import Random

import pytest

from pevudlo.document.document import Document
from pevudlo.exercise.looks import seen
from pevudlo.serve.journal import NAME, Entry, Journal, Kept, line_of_chapter, line_of_entry, read_journal
from pevudlo.serve.limits import Limits, Refused, size_of
from pevudlo.serve.lines import LAST, Change, Clash, Done, Lines, Op
from pevudlo.serve.room import Room, inverse_of
from pevudlo.serve.turns import Turns

RUNS = int(os.environ.get("PEVUDLO_EDITORS", "400"))
"""How many times three random editors write into one text."""

UNDOS = int(os.environ.get("PEVUDLO_UNDOS", "1000"))
"""How many edits of random seats are taken back."""

FREE = Limits(rate=1e9, at_once=1e9, rows=4096)
NAMES = {1: "Ann", 2: "Bob", 3: "Carla"}


# Lines.


def test_who_comes_second_finds_the_own_line_below_as_a_comment() -> None:
    lines = Lines.of(["a", "b"], 1, 0)
    assert lines.take(Change(Op.REPLACE, 1, "a", "A"), 1, "Ann") == ([Done(Op.REPLACE, 1, "A", was="a")], None)
    done, clash = lines.take(Change(Op.REPLACE, 1, "a", "x"), 2, "Bob")
    assert done == [Done(Op.INSERT, 3, "#? Bob: x", 1)] and clash == Clash(1, "A", "x")
    assert lines.take(Change(Op.REPLACE, 1, "a", "A"), 2, "Bob") == ([], None)
    assert lines.take(Change(Op.DELETE, 1, "a"), 2, "Bob") == ([], Clash(1, "A", ""))
    assert lines.texts == ["A", "#? Bob: x", "b"] and lines.by == {1: 1, 2: 0, 3: 2}


def test_lines_that_are_gone() -> None:
    lines = Lines.of(["a", "b", "c"], 1, 0)
    for number, was in ((2, "b"), (1, "a")):
        lines.take(Change(Op.DELETE, number, was), 1, "Ann")
    assert lines.take(Change(Op.DELETE, 2, "b"), 2, "Bob") == ([], None)
    # Behind a line that is gone is where it stood, also where the one before is gone too.
    assert lines.take(Change(Op.INSERT, 2, text="new"), 2, "Bob")[0] == [Done(Op.INSERT, 4, "new", 0)]
    done, clash = lines.take(Change(Op.REPLACE, 2, "b", "B"), 2, "Bob")
    assert [each.text for each in done] == ["#? Bob: B"] and clash == Clash(2, None, "B")
    assert lines.texts == ["#? Bob: B", "new", "c"]


def test_lines_that_are_put_in_one_behind_the_other() -> None:
    lines = Lines.of(["a", "b"], 1, 0)
    changes = [Change(Op.INSERT, 1, text="x"), Change(Op.INSERT, LAST, text="y"), Change(Op.REPLACE, 2, "b", "B")]
    done, clashes, put = lines.take_all(changes, 1, "Ann")
    assert lines.texts == ["a", "x", "y", "B"] and clashes == [] and put == [3, 4] and len(done) == 3


@pytest.mark.parametrize("seed", range(20))
def test_what_was_done_is_done_again_and_taken_back(seed: int) -> None:
    random, lines, other = Random(seed), Lines.of(list("abcdef"), 1, 0), Lines.of(list("abcdef"), 1, 0)
    all_done: list[Done] = []
    for turn in range(60):
        done, _ = lines.take(some_change(random, lines, f"{seed}-{turn}"), 1, "Ann")
        all_done += done
        for each in done:
            other.repeat(each, 1)
        assert (other.texts, other.ids) == (lines.texts, lines.ids)
    for each in reversed(all_done):
        other.repeat(inverse_of(each), 1)
    assert (other.texts, other.ids) == (list("abcdef"), [1, 2, 3, 4, 5, 6])


def test_a_line_that_comes_back_behind_one_that_is_gone_is_told_where_it_stands() -> None:
    lines, other = Lines.of(["a", "b", "c"], 1, 0), Lines.of(["a", "b", "c"], 1, 0)
    (done,), _ = lines.take(Change(Op.DELETE, 3, "c"), 1, "Ann")
    lines.take(Change(Op.DELETE, 2, "b"), 2, "Bob")
    assert done.after == 2
    # Who has no more than the present text knows nothing of the line that is gone.
    other.texts, other.ids, other.by = ["a"], [1], {1: 0}
    told = lines.repeat(inverse_of(done), 1)
    assert told == Done(Op.INSERT, 3, "c", 1)
    other.repeat(told, 1)
    assert other.texts == lines.texts == ["a", "c"]


def some_change(random: Random, lines: Lines, text: str) -> Change:
    """A change of a line that is there, as who sees it now wants it."""
    at = random.randrange(len(lines.ids)) if lines.ids else None
    if at is None or random.random() < 0.4:
        return Change(Op.INSERT, random.choice([0, *lines.ids]), text=text)
    op = Op.DELETE if random.random() < 0.3 else Op.REPLACE
    return Change(op, lines.ids[at], lines.texts[at], text if op is Op.REPLACE else "")


# Editors that hear late.


@dataclass
class Editor:
    """Somebody with a text of their own, and the lines that the server had when it was heard last."""

    name: str
    ids: list[int]
    texts: list[str]
    own: list[str] = field(default_factory=list)
    heard: int = 0

    def type(self, random: Random, text: str) -> set[str]:
        """Changes the own text. The lines that are gone by it."""
        before, kind = set(self.own), random.random()
        if kind < 0.5 and self.own:
            self.own[random.randrange(len(self.own))] = text
        elif kind < 0.8 or not self.own:
            self.own.insert(random.randrange(len(self.own) + 1), text)
        else:
            del self.own[random.randrange(len(self.own))]
        return before - set(self.own)

    def changes(self) -> Iterator[Change]:
        """What leads from the lines that were heard to the own text."""
        for tag, low, high, start, end in SequenceMatcher(None, self.texts, self.own, autojunk=False).get_opcodes():
            both = min(high - low, end - start) if tag == "replace" else 0
            yield from self._changes(tag, (low, high), (start, end), both)

    def _changes(self, tag: str, old: tuple[int, int], new: tuple[int, int], both: int) -> list[Change]:
        """What leads over one stretch."""
        if tag == "equal":
            return []
        pairs = range(both)
        found = [
            Change(Op.REPLACE, self.ids[old[0] + at], self.texts[old[0] + at], self.own[new[0] + at]) for at in pairs
        ]
        found += [Change(Op.DELETE, self.ids[at], self.texts[at]) for at in range(old[0] + both, old[1])]
        after = self.ids[old[0] + both - 1] if old[0] + both else 0
        return found + [Change(Op.INSERT, after, text=text) for text in reversed(self.own[new[0] + both : new[1]])]

    def meet(self, server: Lines, log: list[Done]) -> None:
        """Sends what was typed, and then hears all that is new."""
        for change in list(self.changes()):
            log += server.take(change, 1, self.name)[0]
        mine = Lines()
        mine.ids, mine.texts, mine.by = self.ids, self.texts, dict.fromkeys(self.ids, 0)
        for done in log[self.heard :]:
            mine.repeat(done, 0)
        self.heard, self.own = len(log), list(self.texts)


@pytest.mark.parametrize("seed", range(RUNS))
def test_texts_are_equal_at_rest_and_no_typed_line_is_lost(seed: int) -> None:
    """A typed line is in the text, or somebody who saw it changed it, or it stands as a comment."""
    random, start = Random(seed), [f"line {at}" for at in range(8)]
    server, log = Lines.of(start, 1, 0), list[Done]()
    editors = [Editor(name, list(server.ids), list(start), list(start)) for name in NAMES.values()]
    typed, changed = set[str](), set[str]()
    for turn in range(120):
        editor = random.choice(editors)
        if random.random() < 0.6:
            text = f"{editor.name} {turn}"
            changed |= {line.split(": ")[-1] for line in editor.type(random, text)}
            typed |= {text} if text in editor.own else set()
        else:
            editor.meet(server, log)
    for editor in [*editors, *editors]:
        editor.meet(server, log)
    assert all(editor.own == server.texts for editor in editors)
    here = {line.split(": ")[-1] for line in server.texts}
    assert typed - here <= changed


# Rooms: values and undo.

FIELDS = "abcd"
HEAD = [
    "set S 8",
    *(f"field {name} S 8" for name in FIELDS),
    *(f"input {name} 0 {at} 9 7" for at, name in enumerate(FIELDS)),
]
NAMED = ("u-add-3-1L {} {} {} 8", "logxor-3-1L {} {} {} 8", "u-max-3-1L {} {} {} 8", "u-subtract-3-1L {} {} {} 8")


def some_line(random: Random) -> str:
    """A row, input data, or what is none."""
    kind = random.random()
    if kind < 0.1:
        return random.choice(["# a comment", "u-ad-3-1L a b c 8", "show a end"])
    if kind < 0.3:
        return f"input {random.choice(FIELDS)} {random.randrange(8)} {random.randrange(256)}"
    return random.choice(NAMED).format(*(random.choice(FIELDS) for _ in range(3)))


def settled(room: Room) -> None:
    """Waits until all rows are settled."""
    for _ in range(2000):
        room.look()
        if not room.left:
            return
        room.book.settle()
    raise AssertionError("rows stay unsettled")


def fresh(texts: list[str]) -> list[object]:
    """What the fields hold at the end in a fresh run of a text."""
    looks = [f"show {name} end" for name in FIELDS]
    with Document() as document:
        document.update_lines([*texts, *looks])
        return [list(seen(document, len(texts) + at) or ()) for at in range(len(looks))]


def held(room: Room) -> list[object]:
    """What the fields of a room hold at the end."""
    return [list(room.end(name) or ()) for name in FIELDS]


def test_own_undo_beside_fresh_runs(libparis: Path) -> None:
    """Three seats edit and take back; the values are those of a fresh run of the text, and an undo gives back texts."""
    random, undone, refused = Random(5), 0, 0
    turns = Turns(1, lambda book: None)
    while undone < UNDOS:
        room = Room("x", HEAD, libparis, turns.wake)
        for _ in range(60):
            who = random.choice([1, 2, 3])
            if random.random() < 0.4:
                before = list(room.lines.texts)
                try:
                    room.undo(who, lambda number: NAMES[number])
                    undone += 1
                except Refused as error:
                    refused += "has changed the same line since" in str(error)
                    assert room.lines.texts == before
            else:
                room.edit([below(random, room)], who, NAMES[who], FREE)
            if random.random() < 0.1:
                settled(room)
                assert held(room) == fresh(room.lines.texts)
        assert room.size == size_of(room.lines.texts)
        room.close()
    turns.close()
    assert refused > 10


def below(random: Random, room: Room) -> Change:
    """A change of a line that isn't of the head."""
    ids = room.lines.ids[len(HEAD) :]
    if not ids or random.random() < 0.4:
        return Change(Op.INSERT, random.choice([room.lines.ids[len(HEAD) - 1], *ids]), text=some_line(random))
    number = random.choice(ids)
    was = room.lines.texts[room.lines.ids.index(number)]
    if random.random() < 0.3:
        return Change(Op.DELETE, number, was)
    return Change(Op.REPLACE, number, was, some_line(random))


def test_an_undo_takes_nobody_else_s_work_back(libparis: Path) -> None:
    turns = Turns(1, lambda book: None)
    room = Room("x", ["# a", "# b"], libparis, turns.wake)
    first, second = room.lines.ids
    room.edit([Change(Op.REPLACE, first, "# a", "# Ann")], 1, "Ann", FREE)
    room.edit([Change(Op.REPLACE, second, "# b", "# Ann too")], 1, "Ann", FREE)
    room.edit([Change(Op.REPLACE, first, "# Ann", "# Bob")], 2, "Bob", FREE)
    room.undo(1, NAMES.__getitem__)
    assert room.lines.texts == ["# Bob", "# b"]
    with pytest.raises(Refused, match="Bob has changed the same line since: # Ann"):
        room.undo(1, NAMES.__getitem__)
    with pytest.raises(Refused, match="nothing of yours"):
        room.undo(3, NAMES.__getitem__)
    room.undo(2, NAMES.__getitem__)
    room.edit([Change(Op.DELETE, first, "# Ann")], 2, "Bob", FREE)
    with pytest.raises(Refused, match="Bob has changed"):
        room.undo(1, NAMES.__getitem__)
    room.undo(2, NAMES.__getitem__)
    assert room.lines.texts == ["# Ann", "# b"] and room.lines.ids == [first, second]
    room.close()
    turns.close()


# Journals.


def test_a_journal_says_what_the_program_is(tmp_path: Path, libparis: Path) -> None:
    turns, journal, random = Turns(1, lambda book: None), Journal(tmp_path), Random(3)
    room = Room("x", HEAD, libparis, turns.wake, at=7, keep=journal.add)
    for turn in range(80):
        who = random.choice([1, 2, 3])
        if turn == 40:
            room.begin(room.lines.texts, "a new chapter", 2)
        if random.random() < 0.3:
            try:
                room.undo(who, NAMES.__getitem__)
            except Refused:
                pass
        else:
            room.edit([below(random, room)], who, NAMES[who], FREE)
    kept = read_journal(tmp_path)[7]
    again = Room("x", HEAD, libparis, turns.wake, at=7, kept=kept)
    assert (again.lines.texts, again.lines.ids) == (room.lines.texts, room.lines.ids)
    assert (again.number, again.lines.by, again.size) == (room.number, room.lines.by, room.size)
    settled(again)
    assert held(again) == fresh(room.lines.texts)
    # What may be taken back may be taken back again.
    for each in (room, again):
        try:
            each.undo(2, NAMES.__getitem__)
        except Refused:
            pass
    assert again.lines.texts == room.lines.texts
    for each in (room, again):
        each.close()
    journal.close()
    turns.close()


def test_the_text_behind_an_edit() -> None:
    kept = Kept()
    kept.begin(["a", "b"], 5, 3, 0)
    kept.add(Entry(4, 0.0, 1, [Done(Op.REPLACE, 5, "A", was="a")]))
    kept.add(Entry(5, 0.0, 1, [Done(Op.INSERT, 7, "c", 6)]))
    kept.add(Entry(6, 0.0, 2, [Done(Op.DELETE, 5, was="A")]))
    assert [kept.after(number) for number in (3, 4, 5, 6)] == [["a", "b"], ["A", "b"], ["A", "b", "c"], ["b", "c"]]


def test_a_line_that_was_being_written_is_cut_off(tmp_path: Path) -> None:
    lines = [
        line_of_chapter(0, "x", ["a"], 1, 1, 0),
        line_of_entry(0, Entry(2, 1.5, 1, [Done(Op.INSERT, 2, "é\u202e", 1)])),
    ]
    (tmp_path / NAME).write_text("".join(f"{line}\n" for line in lines) + lines[1][:20])
    assert read_journal(tmp_path)[0].lines.texts == ["a", "é\u202e"]
    journal = Journal(tmp_path)
    journal.add(line_of_entry(0, Entry(3, 2.0, 1, [Done(Op.DELETE, 1, was="a")])))
    journal.close()
    assert read_journal(tmp_path)[0].lines.texts == ["é\u202e"] and read_journal(tmp_path)[0].number == 3


@pytest.mark.parametrize("line", ["x", "[]", "{}", json.dumps({"room": 0}), json.dumps({"room": "0", "begin": 1})])
def test_what_is_no_journal(tmp_path: Path, line: str) -> None:
    (tmp_path / NAME).write_text(f"{line}\n")
    with pytest.raises(ValueError, match="none of a journal"):
        read_journal(tmp_path)


def test_a_journal_that_cannot_be_written_refuses_edits(tmp_path: Path, libparis: Path) -> None:
    is_full = False

    def keep(line: str) -> None:
        if is_full:
            raise OSError(28, "No space left on device")

    turns = Turns(1, lambda book: None)
    room = Room("x", ["# a"], libparis, turns.wake, keep=keep)
    is_full = True
    with pytest.raises(Refused, match="the journal can't be written: No space left"):
        room.edit([Change(Op.REPLACE, 1, "# a", "# b"), Change(Op.INSERT, 1, text="# c")], 1, "Ann", FREE)
    assert room.lines.texts == ["# a"] and room.number == 1
    room.close()
    turns.close()
