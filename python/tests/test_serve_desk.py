"""One served program at a desk: entries, the audit, chapters, journals done again, and whose rows run first."""

from __future__ import annotations

import threading
from collections.abc import Iterator
from dataclasses import replace
from pathlib import Path
from random import Random

import pytest
from test_serve_lines import FREE, HEAD, NAMES, below, fresh, held
from waits import LIMIT, within

from pevudlo.serve.journal import NAME, Journal, read_journal, sum_in, summed, without_sum
from pevudlo.serve.limits import Refused
from pevudlo.serve.lines import Change, Op
from pevudlo.serve.replay import check_journal
from pevudlo.serve.room import Room
from pevudlo.serve.seated import SeatedBook, SeatedTurns
from pevudlo.serve.turns import Turns
from pevudlo.wire.desk import Kind

TEXT = ["set S 4", "field a S 8", "field b S 8", "input a 0 1 2 3 4", "u-add-3-1L b a a 8", "show b end"]


@pytest.fixture
def turns() -> Iterator[SeatedTurns]:
    """Two workers."""
    turns = SeatedTurns(2, lambda book: None)
    yield turns
    turns.close()


def desk_of(room: Room) -> SeatedBook:
    """The book of a room, which is a desk's."""
    assert isinstance(room.book, SeatedBook)
    return room.book


def entries(room: Room) -> list[tuple[int | None, Kind, str]]:
    """The entries of a room's desk: whose each is, its kind and its reply."""
    book, found, number = desk_of(room), list[tuple[int | None, Kind, str]](), 1
    while (told := book.history.entry(number)) is not None:
        found.append((book.people.get(told.seat), told.kind, told.text.rstrip("\n")))
        number += 1
    return found


def at_rest(room: Room) -> bool:
    """Whether all rows are settled."""
    room.look()
    return room.is_settled


def replaced(room: Room, old: str, new: str) -> Change:
    """The change of a line."""
    return Change(Op.REPLACE, room.lines.ids[room.lines.texts.index(old)], old, new)


def test_each_edit_and_each_result_is_an_entry_of_who_made_it(libparis: Path, turns: SeatedTurns) -> None:
    room = Room("x", TEXT, libparis, turns.wake, begin_book=SeatedBook)
    assert within(LIMIT, lambda: at_rest(room))
    begun = entries(room)
    edits = [(who, reply) for who, kind, reply in begun if kind is Kind.EDIT]
    assert edits == [(0, "ok")] * 4 + [(0, "row 1")]
    assert [(who, reply) for who, kind, reply in begun if kind is Kind.BRING] == [(None, "kept")]
    room.edit([replaced(room, TEXT[3], "input a 0 5 6 7 8")], 2, "Bob", FREE)
    room.edit([replaced(room, TEXT[4], "u-multiply-3-1L b a a 8")], 1, "Ann", FREE)
    room.undo(1, NAMES.__getitem__)
    assert within(LIMIT, lambda: at_rest(room))
    later = [(who, reply) for who, kind, reply in entries(room)[len(begun) :] if kind is Kind.EDIT]
    assert later == [(2, "ok"), (1, "ok"), (1, "ok")]
    assert list(room.end("b") or ()) == [10, 12, 14, 16]
    assert desk_of(room).audit() == (True, len(entries(room)))
    room.close()


def test_a_chapter_ends_where_it_is_full(libparis: Path, turns: SeatedTurns, monkeypatch: pytest.MonkeyPatch) -> None:
    monkeypatch.setattr("pevudlo.serve.seated.MOST_ENTRIES", 20)
    room = Room("x", TEXT, libparis, turns.wake, begin_book=SeatedBook)
    for turn in range(30):
        now = next(line for line in room.lines.texts if line.startswith("input"))
        room.edit([replaced(room, now, f"input a 0 {turn}")], 1, "Ann", FREE)
        assert desk_of(room).entries < 20
    assert within(LIMIT, lambda: at_rest(room))
    assert desk_of(room).chapters >= 1 and len(entries(room)) == desk_of(room).entries
    assert list(room.end("b") or ())[0] == 58 and desk_of(room).audit()[0]
    room.close()


def test_a_chapter_ends_by_the_bytes_of_its_entries(
    libparis: Path, turns: SeatedTurns, monkeypatch: pytest.MonkeyPatch
) -> None:
    monkeypatch.setattr("pevudlo.serve.seated.MOST_BYTES", 1_000_000)
    text = ["set S 65536", "field a S 64", "field b S 64", "u-add-3-1L b a a 64"]
    room = Room("x", text, libparis, turns.wake, begin_book=SeatedBook)
    assert within(LIMIT, lambda: at_rest(room))
    # The order names three fields of 524,288 bytes each.
    assert desk_of(room).chapters >= 1 and desk_of(room).entries < 2
    room.close()


def test_random_edits_at_a_desk_beside_fresh_runs(libparis: Path, tmp_path: Path, turns: SeatedTurns) -> None:
    random, journal = Random(11), Journal(tmp_path)
    room = Room("x", HEAD, libparis, turns.wake, keep=journal.add, begin_book=SeatedBook)
    edits = 0
    for turn in range(150):
        who = random.choice([1, 2, 3])
        if turn == 75:
            room.begin(room.lines.texts, "a new chapter", 2)
        try:
            if random.random() < 0.3:
                room.undo(who, NAMES.__getitem__)
            else:
                room.edit([below(random, room)], who, NAMES[who], FREE)
            edits += 1
        except Refused:
            pass
        if turn % 25 == 0:
            assert within(LIMIT, lambda: at_rest(room))
            assert held(room) == fresh(room.lines.texts)
    assert within(LIMIT, lambda: at_rest(room)) and held(room) == fresh(room.lines.texts)
    assert desk_of(room).audit()[0]
    room.close()
    # (a server that begins again tells the whole text anew)
    again = Room("x", [], libparis, turns.wake, keep=journal.add, kept=read_journal(tmp_path)[0], begin_book=SeatedBook)
    again.edit([below(random, again)], 1, "Ann", FREE)
    again.close()
    journal.close()
    checked = check_journal(tmp_path, libparis)
    assert checked.wrong == "" and checked.edits == edits + 1 and checked.replies > edits


@pytest.fixture
def kept(tmp_path: Path, libparis: Path, turns: SeatedTurns) -> Path:
    """The journal of a few edits."""
    journal = Journal(tmp_path)
    room = Room("x", [*TEXT, "# é"], libparis, turns.wake, keep=journal.add, begin_book=SeatedBook)
    room.edit([replaced(room, TEXT[3], "input a 0 5 6 7 8")], 2, "Bob", FREE)
    more = Change(Op.INSERT, room.lines.ids[4], text="u-max-3-1L b a b 8")
    room.edit([replaced(room, TEXT[4], "u-multiply-3-1L b a a 8"), more], 1, "Ann", FREE)
    room.undo(2, NAMES.__getitem__)
    room.close()
    journal.close()
    return tmp_path / NAME


def test_a_changed_byte_of_a_journal_is_told(kept: Path, libparis: Path) -> None:
    assert check_journal(kept.parent, libparis).wrong == ""
    data, random = kept.read_bytes(), Random(7)
    places = {
        0,
        len(data) - 1,
        *random.sample(range(len(data)), 60),
        *(at for at in range(len(data)) if data[at] == 10),
    }
    for at in sorted(places):
        other = random.choice([byte for byte in (10, 32, 49, 97, 255) if byte != data[at]])
        kept.write_bytes(data[:at] + bytes([other]) + data[at + 1 :])
        assert check_journal(kept.parent, libparis).wrong != "", (at, data[at], other)
    lines = data.splitlines(keepends=True)
    for gone in range(len(lines) - 1):
        kept.write_bytes(b"".join(lines[:gone] + lines[gone + 1 :]))
        assert check_journal(kept.parent, libparis).wrong != "", gone


def test_other_replies_are_told_where_the_sums_are_right(kept: Path, libparis: Path) -> None:
    lines, before = list[str](), ""
    for line in kept.read_text().splitlines():
        told = summed(without_sum(line).replace("u-max-3-1L b a b", "u-max-3-1L b a z"), before)
        lines.append(told)
        before = sum_in(told)
    kept.write_text("".join(f"{line}\n" for line in lines))
    assert check_journal(kept.parent, libparis).wrong == "edit 3 had 2 replies, and has 1"


def test_rows_that_are_waited_for_run_first_and_in_turns(libparis: Path) -> None:
    """With no worker but this thread: b's rows stand behind many of a, and come first for who looks at b."""
    rows = ["u-add-3-1L a a a 8"] * 20 + ["u-add-3-1L b b b 8"] * 3
    text = [
        "set S 4",
        "set T 4",
        "field a S 8",
        "field b T 8",
        "input a 0 1",
        "input b 0 1",
        *rows,
        "show a end",
        "show b end",
    ]
    room = Room("x", text, libparis, lambda book: None, begin_book=SeatedBook)
    book, slot = desk_of(room), desk_of(room).slot()
    ran = list[int]()

    def run() -> None:
        assert book.run_row(slot, lambda: None)
        ran.append(slot.row)

    run()
    at_a, at_b = (room.values_of(number) for number in room.lines.ids[-2:])
    book.want({1: at_a, 2: at_b})
    for _ in range(6):
        run()
    assert ran[0] == 1 and sorted(ran[1:]) == [2, 3, 4, 21, 22, 23]
    assert all(one // 20 != other // 20 for one, other in zip(ran[1:], ran[2:])), "each has a turn"
    room.look()
    assert list(room.end("b") or ()) == [8, 0, 0, 0] and room.end("a") is None
    while book.run_row(slot, lambda: None):
        pass
    assert at_rest(room) and book.audit()[0]
    room.close()


def test_looks_wait_for_no_lock_of_the_desk(libparis: Path, turns: SeatedTurns) -> None:
    room = Room("x", TEXT, libparis, turns.wake, begin_book=SeatedBook)
    assert within(LIMIT, lambda: at_rest(room))
    is_held, is_over = threading.Event(), threading.Event()

    def hold() -> None:
        with desk_of(room).history.lock:
            is_held.set()
            is_over.wait(LIMIT)

    holder = threading.Thread(target=hold, daemon=True)
    holder.start()
    assert is_held.wait(LIMIT)
    assert room.gives([room.lines.ids[-1]]) and list(room.end("b") or ()) == [2, 4, 6, 8]
    assert holder.is_alive()
    is_over.set()
    holder.join(LIMIT)
    room.close()


LINES = (
    "paris 2",
    "set S 4",
    "set T 16",
    "field e S 8",
    "field a S 9",
    "faults",
    "take",
    "insert",
    "show a start",
    "show zz end",
    "input b 2 7",
    "input b 7 7 7",
    "send-1L b c d 8 none",
    "u-add-3-1L d d d 8",
    "u-add-3-1L d d e 8",
    "delete 1",
)
"""Lines that declare, look, are refused, or are none of a program."""


def test_a_desk_gives_what_a_book_gives(libparis: Path, turns: SeatedTurns) -> None:
    random, others = Random(23), Turns(1, lambda book: None)
    rooms = (
        Room("x", HEAD, libparis, turns.wake, begin_book=SeatedBook),
        Room("x", HEAD, libparis, others.wake),
    )
    for turn in range(120):
        change = below(random, rooms[0])
        if change.op is not Op.DELETE and random.random() < 0.5:
            change = replace(change, text=random.choice(LINES))
        for room in rooms:
            room.edit([change], random.choice([1, 2, 3]), "Ann", FREE)
        if turn % 5 == 0:
            assert all(within(LIMIT, lambda: at_rest(room)) for room in rooms)
            seated, alone = (room.gives(room.lines.ids) for room in rooms)
            assert seated == alone
            assert (rooms[0].faults, rooms[0].refused) == (rooms[1].faults, rooms[1].refused)
    assert desk_of(rooms[0]).audit()[0]
    for room in rooms:
        room.close()
    others.close()
