"""What a tab of a live page is told: what is other and no more, values of the program's own, and refused rows."""

from __future__ import annotations

import json
from collections.abc import Iterator, Sequence
from pathlib import Path
from random import Random

import pytest
from live_tabs import Copy, numbers_in, rest, strip_in
from pages import answers, script_of
from test_page import random_script

from pevudlo.client import ledger
from pevudlo.client.ledger import ranges_of
from pevudlo.client.pieces import STRETCHES, Kind, packed
from pevudlo.lang.replies import Status
from pevudlo.live.running import RunningSession
from pevudlo.live.session import BEFORE, COMPARED, NOW, Look
from pevudlo.wire.book import Book
from pevudlo.wire.pipe import is_comment

ROWS = 4096
MOST_BYTES = 1_000


@pytest.fixture
def session(libparis: Path) -> Iterator[RunningSession]:
    made = RunningSession(libparis, 2)
    yield made
    made.close()


def many_rows() -> list[str]:
    """4,096 rows, of which row 2,000 alone writes g, and row 2,001 is refused for its data."""
    lines = ["set S 16", *(f"field {name} S 8" for name in "abcdg"), "input a 0 " + " ".join(map(str, range(16)))]
    texts = [f"u-max-3-1L {'cd'[row % 2]} a b 8" for row in range(ROWS)]
    texts[1999], texts[2000] = "u-max-3-1L g a b 8", "send-1L g b a 8 none"
    return [*lines, *(f"insert end {text}" for text in texts)]


def told(session: RunningSession, tab: Copy) -> int:
    """Tells a tab what is new, and gives how many bytes that are."""
    text = json.dumps(session.state(tab.version))
    tab.take(json.loads(text))
    return len(text)


def looked(session: RunningSession, tab: Copy, key: str, row: int, which: int = NOW) -> list[int] | Kind:
    """A value as a tab is given it."""
    (piece,) = session.looks([Look(key, row, False, which)], tab.version, tab.edits)
    return numbers_in(piece)


def shown(lines: Sequence[str], key: str, row: int) -> list[int]:
    """What the program shows, once all rows are settled."""
    reply = answers([*lines, "settle", f"show {key} {f'after {row}' if row else 'start'}"])[-1][0]
    return list(map(int, reply.split(" ")[1:]))


def test_an_edit_of_one_row_tells_what_is_other(session: RunningSession) -> None:
    session.load(many_rows())
    rest(session)
    tab = Copy()
    assert told(session, tab) < 50_000 and tab.ids == list(range(1, ROWS + 1)) and not tab.unsettled
    session.run("delete 2001")
    rest(session)
    assert told(session, tab) < MOST_BYTES and tab.news["order"] == [1, 2000, 2002, ROWS] and not tab.faults

    session.run("replace 2000 u-min-3-1L g a b 8")
    rest(session)
    assert told(session, tab) < MOST_BYTES and "order" not in tab.news and "sets" not in tab.news
    assert tab.news["texts"] == {"ids": [2000, 2000], "texts": ["u-min-3-1L g a b 8"], "of": [0]}
    assert tab.touched == [2000] and tab.news["line"] == "replace 2000 u-min-3-1L g a b 8"
    assert looked(session, tab, "g", 2000) == shown(session.taken, "g", 2000)
    assert looked(session, tab, "g", 2000, BEFORE) == [max(place, 0) for place in range(16)]

    session.run("insert after 7 set-test S")
    rest(session)
    assert told(session, tab) < MOST_BYTES
    assert tab.news["order"] == [1, 7, 4097, 4097, 8, 2000, 2002, ROWS] and tab.texts[4097] == "set-test S"
    session.undo()
    assert told(session, tab) < MOST_BYTES and tab.news["order"] == [1, 2000, 2002, ROWS]


def test_ids_as_ranges() -> None:
    assert ranges_of([]) == [] and ranges_of([5]) == [5, 5]
    assert ranges_of([1, 2, 3, 9, 8, 10, 11]) == [1, 3, 9, 9, 8, 8, 10, 11]


def test_behind_an_edit_no_list_is_asked_for(session: RunningSession, monkeypatch: pytest.MonkeyPatch) -> None:
    session.load(many_rows())
    rest(session)
    tab, asked, ask = Copy(), list[str](), Book.ask
    told(session, tab)

    def noted(book: Book, line: str) -> list[str]:
        asked.append(line)
        return ask(book, line)

    monkeypatch.setattr(Book, "ask", noted)
    lines = [
        "replace 2000 u-min-3-1L g a b 8",
        "delete 9",
        "insert after 8 u-move-1L c a 8",
        "input b 3 7",
        "field h S 8",
    ]
    for line in lines:
        assert not session.run(line).is_refused
    rest(session)
    assert [line for line in asked if line != "faults"] == lines
    told(session, tab)
    # (each row reads `b`, but for the new one)
    assert tab.ids == [*range(1, 9), ROWS + 1, *range(10, ROWS + 1)] and sorted(tab.ids) == tab.touched
    monkeypatch.undo()
    assert_listed(session)


def assert_listed(session: RunningSession) -> None:
    """Fails where the rows as tabs know them aren't those that the program lists."""
    with session.lock, session.book.lock:
        session.refresh()
        known = [(row, each.text, each.edition, each.is_open) for row, each in session.ledger.rows.items()]
        assert known == [(row.row, row.text, row.edition, row.status is not Status.SETTLED) for row in session.rows]


@pytest.mark.parametrize("most", [20_000, 6])
@pytest.mark.parametrize("seed", range(8))
def test_values_are_what_the_program_shows_and_unsettled_rows_have_none(
    session: RunningSession, seed: int, most: int, monkeypatch: pytest.MonkeyPatch
) -> None:
    """After random edits, undo, redo, orders and late results, told to a tab that is late at times, and knows less than
    is noted."""
    monkeypatch.setattr(ledger, "MOST_NOTED", most)
    chance, tab = Random(seed), Copy()
    for line in random_script(seed):
        word = chance.choice(["undo", "redo"]) if chance.random() < 0.1 else ""
        try:
            getattr(session, word)() if word else session.run(line)
        except ValueError:
            pass
        assert_listed(session)
        if chance.random() < 0.5:
            continue
        told(session, tab)
        board, lines = session.board, [each for each in session.taken if each.split(" ")[0] not in BY_HAND]
        assert tab.ids == board.rows and tab.texts == board.texts
        names = [(key, 0) for key in board.fields]
        names += [(key, row) for row in tab.ids for key in board.keys_written(tab.texts[row])]
        for key, row in names if tab.ids else ():
            numbers = looked(session, tab, key, row)
            if isinstance(numbers, list):
                assert numbers == shown_all(lines, names)[key, row]
                assert row == 0 or row not in session.book.unsettled()


BY_HAND = ("take", "bring", "release", "settle", "show", "list", "faults")
KNOWN: dict[tuple[str, ...], dict[tuple[str, int], list[int]]] = {}


def shown_all(lines: list[str], names: list[tuple[str, int]]) -> dict[tuple[str, int], list[int]]:
    """What the program shows of all these values, by one run."""
    name = (*lines, *map(str, names))
    if name not in KNOWN:
        looks = [f"show {key} {f'after {row}' if row else 'start'}" for key, row in names]
        replies = answers([*lines, "settle", *looks])[-len(looks) :]
        KNOWN[name] = {each: list(map(int, reply[0].split(" ")[1:])) for each, reply in zip(names, replies)}
    return KNOWN[name]


def test_a_tab_that_is_behind_gets_no_number_of_another_program(session: RunningSession) -> None:
    session.load(["set S 4", "field a S 8", "field b S 8", "input a 0 1 2 3 4", "insert end u-move-1L b a 8"])
    rest(session)
    tab, late = Copy(), Copy()
    told(session, tab)
    told(session, late)
    session.run("input a 0 9")
    rest(session)
    assert looked(session, late, "b", 1) is looked(session, late, "a", 0) is Kind.OTHER
    assert looked(session, late, "b", 1, BEFORE) is Kind.NONE
    told(session, tab)
    assert looked(session, tab, "b", 1) == [9, 2, 3, 4] and looked(session, tab, "b", 1, BEFORE) == [1, 2, 3, 4]
    session.stop()
    session.run("input a 1 8")
    told(session, tab)
    assert tab.unsettled == {1} and looked(session, tab, "b", 1) is not None
    assert not isinstance(looked(session, tab, "b", 1), list)


def test_late_results_of_an_undone_program_are_no_values(session: RunningSession) -> None:
    """Editions come again after undo, and nothing that was told of them before is kept."""
    session.load(["set S 4", "field b S 8", "insert end u-move-constant-1L b 1 8"])
    rest(session)
    tab = Copy()
    told(session, tab)
    for number in (7, 9):
        session.run(f"replace 1 u-move-constant-1L b {number} 8")
        rest(session)
        told(session, tab)
        assert tab.touched == [1] and looked(session, tab, "b", 1) == [number] * 4
        session.undo()
        told(session, tab)
        assert tab.touched == [1] and looked(session, tab, "b", 1) == [1] * 4
        assert looked(session, tab, "b", 1, BEFORE) == [number] * 4


# Large values


def test_a_large_value_is_summed_up(session: RunningSession) -> None:
    numbers = [place * 7919 % 65521 for place in range(4096)]
    lines = ["set S 4096", "field a S 16", "field b S 16"]
    lines += [f"input a {at} " + " ".join(map(str, numbers[at : at + 512])) for at in range(0, 4096, 512)]
    session.load([*lines, "insert end u-move-1L b a 16"])
    rest(session)
    tab = Copy()
    told(session, tab)
    session.run("input a 100 0")
    rest(session)
    told(session, tab)
    numbers[100] = 0
    (piece,) = session.looks([Look("b", 1, True, COMPARED)], tab.version, tab.edits)
    strip = strip_in(piece)
    low, high = min(numbers), max(numbers)
    stretches = [numbers[at : at + 16] for at in range(0, 4096, 16)]
    scaled = [bytes((end(part) - low) * 255 // (high - low) for part in stretches) for end in (max, min)]
    assert (strip["low"], strip["high"], strip["count"], strip["changed"]) == (low, high, 4096, 1)
    assert strip["parts"][:2] == tuple(scaled) and strip["flags"] == bytes(int(at == 6) for at in range(STRETCHES))
    assert strip["parts"][2][0] == (sum(stretches[0]) - 16 * low) * 255 // (16 * (high - low))


@pytest.mark.parametrize("width", [1, 8, 16, 32, 64, 100, 128])
def test_numbers_of_each_width_come_through(width: int) -> None:
    numbers = [(1 << width) - 1, 0, (1 << width) // 3]
    assert numbers_in(packed(numbers, width, True)) == numbers
    many = [numbers[place % 3] for place in range(300)]
    strip = strip_in(packed(many, width, True, many[:-1] + [1 - min(1, many[-1])]))
    assert (strip["low"], strip["high"], strip["changed"]) == (0, max(numbers), 1)


# Rows that are refused for their data


COLLISION = [
    *("set S 4", "field a S 8", "field to S 8", "field c S 8"),
    *("input to 0 0 0 1 9", "input a 0 1 2 3 4"),
    *("insert end send-1L c to a 8 none", "insert end get-1L c to a 8", "insert end u-move-1L c a 8"),
]


def test_rows_that_are_refused_for_their_data_are_told(session: RunningSession) -> None:
    session.load(COLLISION)
    rest(session)
    tab = Copy()
    told(session, tab)
    faults = answers([*COLLISION, "settle", "faults"])[-1][1:]
    assert [" ".join(map(str, fault[:3])) for fault in tab.state["faults"]] == faults
    words = "processor 3 holds the address 9 in `to`: `S` has 4 processors, of addresses 0 to 3"
    assert tab.faults == {1: words, 2: words}

    session.run("input to 3 8")
    rest(session)
    told(session, tab)
    assert tab.faults == {row: words.replace("address 9", "address 8") for row in (1, 2)}
    session.run("input to 3 2")
    rest(session)
    told(session, tab)
    assert [*tab.faults] == [1] and "two messages meet at processor 0" in tab.faults[1]
    session.run("replace 1 send-with-u-add-1L c to a 8 none")
    rest(session)
    told(session, tab)
    assert tab.faults == {} and not tab.unsettled


# Scripts


def test_comments_survive(session: RunningSession) -> None:
    lines = script_of("life")
    assert any(map(is_comment, lines))
    taken = [line for line in lines if is_comment(line) or line.split(" ")[0] not in ("show", "list", "faults")]
    session.load(lines)
    assert session.taken == taken
    session.run("input cell 3 1")
    assert session.taken == [*taken, "input cell 3 1"]
    assert session.commands == sum(not is_comment(line) for line in taken) + 1


def test_lines_of_a_script_that_are_refused_are_told_with_their_numbers(session: RunningSession) -> None:
    session.load(["set S 4", "# b is not there", "field a S 8", "insert end u-move-1L a b 8"])
    tab = Copy()
    told(session, tab)
    (step,) = tab.state["log"]
    assert (step["number"], step["line"], step["reply"]) == (4, "insert end u-move-1L a b 8", "refused 7")
    assert step["refused"]["text"] and step["refused"]["at"] is None
    session.run("insrt end set-test S")
    told(session, tab)
    (step,) = tab.news["log"]
    assert (step["number"], step["refused"]["at"]) == (0, 0) and "did you mean `insert`" in step["refused"]["hint"]
