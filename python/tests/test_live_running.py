"""A live page over the library, by HTTP: rows that run beside edits, undo, the history, two tabs, and a shared page."""

from __future__ import annotations

import re
import threading
import time
import urllib.error
from collections.abc import Iterator
from pathlib import Path

import pytest
from live_tabs import PATIENCE, Tab, rest, serve
from pages import script_of

from pevudlo import Machine
from pevudlo.live import running
from pevudlo.live.running import RunningSession
from pevudlo.live.server import Server
from pevudlo.wire.book import Book, Slot
from pevudlo.wire.library import Held

SLOW_ROWS = 16
SLOW = [
    "set S 128x128",
    "set T 4",
    "field x T 8",
    "field y T 8",
    "field i S 64",
    "field a S 64",
    *(f"field c{number} S 64" for number in range(SLOW_ROWS)),
    *(
        f"input i {n} " + " ".join(str((j * 797 + 13) % 16384) for j in range(n, n + 1024))
        for n in range(0, 16384, 1024)
    ),
    *(f"input a {n} " + " ".join(str(j * j % 65521) for j in range(n, n + 1024)) for n in range(0, 16384, 1024)),
    *(f"insert end send-with-u-add-1L c{number} i a 64 none" for number in range(SLOW_ROWS)),
    "insert end u-move-1L y x 8",
]


@pytest.fixture
def server(libparis: Path) -> Iterator[Server]:
    yield from serve(SLOW)


@pytest.fixture
def small(libparis: Path) -> Iterator[Server]:
    lines = ["set S 4", "field a S 8", "field b S 8", "field c S 8", "input a 0 1 2 3 4"]
    yield from serve([*lines, "insert end u-move-1L b a 8", "insert end u-move-1L c b 8"])


@pytest.fixture
def shared(libparis: Path) -> Iterator[Server]:
    lines = ["set S 4", "field a S 8", "field b S 8", "input a 0 1 2 3 4", "insert end u-move-1L b a 8"]
    yield from serve(lines, is_shared=True)


def test_edits_go_on_while_slow_rows_run(server: Server) -> None:
    tab = Tab(server)
    tab.settled()
    open_rows, took, running = list[int](), list[float](), set[int]()
    assert tab.command("input a 5 99")["reply"] == ["ok"]
    until = time.monotonic() + PATIENCE
    while not (running & {1, 2} and not open_rows[-1] and len(open_rows) > 20):
        begun = time.perf_counter()
        if len(open_rows) < 20 or not running & {1, 2}:
            # The rows run anew, however fast they are.
            tab.command(f"input a 5 {len(open_rows)}")
        assert tab.command(f"input x 2 {len(open_rows) % 256}")["reply"] == ["ok"]
        took.append(time.perf_counter() - begun)
        running.add(tab.look()["out"])
        open_rows.append(len(tab.unsettled))
        assert time.monotonic() < until, open_rows
    assert running & {1, 2} and any(open_rows)
    tab.settled()
    assert len(took) > 3
    with Machine(library=True) as fresh:
        session = server.session
        assert isinstance(session, RunningSession)
        for line in session.script().splitlines():
            fresh.raw(line)
        fresh.raw("settle")
        for key in ("c0", "c15", "y"):
            assert fresh.raw(f"show {key} end") == session.book.ask(f"show {key} end")


def test_an_answer_waits_for_what_is_done_at_once_alone(server: Server, monkeypatch: pytest.MonkeyPatch) -> None:
    execute, free = Book.execute, threading.Event()

    def held(book: Book, slot: Slot) -> None:
        free.wait(PATIENCE)
        execute(book, slot)

    tab = Tab(server)
    tab.settled()
    monkeypatch.setattr(running, "AT_ONCE", PATIENCE)
    with monkeypatch.context() as patched:
        patched.setattr(Book, "execute", held)
        begun = time.monotonic()
        tab.take(tab.command("input a 5 99", seen=str(tab.version))["state"])
        assert len(tab.unsettled) == SLOW_ROWS and time.monotonic() - begun < PATIENCE / 2
        free.set()
        tab.settled()
    tab.take(tab.command("input x 2 7", seen=str(tab.version))["state"])
    assert tab.touched == [SLOW_ROWS + 1] and not tab.unsettled


def test_a_late_result_is_shown_thrown_away(server: Server) -> None:
    tab = Tab(server)
    tab.settled()
    session = server.session
    assert isinstance(session, RunningSession)
    crew = session.background.crew
    for number in range(20):
        tab.command(f"input a 5 {number}")
        until = time.monotonic() + 5
        while not crew.running and time.monotonic() < until:
            time.sleep(0.0005)
    tab.settled()
    time.sleep(0.2)
    said = tab.look()["thrown"][0]
    assert re.fullmatch(r"A late result of row \d+ was thrown away: the row was changed meanwhile\.", said)


def test_stop_and_go_on(server: Server) -> None:
    tab = Tab(server)
    tab.settled()
    tab.post("stop")
    tab.command("input a 7 1")
    time.sleep(0.3)
    state = tab.look()
    assert (state["out"], state["on"], len(tab.unsettled)) == (0, False, SLOW_ROWS)
    tab.post("go")
    assert tab.settled()["on"]


def test_undo_gives_values_back_at_once(server: Server) -> None:
    tab = Tab(server)
    tab.settled()
    before = server.session.script()
    tab.command("input a 5 99")
    assert tab.look()["undo"] == "input a 5 99"
    tab.post("undo")
    assert tab.look()["redo"] == "input a 5 99" and not tab.unsettled
    assert server.session.script() == before
    tab.post("redo")
    tab.settled()
    assert server.session.script() == before + "input a 5 99\n"


def test_values_after_undo_are_those_of_that_program(small: Server) -> None:
    """Editions come again after undo, and nothing that was seen of them before is shown."""
    tab = Tab(small)
    tab.settled()
    assert tab.numbers("c", 2) == [1, 2, 3, 4]
    tab.command("replace 1 u-move-constant-1L b 7 8")
    tab.settled()
    assert tab.numbers("c", 2) == [7] * 4
    tab.post("undo")
    tab.command("replace 1 u-move-constant-1L b 9 8")
    tab.settled()
    assert tab.numbers("c", 2) == tab.numbers("b", 1) == [9] * 4


def test_the_history_is_gone_through_by_its_places(small: Server) -> None:
    tab = Tab(small)
    tab.settled()
    for number in (10, 20, 30):
        tab.command(f"input a 0 {number}")
        tab.settled()
    assert (tab.state["at"], tab.state["of"]) == (3, 3)
    seen = []
    for place in (0, 2, 3, 1):
        tab.post("history", place=str(place))
        assert (tab.settled()["at"], tab.state["of"]) == (place, 3)
        numbers = tab.numbers("c", 2)
        assert isinstance(numbers, list)
        seen.append(numbers[0])
    assert seen == [1, 20, 30, 10]
    tab.command("input a 0 40")
    assert (tab.settled()["at"], tab.state["of"]) == (2, 2)


def test_a_script_is_loaded_with_no_snapshot_and_edits_behind_it_are_taken_back(
    libparis: Path, monkeypatch: pytest.MonkeyPatch
) -> None:
    snapshot, made = Book.snapshot, list[Book]()

    def counted(book: Book) -> Held:
        made.append(book)
        return snapshot(book)

    monkeypatch.setattr(Book, "snapshot", counted)
    session = RunningSession(libparis, 1)
    lines = ["set S 4", "field a S 8", "input a 0 1 2 3 4", *["insert end u-add-3-1L a a a 8"] * 100, "insert end none"]
    assert [step.text for step in session.load(lines)] == ["insert end none"]
    assert len(made) == 0
    with pytest.raises(ValueError, match="nothing to undo"):
        session.undo()
    assert session.run("delete 100").is_refused is False
    assert len(session.rows) == 99
    session.undo()
    assert len(session.rows) == 100 and session.taken == lines[:-1]
    with pytest.raises(ValueError, match="nothing to undo"):
        session.undo()
    session.close()


def test_a_row_of_a_script_is_unsettled_since_an_edit_and_not_since_a_look(libparis: Path) -> None:
    session = RunningSession(libparis, 1)
    edits = ["set S 4", "field a S 8", "insert end u-add-3-1L a a a 8"]
    session.load([*edits, "show a end", "list", "insert end none", "insert end u-move-1L a a 8"])
    told = [*edits, "insert end u-move-1L a a 8"]
    assert session.edit_lines == dict(enumerate(told, 1))
    assert [session.edit_lines[row.edition] for row in session.rows] == told[2:]
    session.close()


def test_why_a_row_is_unsettled(small: Server) -> None:
    tab = Tab(small)
    tab.settled()
    tab.post("stop")
    tab.command("input a 0 9")
    tab.look()
    assert tab.unsettled == {1, 2} and tab.touched == [1, 2]
    session = small.session
    assert isinstance(session, RunningSession)
    assert [session.since(row) for row in (1, 2, 99)] == ["input a 0 9", "input a 0 9", ""]
    tab.post("go")
    tab.settled()


def test_the_last_edit_is_told_with_the_rows_that_it_touched(small: Server) -> None:
    tab = Tab(small)
    tab.settled()
    tab.command("replace 2 u-move-constant-1L c 3 8")
    assert tab.look()["line"] == "replace 2 u-move-constant-1L c 3 8" and tab.touched == [2]


def test_one_tab_edits_and_the_others_look(small: Server) -> None:
    one, other = Tab(small, "one"), Tab(small, "other")
    assert one.command("input a 0 9")["reply"] == ["ok"]
    acts: list[tuple[str, dict[str, str]]] = [
        ("command", {"line": "input a 0 8"}),
        ("undo", {}),
        ("stop", {}),
        ("history", {"place": "0"}),
    ]
    for act, body in acts:
        assert "Another tab edits" in other.post(act, **body)["refused"]["text"]
    assert other.command("show a end")["reply"] == ["values 9 2 3 4"]
    assert other.look()["editor"] == "one"
    other.post("pen")
    assert other.command("input a 0 8")["reply"] == ["ok"]
    assert "Another tab edits" in one.command("input a 0 7")["refused"]["text"]


def test_on_a_shared_page_an_edit_of_an_older_row_is_refused_with_both_texts(shared: Server) -> None:
    one, other = Tab(shared, "one"), Tab(shared, "other")
    was = "u-move-1L b a 8"
    assert one.command("replace 1 u-move-constant-1L b 5 8", was=was)["reply"] == ["ok"]
    answer = other.command("replace 1 u-move-constant-1L b 6 8", was=was)
    said = answer["refused"]["text"]
    assert "is now `u-move-constant-1L b 5 8`. Yours was `u-move-constant-1L b 6 8`. Nothing was changed." in said
    assert answer["text"] == "u-move-constant-1L b 5 8" and answer["reply"] == []
    assert other.command("replace 1 u-move-constant-1L b 6 8", was=answer["text"])["reply"] == ["ok"]
    one.settled()
    assert one.numbers("b", 1) == [6] * 4


def test_tabs_edit_a_shared_page_at_once(shared: Server) -> None:
    tabs = [Tab(shared, str(number)) for number in range(4)]

    def work(tab: Tab) -> None:
        for number in range(10):
            assert tab.command(f"input a {tab.name} {number}")["reply"] == ["ok"]
            tab.look()

    threads = [threading.Thread(target=work, args=(tab,)) for tab in tabs]
    for thread in threads:
        thread.start()
    for thread in threads:
        thread.join(PATIENCE)
    tabs[0].settled()
    assert tabs[0].numbers("b", 1) == [9] * 4


def test_what_nobody_can_do(small: Server) -> None:
    tab = Tab(small)
    acts: list[tuple[str, dict[str, str]]] = [
        ("undo", {}),
        ("redo", {}),
        ("history", {"place": "5"}),
        ("history", {"place": "x"}),
        ("order", {}),
    ]
    for act, body in acts:
        with pytest.raises(urllib.error.HTTPError) as error:
            tab.post(act, **body)
        assert error.value.code == 400
    assert tab.command("insert end zzz")["refused"]["at"] == 11


@pytest.mark.parametrize("name", ["life", "radix-sort"])
def test_programs_of_the_gallery_are_shown_as_they_are(libparis: Path, name: str) -> None:
    lines = script_of(name)
    for server in serve(lines):
        tab = Tab(server)
        tab.settled()
        session = server.session
        assert isinstance(session, RunningSession)
        with Machine(library=True) as fresh:
            for line in lines:
                fresh.raw(line)
            fresh.raw("settle")
            for key in session.board.keys():
                assert fresh.raw(f"show {key} end") == session.book.ask(f"show {key} end"), key


def test_the_answer_to_a_command_brings_what_is_new(small: Server) -> None:
    """Rows that are done at once are told with it."""
    tab = Tab(small)
    tab.settled()
    rest(small.session)
    tab.look()
    state = tab.command("replace 2 lognot-2-1L c b 8", seen=str(tab.version))["state"]
    tab.take(state)
    assert tab.texts[2] == "lognot-2-1L c b 8"
    assert "state" not in tab.command("replace 2 u-move-1L c b 8")


def test_late_results_and_edits_of_many_tabs_leave_all_with_the_same(small: Server) -> None:
    """Tabs that ask at any time know in the end what the program is, and no row stays unsettled in one of them."""
    tabs = [Tab(small, "one") for _ in range(4)]

    def work(tab: Tab, number: int) -> None:
        for turn in range(15):
            if number < 2:
                tab.command(f"input a {number} {turn}")
            if turn % (number + 1) == 0:
                tab.look()

    threads = [threading.Thread(target=work, args=(tab, number)) for number, tab in enumerate(tabs)]
    for thread in threads:
        thread.start()
    for thread in threads:
        thread.join(PATIENCE)
    rest(small.session)
    for tab in tabs:
        tab.look()
        assert not tab.unsettled and tab.numbers("c", 2) == [14, 14, 3, 4]
