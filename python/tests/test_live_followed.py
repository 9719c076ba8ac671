"""A live page of a file that is followed: edited elsewhere, as a text on the page, and row by row."""

from __future__ import annotations

import json
import os
import signal
import subprocess
import sys
import threading
import time
import urllib.request
from collections.abc import Callable, Iterator
from pathlib import Path
from random import Random
from typing import Any

import pytest
from browsers import PATIENCE, complaints, evaluated, one, rows, until, values
from live_tabs import Copy, numbers_in, serve, strip_in
from pages import answers
from random_editor import Fresh, RandomEditor, compare, numbers_of
from selenium.webdriver.common.by import By
from selenium.webdriver.common.keys import Keys
from selenium.webdriver.remote.webdriver import WebDriver
from terminals import children_of
from test_live_http import asked, page
from test_watch import OTHERS, put_away
from usages import is_usage_of

from pevudlo.document import watched
from pevudlo.files import read_opened
from pevudlo.lang.replies import Status
from pevudlo.live import command
from pevudlo.live.followed import BY_THEMSELVES, FollowedSession, OtherText
from pevudlo.client.pieces import Kind
from pevudlo.live.server import Server
from pevudlo.live.session import BEFORE, COMPARED, Look, OtherRow
from pevudlo.wire.program import ROOT

HEAD = "set S 4\nfield a S 8\nfield b S 8\nfield c S 8\ninput a 0 1 2 3 4\n"
ADD, TWICE = "u-add-3-1L b a a 8\n", "u-add-3-1L c b b 8\n"
TEXT = HEAD + ADD + "# Twice.\n" + f"insert end {TWICE}" + "show c end\n"


@pytest.fixture
def path(tmp_path: Path) -> Path:
    """A file with a text."""
    (tmp_path / "sum.paris").write_text(TEXT)
    return tmp_path / "sum.paris"


@pytest.fixture
def session(path: Path, libparis: Path) -> Iterator[FollowedSession]:
    """A session of the file, which looks at it when it is told to."""
    session = FollowedSession(path, libparis, 2)
    session.look()
    yield session
    session.close()


def agree(session: FollowedSession, text: str) -> None:
    """Fails where text, file, rows and values aren't those of a text that is saved."""
    assert session.text == text and session.file.path.read_bytes() == bytes_of(text) and not session.trouble
    session.take(text)
    compare(session.document, text.split("\n")[:-1])
    texts = [text for _, text in Fresh(text.split("\n")[:-1]).rows]
    assert [row.text for row in session.rows] == texts
    assert {row.status for row in session.rows} <= {Status.SETTLED}


def bytes_of(text: str) -> bytes:
    """A text as a file has it."""
    return text.encode("utf-8", "surrogateescape")


def typed(session: FollowedSession, old: str, new: str, hold: bool = False) -> None:
    """Puts a part of the text, which stands there once, into the place of another."""
    before, part, _ = session.text.partition(old)
    assert part and session.text.count(old) == 1
    start = len(before.encode("utf-16-le")) // 2
    session.type(session.number, start, start + len(old.encode("utf-16-le")) // 2, new, hold)


# The text.


def test_a_change_of_the_file_is_taken(session: FollowedSession, path: Path) -> None:
    agree(session, TEXT)
    version = session.version
    session.look()
    assert session.version == version
    path.write_text(TEXT.replace("3 4", "3 5"))
    session.look()
    assert session.version > version and session.done.count == 2
    agree(session, TEXT.replace("3 4", "3 5"))


def test_what_is_typed_on_the_page_is_written_into_the_file(session: FollowedSession, path: Path) -> None:
    typed(session, "3 4", "3 5")
    assert path.read_text() == TEXT.replace("3 4", "3 5") and session.done.count == 2
    path.chmod(0o640)
    typed(session, "# Twice.", "# 😀 é.")
    typed(session, "é", "\udcff")
    assert path.read_bytes() == TEXT.replace("3 4", "3 5").replace("Twice", "😀 \udcff").encode(
        "utf-8", "surrogateescape"
    )
    assert path.stat().st_mode & 0o777 == 0o640 and not path.with_name("sum.paris~").exists()
    number = session.number
    session.look()
    assert session.number == number


def test_a_row_that_is_typed_stays_until_it_is_saved(session: FollowedSession) -> None:
    typed(session, "u-add-3-1L b", "u-add-3-1 b", hold=True)
    assert len(session.rows) == 2 and session.done.count == 0
    lines: Any = session.values(0, 99)["lines"]
    assert lines[5][0] == "refused" and lines[5][2].endswith("the row stays `u-add-3-1L b a a 8`")
    session.type(session.number, 0, 0, "", False)
    assert len(session.rows) == 1


def test_what_is_typed_into_another_text_is_refused(session: FollowedSession, path: Path) -> None:
    with pytest.raises(OtherText):
        session.type(session.number - 1, 0, 0, "x", False)
    # A change of the file that nobody has seen yet isn't overwritten.
    number = session.number
    path.write_text(TEXT.replace("3 4", "3 5"))
    with pytest.raises(OtherText):
        session.type(number, 0, 0, "x", False)
    agree(session, TEXT.replace("3 4", "3 5"))
    for start, end in ((0, 9_999), (5, 3), (-1, 3)):
        with pytest.raises(ValueError, match="no such part"):
            session.type(session.number, start, end, "x", False)


def test_a_file_that_cannot_be_written(session: FollowedSession, path: Path) -> None:
    path.unlink()
    path.parent.rmdir()
    with pytest.raises(OSError):
        typed(session, "3 4", "3 5")
    assert session.text == TEXT and session.rows
    # An edit of the page is taken back.
    for line in ("replace 1 u-max-3-1L b a a 8", "delete 1", "insert end u-max-3-1L b a a 8", "input a 3 5"):
        with pytest.raises(OSError):
            session.run(line)
        assert session.text == TEXT and [row.text for row in session.rows] == [ADD[:-1], TWICE[:-1]]
    path.parent.mkdir()
    path.write_text(TEXT)
    session.look()
    agree(session, TEXT)


# Edits of rows and input data.

EDITS = {
    "a row": ("replace 1 u-max-3-1L b a a 8", TEXT.replace("u-add-3-1L b", "u-max-3-1L b")),
    "a row behind its command": ("replace 2 u-max-3-1L c b b 8", TEXT.replace("u-add-3-1L c", "u-max-3-1L c")),
    "no row": ("delete 1", TEXT.replace(ADD, "")),
    "behind a row": ("insert after 1 lognot-2-1L b b 8", TEXT.replace(ADD, f"{ADD}lognot-2-1L b b 8\n")),
    "at the start": ("insert start lognot-2-1L b b 8", TEXT.replace(ADD, f"lognot-2-1L b b 8\n{ADD}")),
    "at the end": ("insert end lognot-2-1L b b 8", TEXT.replace("show", "lognot-2-1L b b 8\nshow")),
    "a number": ("input a 2 9", TEXT.replace("3 4", "9 4")),
    "two numbers": ("input a 2 9 8", TEXT.replace("3 4\n", "3 4\ninput a 2 9 8\n")),
    "a first number": ("input b 2 9", TEXT.replace("b S 8\n", "b S 8\ninput b 2 9\n")),
    "a flag": ("input S.context 3 0", TEXT.replace("S 4\n", "S 4\ninput S.context 3 0\n", 1)),
    "a field": ("field d S 4", TEXT.replace("c S 8\n", "c S 8\nfield d S 4\n")),
}


@pytest.mark.parametrize("case", EDITS)
def test_edits_on_the_page_are_edits_of_the_text(session: FollowedSession, case: str) -> None:
    line, text = EDITS[case]
    step = session.run(line)
    assert not step.is_refused and session.done.fresh == ""
    if line.startswith("insert"):
        assert step.lines == ("row 3",)
    agree(session, text)


def test_commands_are_told_with_their_replies(session: FollowedSession) -> None:
    for line, reply in (
        ("input a 0 9", "ok"),
        ("insert end u-mx-3-1L b a a 8", "refused 20 12"),
        ("show a end", "values"),
    ):
        before = session.version
        session.run(line)
        (told,) = json.loads(json.dumps(session.state(before)))["log"]
        assert (
            told["line"] == line and told["reply"].startswith(reply) and bool(told["refused"]) == ("refused" in reply)
        )


def test_the_number_that_counts_is_changed(session: FollowedSession) -> None:
    """Of several lines that give a number the last one, as it lies over the others."""
    session.take(TEXT + "input a 1 7 7\ninput a 0 5\n")
    session.run("input a 2 9")
    session.run("input a 0 6")
    agree(session, TEXT + "input a 1 7 9\ninput a 0 6\n")


@pytest.mark.parametrize(
    ("line", "refused"),
    [
        ("replace 1 u-max-3-1L b a a 80", "refused 12"),
        ("insert after 1 u-max-3-1L b a x 8", "refused 7"),
        ("insert end u-mx-3-1L b a a 8", "refused 20 12"),
        ("input a 0 256", "refused 9 0"),
        ("input a 9 1", "refused 8"),
        ("field a S 8", "refused 3"),
        ("u-add-3-1L b a a 8", "refused 20 1"),
        ("nope", "refused 20 1"),
    ],
)
def test_edits_that_are_refused_leave_text_and_file(session: FollowedSession, line: str, refused: str) -> None:
    step = session.run(line)
    assert step.lines == (refused,) and step.explanation is not None
    agree(session, TEXT)


def test_what_cannot_be_done_on_such_a_page(session: FollowedSession) -> None:
    for line in ("settle", "take", "bring 1", "release"):
        with pytest.raises(ValueError, match=BY_THEMSELVES):
            session.run(line)
    with pytest.raises(ValueError, match="one command is wanted"):
        session.run("# x")
    with pytest.raises(ValueError, match="there is no row 9"):
        session.run("delete 9")
    with pytest.raises(OtherRow):
        session.run("delete 1", "u-max-3-1L b a a 8")
    assert session.run("show c end").lines == ("values 4 8 12 16",)
    # Where the text names rows its edits would shift them.
    session.take(TEXT + "show c after 1\n")
    with pytest.raises(ValueError, match="names rows by their ids"):
        session.run("delete 1")


def test_rows_that_are_taken_out_or_replaced_further_down(session: FollowedSession) -> None:
    session.take(TEXT + "delete 1\nreplace 2 u-max-3-1L c a b 8\n")
    lines: Any = session.values(0, 99)["lines"]
    assert lines[5] == ["gone", "-", "taken out by line 10"] and lines[7] == ["gone", "-", "replaced by line 11"]
    assert lines[9] == ["gone", "-", "takes out the row of line 6"]
    assert lines[8] == ["look", "→", "c 1 2 3 4"] and lines[10] == ["new", "▶", "c 1 2 3 4"]


def test_the_program_is_begun_anew_with_the_text(session: FollowedSession) -> None:
    session.restart()
    assert session.done.fresh == "the book was closed" and session.done.count == 2
    agree(session, TEXT)


def test_rows_and_values_of_a_program_that_is_begun_anew_are_told_as_others(session: FollowedSession) -> None:
    """Ids and editions come again, and no value that a tab has is one of the program that comes."""
    tab = Copy()
    tab.take(json.loads(json.dumps({**session.state(0), "hello": ""})))
    assert tab.state["given"] == ["a"] and not tab.unsettled
    session.take(TEXT.replace("set S 4", "set S 8").replace("1 2 3 4", "1 2 3 4 5 6 7 8"))
    (piece,) = session.looks([Look("c", 2, False, 0)], tab.version, tab.edits)
    assert numbers_in(piece) is Kind.OTHER
    tab.take(session.state(tab.version))
    assert tab.news["began"] and tab.touched == [1, 2] and tab.news["sets"] == {"S": [8]}
    (piece,) = session.looks([Look("c", 2, False, 0)], tab.version, tab.edits)
    assert numbers_in(piece) == [4, 8, 12, 16, 20, 24, 28, 32]
    session.run("input a 0 9")
    tab.take(session.state(tab.version))
    assert tab.news["anew"] == ["a"] and tab.touched == [1, 2] and not tab.news["began"]


def test_what_a_change_of_a_large_file_changes_is_told(session: FollowedSession) -> None:
    head = ["set S 64x64", *(f"field {name} S 16" for name in "abc"), "insert end my-send-address-1L a 16"]
    rows = ["insert end u-add-3-1L b a a 16", "insert end u-max-3-1L c c a 16"]
    was = [*head, *rows, "input c 100 5000 5000 5000", "settle"]
    lines = [*was[:-2], "input c 100 7 5000 5001", "settle"]
    looks = [f"show {key} {place}" for key, place in (("c", "after 3"), ("b", "after 2"), ("c", "start"))]
    before, now = (
        [list(map(int, reply[0].split(" ")[1:])) for reply in answers([*each, *looks])[-3:]] for each in (was, lines)
    )
    for text in (was, lines):
        session.take("".join(f"{line}\n" for line in text))
    state = session.state(0)
    seen, edits = state["version"], state["edits"]
    assert isinstance(seen, int) and isinstance(edits, int)
    for (key, row), old, new in zip((("c", 3), ("b", 2), ("c", 0)), before, now):
        (strip,) = session.looks([Look(key, row, True, COMPARED)], seen, edits)
        told = strip_in(strip)
        places = [place for place, both in enumerate(zip(old, new)) if both[0] != both[1]]
        others = sorted({place // 16 for place in places})
        assert (told["low"], told["high"], told["changed"]) == (min(new), max(new), len(others))
        assert [at for at, flag in enumerate(told["flags"]) if flag] == others
        (numbers,) = session.looks([Look(key, row, False, BEFORE)], seen, edits)
        assert numbers_in(numbers) == old
    # A program that is begun anew has no rows of the one before.
    session.take("".join(f"{line}\n" for line in lines).replace("field b S 16", "field b S 17"))
    (piece,) = session.looks([Look("c", 3, False, BEFORE)], session.version, session.edits)
    assert session.done.fresh and numbers_in(piece) is Kind.NONE


def test_nothing_is_kept_of_what_was_typed(session: FollowedSession) -> None:
    for number in range(5):
        typed(session, f"input a 0 {number or 1} 2", f"input a 0 {number + 1} 2")
    assert session.taken == [] and session.commands == 8 and session.script() == session.text


def test_a_file_that_is_away_is_told(session: FollowedSession, path: Path, monkeypatch: pytest.MonkeyPatch) -> None:
    monkeypatch.setattr(watched, "AWAY", 0.0)
    path.unlink()
    version = session.version
    for _ in range(3):
        session.look()
        time.sleep(0.01)
    away = "; the file isn't there, and this is its last text"
    assert session.version == version + 1 and str(session.values(0, 9)["head"]).endswith(away)
    path.write_text(TEXT)
    session.look()
    assert session.values(0, 9)["head"] == "a new book (the first text): 2 of 2 rows ran"


@pytest.mark.parametrize("other", OTHERS)
def test_what_is_no_file_is_told_and_never_waited_for(
    other: str, served: Server, path: Path, monkeypatch: pytest.MonkeyPatch
) -> None:
    """The page answers meanwhile. What is typed isn't written into it. The right file is followed again."""
    monkeypatch.setattr(watched, "AWAY", 0.05)
    put, words = OTHERS[other]
    path.rename(path.with_name("kept"))
    put(path)
    wait_for(lambda: str(got(served, "lines?first=0&last=9")["head"]).endswith(f"; {words}, and this is its last text"))
    assert got(served, "text")["text"] == TEXT and got(served, "state")["text"] == 1
    if "stands" in words:
        edit = {"was": "1", "start": "0", "end": "0", "text": "# New.\n", "hold": ""}
        kind = words.partition(" stands")[0]
        assert posted(served, **edit) == (400, {"wrong": f"can't write the file: {kind} stands there, and no file"})
        assert got(served, "text")["text"] == TEXT
    put_away(path)
    path.with_name("kept").write_text(TEXT.replace("3 4", "3 5"))
    path.with_name("kept").rename(path)
    wait_for(lambda: bool(got(served, "text")["text"] == TEXT.replace("3 4", "3 5")))
    assert "last text" not in got(served, "lines?first=0&last=9")["head"]


def wait_for(is_so: Callable[[], bool]) -> None:
    """Waits until something is so, which comes in time."""
    until = time.monotonic() + PATIENCE
    while not is_so():
        assert time.monotonic() < until
        time.sleep(0.02)


def test_no_lock_is_held_while_the_file_is_read(session: FollowedSession, path: Path, monkeypatch: Any) -> None:
    """A file that is read slowly keeps no tab waiting. What was read before an edit doesn't undo the edit."""
    begun, go_on = threading.Event(), threading.Event()

    def slowly(opened: int) -> bytes:
        data = read_opened(opened)
        begun.set()
        assert go_on.wait(PATIENCE)
        return data

    path.write_text(TEXT.replace("3 4", "3 5"))
    with monkeypatch.context() as patch:
        patch.setattr(watched, "read_opened", slowly)
        looks = threading.Thread(target=session.look, daemon=True)
        looks.start()
        assert begun.wait(PATIENCE)
    assert session.lock.acquire(timeout=1.0)
    session.lock.release()
    lines: Any = session.values(0, 99)["lines"]
    assert len(lines) == 9
    # Another look takes the change, and something is typed. The slow look is late then.
    session.look()
    typed(session, "3 5", "3 6")
    go_on.set()
    looks.join(PATIENCE)
    agree(session, TEXT.replace("3 4", "3 6"))


def test_what_goes_wrong_while_it_follows_is_told(session: FollowedSession, monkeypatch: pytest.MonkeyPatch) -> None:
    monkeypatch.setattr(session.file, "look", lambda: 1 / 0)
    follows = threading.Thread(target=session.follow, daemon=True)
    follows.start()
    version = session.version
    session.wait(version, 10.0)
    assert session.trouble == "ZeroDivisionError: division by zero" and follows.is_alive()


@pytest.mark.parametrize("seed", range(4))
def test_three_hands_at_random(seed: int, tmp_path: Path, libparis: Path) -> None:
    """Each text is what the file has, and rows and values are those of a fresh run of it."""
    made, chance = RandomEditor(seed), Random(seed)
    path = tmp_path / "random.paris"
    path.write_bytes(bytes_of("".join(f"{line}\n" for line in made.lines)))
    session = FollowedSession(path, libparis, 1 + seed // 2)
    session.look()
    for _ in range(10):
        made.lines = session.text.split("\n")[:-1]
        made.edit()
        text = "".join(f"{line}\n" for line in made.lines)
        match chance.randrange(3):
            case 0:
                path.write_bytes(bytes_of(text))
                session.look()
            case 1:
                session.type(session.number, 0, len(session.text), text, chance.random() < 0.5)
            case _ if session.rows:
                row = chance.choice(session.rows)
                try:
                    session.run(f"replace {row.row} {made.made.instruction()}", row.text)
                except ValueError as error:
                    assert "names rows" in str(error)
        agree(session, session.text)
    session.close()


# The server.


@pytest.fixture
def served(session: FollowedSession) -> Iterator[Server]:
    """A server of the session, which follows the file."""
    follows = threading.Thread(target=session.follow, daemon=True)
    with Server(session, "sum.paris") as server:
        serves = threading.Thread(target=server.serve_forever, args=(0.05,), daemon=True)
        for thread in (follows, serves):
            thread.start()
        yield server
        server.shutdown()
        serves.join(10)


def got(server: Server, name: str) -> Any:
    """What the server answers."""
    status, data, _ = asked(server, "GET", page(server, name))
    assert status == 200
    return json.loads(data)


def posted(server: Server, **body: str) -> tuple[int, Any]:
    """What comes of an edit of the text."""
    status, data, _ = asked(server, "POST", page(server, "text"), json.dumps(body).encode())
    return status, json.loads(data)


def test_the_text_and_its_values_are_served(served: Server, path: Path) -> None:
    text = got(served, "text")
    assert text == {"number": 1, "text": TEXT} and got(served, "state")["text"] == 1
    lines = got(served, "lines?first=5&last=7")
    assert lines["head"] == "a new book (the first text): 2 of 2 rows ran" and lines["number"] == 1
    assert lines["lines"] == [
        ["new", "▶", "b 2 4 6 8  carry 0000  overflow 0000"],
        ["none", "", ""],
        ["new", "▶", "c 4 8 12 16  carry 0000  overflow 0000"],
    ]
    edit = {"was": "1", "start": "0", "end": "0", "text": "# New.\n", "hold": ""}
    assert posted(served, **edit) == (200, {"number": 2}) and path.read_text() == f"# New.\n{TEXT}"
    assert posted(served, **edit) == (200, {"other": True})
    assert posted(served, **{**edit, "was": "2", "start": "x"}) == (400, {"wrong": "a part of the text is wanted"})
    assert posted(served, **{**edit, "was": "2", "end": "9999"}) == (400, {"wrong": "the text has no such part"})
    assert asked(served, "GET", page(served, "script"))[1].decode() == f"# New.\n{TEXT}"
    path.unlink()
    path.parent.rmdir()
    status, answer = posted(served, **{**edit, "was": "2"})
    assert status == 400 and answer["wrong"].startswith("can't write the file: ")
    status, data, _ = asked(served, "POST", page(served, "command"), json.dumps({"line": "input a 3 5"}).encode())
    assert (status, json.loads(data)) == (400, answer) and got(served, "text")["text"] == f"# New.\n{TEXT}"


def test_a_page_without_a_file_has_no_text(libparis: Path) -> None:
    for server in serve([], title="new"):
        assert asked(server, "GET", page(server, "text"))[0] == asked(server, "GET", page(server, "lines"))[0] == 404
        assert posted(server, was="0", start="0", end="0", text="x", hold="")[0] == 400
        assert b'id="text"' not in asked(server, "GET", page(server))[1]
        assert got(server, "state")["text"] == 0


def test_the_command_follows_a_file(path: Path, libparis: Path) -> None:
    """It has no child. Ctrl-C ends it."""
    line = [sys.executable, "-P", "-m", "pevudlo", "live", "--follow", str(path)]
    environment = {**os.environ, "PARIS_LIBRARY": str(libparis), "PYTHONPATH": str(ROOT / "python")}
    with subprocess.Popen(line, env=environment, stdout=subprocess.PIPE, text=True, start_new_session=True) as process:
        try:
            assert process.stdout is not None
            address = process.stdout.readline().split(" ")[1]
            assert children_of(process.pid) == []
            assert shown(TEXT) in beside_at(address)
            path.write_text(TEXT.replace("3 4", "3 5"))
            wanted, until = shown(TEXT.replace("3 4", "3 5")), time.monotonic() + PATIENCE
            while wanted not in beside_at(address):
                assert time.monotonic() < until
                time.sleep(0.05)
            process.send_signal(signal.SIGINT)
            assert process.wait(PATIENCE) == 0
        finally:
            process.kill()


def beside_at(address: str) -> list[str]:
    """What stands beside the lines, asked of a server that is a process of its own."""
    with urllib.request.urlopen(f"{address}lines?first=0&last=99", timeout=PATIENCE) as answer:
        return [" ".join(line[1:]) for line in json.load(answer)["lines"]]


def test_follow_wants_a_file(capsys: pytest.CaptureFixture[str]) -> None:
    with pytest.raises(SystemExit) as ended:
        command.main(["--follow"])
    assert ended.value.code == 2 and is_usage_of("live", capsys.readouterr().err)


# The page.


def opened(driver: WebDriver, server: Server) -> None:
    """Opens the page, and waits for the text and its values."""
    driver.get(server.address)
    until(driver, lambda: is_shown(driver, server))


def is_shown(driver: WebDriver, server: Server) -> bool:
    """Whether the page shows the text as it is, and what its lines give."""
    text = evaluated(driver, "return [document.getElementById('text').value, document.body.dataset.text]")
    session = server.session
    return isinstance(session, FollowedSession) and text == [session.text, str(session.number)]


def beside(driver: WebDriver) -> list[str]:
    """What stands beside the lines."""
    found: list[str] = evaluated(
        driver, "return [...document.querySelectorAll('#beside li')].map(li => li.textContent)"
    )
    return found


def select(driver: WebDriver, part: str) -> Any:
    """Selects a part of the text, and gives the area."""
    area = one(driver, "#text")
    script = (
        "const [a, part] = arguments, at = a.value.indexOf(part); a.focus(); a.setSelectionRange(at, at + part.length)"
    )
    evaluated(driver, script, area, part)
    return area


def shown(text: str) -> str:
    """The look of a text, as it stands beside its line."""
    (reply,) = Fresh(text.split("\n")[:-1]).answers(["show c end"])
    return "→ c " + " ".join(map(str, numbers_of(reply)))


def test_a_text_is_typed_on_the_page(browser: WebDriver, served: Server, path: Path) -> None:
    opened(browser, served)
    assert beside(browser)[5] == "▶ b 2 4 6 8  carry 0000  overflow 0000" and beside(browser)[8] == shown(TEXT)
    select(browser, "4\nu-add").send_keys("5\nu-add")
    text = TEXT.replace("3 4", "3 5")
    until(browser, lambda: path.read_text() == text and is_shown(browser, served))
    assert beside(browser)[8] == shown(text) and one(browser, "#ran").text.endswith(" rows ran again")
    until(browser, lambda: values(browser, 2) == shown(text).split(" ")[2:])
    # A letter that is taken out leaves the row as it was, until it is saved.
    select(browser, "L b").send_keys(" b")
    until(browser, lambda: beside(browser)[5].startswith("✗ did you mean `u-add-3-1L`? (refused 20 1: "))
    assert "the row stays" in beside(browser)[5] and beside(browser)[8] == shown(text)
    one(browser, "#text").send_keys(Keys.CONTROL, "s")
    until(browser, lambda: len(rows(browser)) == 1)
    until(browser, lambda: "the row stays" not in beside(browser)[5])


def test_the_file_is_edited_elsewhere_while_the_page_is_open(browser: WebDriver, served: Server, path: Path) -> None:
    opened(browser, served)
    path.write_text("# Above.\n" + TEXT.replace("3 4", "3 5"))
    until(browser, lambda: one(browser, "#text").get_attribute("value") == path.read_text())
    until(browser, lambda: len(beside(browser)) == 10 and beside(browser)[9] == shown(TEXT.replace("3 4", "3 5")))
    # A click on a cell is an edit of the text, and of the file.
    one(browser, "#r-in_a [data-i='0']").click()
    until(browser, lambda: len(browser.find_elements(By.CSS_SELECTOR, ".num")) == 1)
    one(browser, ".num").send_keys("9", Keys.ENTER)
    text = "# Above.\n" + TEXT.replace("1 2 3 4", "9 2 3 5")
    until(browser, lambda: one(browser, "#text").get_attribute("value") == text == path.read_text())
    # Carriage returns don't come through an area of text.
    path.write_bytes(b"# x\r\n")
    until(browser, lambda: one(browser, "#text").get_attribute("readonly") == "true")
    assert "carriage returns" in one(browser, "#text-answer").text and path.read_bytes() == b"# x\r\n"


def test_two_edits_meet(browser: WebDriver, served: Server, path: Path) -> None:
    """Both are taken where they are apart, and else the file's one; what was typed is told then."""
    opened(browser, served)
    typed = "const a = document.getElementById('text'); a.value = a.value.replace(...arguments); "
    typed += "a.dispatchEvent(new Event('input'))"
    slow = (
        "const old = window.fetch; let free; const wait = new Promise(go => { free = go; });"
        "window.fetch = (...words) => wait.then(() => old(...words));"
        "window.free = () => { window.fetch = old; free(); };"
    )
    for ours, theirs, text in (
        (("3 4", "3 5"), ("# Twice.", "# Two."), TEXT.replace("3 4", "3 5").replace("# Twice.", "# Two.")),
        (("# Two.", "# 2."), ("# Two.", "# Zwei."), TEXT.replace("3 4", "3 5").replace("# Twice.", "# Zwei.")),
    ):
        evaluated(browser, slow)
        evaluated(browser, typed, *ours)
        number = served.session.number
        path.write_text(path.read_text().replace(*theirs))
        until(browser, lambda: served.session.number > number)
        evaluated(browser, "window.free()")
        until(browser, lambda: path.read_text() == text and is_shown(browser, served))
    assert (
        one(browser, "#text-answer").text == "The file was changed in the same place, and what was typed isn't in it: 2"
    )


def test_the_browser_complained_of_nothing(browser: WebDriver) -> None:
    assert complaints(browser) == []
