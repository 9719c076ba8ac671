"""Files that are followed while they are edited, and what is told of them in lines and on a terminal."""

from __future__ import annotations

import fcntl
import os
import re
import select
import signal
import socket
import struct
import subprocess
import sys
import termios
import time
from collections.abc import Callable, Iterator
from pathlib import Path

import pytest
from random_editor import Fresh, numbers_of
from terminals import Terminal

from pevudlo.document import watched
from pevudlo.document.answers import mark_of
from pevudlo.document.document import Document
from pevudlo.document.marks import short
from pevudlo.document.plain import MOST_TOLD, Plain
from pevudlo.document.states import State
from pevudlo.document.update import Update
from pevudlo.document.watched import Watched
from pevudlo.files import MOST_FOLLOWED, NoFile, read_opened, read_regular
from pevudlo.wire.pipe import Pipe
from pevudlo.wire.program import ROOT, find

PATIENCE = 20.0
HEAD = "set S 4\nfield a S 8\nfield b S 8\nfield c S 8\ninput a 0 1 2 3 4\n"
ADD, TWICE = "u-add-3-1L b a a 8\n", "u-add-3-1L c b b 8\n"
TEXT = HEAD + ADD + TWICE + "show c end\n"


@pytest.fixture
def path(tmp_path: Path) -> Path:
    """A file with a text."""
    (tmp_path / "sum.paris").write_text(TEXT)
    return tmp_path / "sum.paris"


def soon(news: Callable[[], str | None]) -> str:
    """The next text, which comes in time."""
    until = time.monotonic() + PATIENCE
    while (text := news()) is None:
        assert time.monotonic() < until
        time.sleep(0.01)
    return text


# The file.


def test_a_text_is_told_once(path: Path) -> None:
    file = Watched(path)
    assert file.news() == TEXT and file.news() is None
    path.write_text(TEXT)
    assert file.news() is None
    path.write_text(TEXT + ADD)
    assert file.news() == TEXT + ADD and not file.missing


def test_several_changes_in_one_pause(path: Path) -> None:
    file = Watched(path)
    file.news()
    for text in (TEXT + ADD, HEAD, TEXT + TWICE):
        path.write_text(text)
    assert file.news() == TEXT + TWICE and file.news() is None


def test_a_change_that_the_files_time_does_not_tell(path: Path) -> None:
    """Of one size, and within one tick of the clock."""
    file, now = Watched(path), time.time_ns()
    os.utime(path, ns=(now, now))
    assert file.news() == TEXT
    path.write_text(TEXT.replace("1 2 3 4", "1 2 3 5"))
    os.utime(path, ns=(now, now))
    assert file.news() == TEXT.replace("1 2 3 4", "1 2 3 5")


def test_an_old_file_is_not_read_again(path: Path, monkeypatch: pytest.MonkeyPatch) -> None:
    file = Watched(path)
    os.utime(path, (1, 1))
    assert file.news() == TEXT
    monkeypatch.setattr(watched, "opened_regular", lambda path: pytest.fail("it is read again"))
    assert file.news() is None


def test_a_file_that_is_truncated_and_written(path: Path) -> None:
    file = Watched(path)
    file.news()
    path.write_text("")
    assert file.news() is None
    path.write_text(TEXT + ADD)
    assert file.news() == TEXT + ADD
    # One that stays empty is an empty text.
    path.write_text("")
    assert file.news() is None and soon(file.news) == ""


def test_a_file_that_changes_while_it_is_read(path: Path, monkeypatch: pytest.MonkeyPatch) -> None:
    def written_meanwhile(opened: int) -> bytes:
        data = read_opened(opened)
        path.write_bytes(data + ADD.encode())
        return data

    file = Watched(path)
    with monkeypatch.context() as patch:
        patch.setattr(watched, "read_opened", written_meanwhile)
        assert file.news() is None
        # One that never rests is told of after a while.
        patch.setattr(watched, "AWAY", 0.0)
        path.write_text(TEXT)
        time.sleep(0.01)
        assert file.news() is None and file.missing == "the file changes each time that it is read"
    assert file.news() == TEXT + ADD and not file.missing


def test_a_file_that_is_half_written(path: Path) -> None:
    file = Watched(path)
    file.news()
    path.write_text(TEXT[:60])
    assert file.news() is None
    path.write_text(TEXT + ADD)
    assert file.news() == TEXT + ADD
    # One that stays so ends within a line. It is taken when it is seen again, and then it is known.
    path.write_text(TEXT[:60])
    os.utime(path, (1, 1))
    assert [file.news() for _ in range(3)] == [None, TEXT[:60], None]
    path.write_text(TEXT[:61])
    assert [file.news() for _ in range(3)] == [None, TEXT[:61], None]
    # A page of whole lines may be one of several.
    page = "".join(f"# {number:05}\n" for number in range(512))
    path.write_text(page)
    assert len(page) == 4_096 and [file.news() for _ in range(3)] == [None, page, None]


def test_a_file_that_another_takes_the_place_of(path: Path) -> None:
    file = Watched(path)
    file.news()
    other = path.with_name("other")
    other.write_text(TEXT + TWICE)
    other.rename(path)
    assert file.news() == TEXT + TWICE


def test_a_file_that_is_removed_and_made_again(path: Path, monkeypatch: pytest.MonkeyPatch) -> None:
    file = Watched(path)
    file.news()
    path.rename(path.with_name("kept"))
    assert file.news() is None and not file.missing
    monkeypatch.setattr(watched, "AWAY", 0.0)
    time.sleep(0.01)
    assert file.missing == "the file isn't there" and file.news() is None and file.missing
    path.write_text(HEAD)
    assert file.news() == HEAD and not file.missing
    # It is said once more where it goes once more, also where it comes back as it was.
    path.rename(path.with_name("kept"))
    assert file.news() is None
    time.sleep(0.01)
    assert file.missing
    path.with_name("kept").rename(path)
    assert file.news() is None and not file.missing


def fifo(path: Path) -> None:
    """A fifo that nobody writes into."""
    os.mkfifo(path)


def socket_file(path: Path) -> None:
    """A socket that nobody listens at."""
    with socket.socket(socket.AF_UNIX) as made:
        made.bind(str(path))


def too_long(path: Path) -> None:
    """A file that is longer than what is followed, and takes no room."""
    path.touch()
    os.truncate(path, MOST_FOLLOWED + 1)


OTHERS: dict[str, tuple[Callable[[Path], object], str]] = {
    "a fifo": (fifo, "a fifo stands in the place of the file"),
    "a folder": (Path.mkdir, "a folder stands in the place of the file"),
    "a device by a link": (lambda path: path.symlink_to("/dev/zero"), "a device stands in the place of the file"),
    "a terminal": (lambda path: path.symlink_to("/dev/tty"), "a device stands in the place of the file"),
    "a socket": (socket_file, "a socket stands in the place of the file"),
    "a link to nothing": (lambda path: path.symlink_to("nothing"), "the file isn't there"),
    "a link to itself": (
        lambda path: path.symlink_to(path),
        "the file can't be read: Too many levels of symbolic links",
    ),
    "a file that is too long": (too_long, "the file can't be read: File too large"),
    "nothing": (lambda path: None, "the file isn't there"),
}
"""What may come into the place of a file, and what is told then."""


def put_away(path: Path) -> None:
    """Takes out what stands in the place of a file, but for the file itself."""
    if path.is_dir() and not path.is_symlink():
        path.rmdir()
    else:
        path.unlink(missing_ok=True)


@pytest.mark.parametrize("other", OTHERS)
def test_what_is_no_file_is_told_and_the_file_is_followed_again(
    other: str, path: Path, monkeypatch: pytest.MonkeyPatch
) -> None:
    """Nothing waits for it. The file comes back as it was, and as another."""
    monkeypatch.setattr(watched, "AWAY", 0.0)
    put, words = OTHERS[other]
    file = Watched(path)
    assert file.news() == TEXT
    for text in (TEXT, TEXT + ADD):
        path.rename(path.with_name("kept"))
        put(path)
        assert [file.news() for _ in range(2)] == [None, None]
        time.sleep(0.01)
        assert file.missing == words
        put_away(path)
        path.with_name("kept").write_text(text)
        path.with_name("kept").rename(path)
        assert file.news() == (None if text == TEXT else text) and not file.missing


def test_a_fifo_that_comes_between_a_look_and_the_opening(path: Path, monkeypatch: pytest.MonkeyPatch) -> None:
    regular = os.stat(path)
    file = Watched(path)
    path.unlink()
    fifo(path)
    monkeypatch.setattr(os, "stat", lambda place: regular)
    assert file.look().missing == OTHERS["a fifo"][1]
    with pytest.raises(NoFile, match="a fifo stands there, and no file"):
        read_regular(path)


def test_what_was_seen_before_the_file_was_written_says_nothing(path: Path) -> None:
    file = Watched(path)
    first, second = file.look(), file.look()
    assert file.take(second) == TEXT and file.is_late(first) and file.take(first) is None
    before = file.look()
    path.write_text(TEXT + ADD)
    file.was_written()
    assert file.take(before) is None and file.news() == TEXT + ADD


# What stands beside a line.


def document() -> Document:
    """A document over the program."""
    return Document(lambda: Pipe(find(), 1))


@pytest.mark.parametrize(
    ("numbers", "before", "width", "text"),
    [
        ([1, 2, 30], None, 8, "1 2 30"),
        ([1, 2, 30], [1, 3, 30], 8, "1 2* 30"),
        ([1, 0, 1], None, 1, "101"),
        ([1, 0, 1], [0, 0, 1], 1, "1* 0 1"),
        ([7] * 99 + [5], None, 8, "7 7 7 7 7 … 100 from 5 to 7"),
        ([7] * 99 + [5], [7] * 98 + [8, 9], 8, "7 7 7 7 7 … 100 from 5 to 7, 2 changed"),
        ([12345678901], None, 64, "12345678901"),
    ],
)
def test_short_values(numbers: list[int], before: list[int] | None, width: int, text: str) -> None:
    assert short(bytes(numbers) if width <= 8 else numbers, bytes(before) if before else None, width, 10) == text


def states(told: Document, done: Update) -> str:
    """The signs of all lines."""
    return "".join(mark_of(told, at, done).state.value or "." for at in range(len(told.lines)))


def test_states_of_lines() -> None:
    with document() as told:
        assert states(told, told.update(TEXT + "settle\nu-add a\n")) == ".....▶▶→·✗"
        # The second number of `a` isn't read where `b` is a constant, and `c` stays what it was.
        other = TEXT.replace(ADD, "u-move-constant-1L b 6 8\nu-move-constant-1L b 6 8\n")
        assert states(told, told.update(other)) == ".....▶▶▶→"
        assert states(told, told.update(other + "# A comment.\n")) == ".....   →."
        again = told.update(other.replace("u-move-constant-1L b 6 8\n", "u-min-3-1L b b b 8\n", 1))
        assert "=" in states(told, again)


def test_values_that_stand_are_those_of_the_last_run() -> None:
    """A row runs, stands, runs again and stands: what stands beside it is of its last run, and of its last length."""
    with document() as told:
        for number in (2, 7, 2):
            text = TEXT.replace("1 2 3 4", f"1 {number} 3 4")
            told.update(text)
            for comment, most in (("# One.", 40), ("# Two.", 40), ("# Three.", 3)):
                done = told.update(f"{text}{comment}\n")
                b = numbers_of(Fresh(text.split("\n")[:-1]).answers(["show b after 1"])[0])
                mark = mark_of(told, 5, done, most)
                assert mark.state is State.KEPT
                assert mark.text.startswith(f"b {b[0]} {b[1]} {b[2]} {b[3]}  carry" if most == 40 else f"b {b[0]}")
                assert ("…" in mark.text) == (most == 3)


def test_a_row_that_is_refused_for_its_data() -> None:
    meet = "set S 4\nfield to S 2\nfield v S 8\nfield d S 8\ninput to 0 0 0 1 2\nsend-1L d to v 8 none\n"
    with document() as told:
        done = told.update(meet)
        mark = mark_of(told, 5, done)
        assert Fresh(meet.split("\n")[:-1]).faults == ["1 collision 0"]
        assert mark.state is State.FAULT
        assert mark.text == (
            "it stores nothing, since two messages meet at processor 0: `send-with-u-add-1L` combines them"
        )


def test_a_bare_instruction_is_explained_as_it_stands() -> None:
    with document() as told:
        told.update(HEAD + "u-ad-3-1L b a a 8\nu-add-3-1L b a 08 8\nmul b a a\ndelete 4\n")
        texts = [told.explanation(at) for at in range(5, 9)]
        hints = [text.hint for text in texts if text is not None]
        assert hints[0] == "did you mean `u-add-3-1L`?"
        assert texts[1] is not None and (texts[1].column, texts[1].line) == (16, "u-add-3-1L b a 08 8")
        assert texts[1].text == "the line is not in the grammar, from column 16 on"
        assert hints[2].startswith("`u-multiply-3-1L D A B L` multiplies") and "insert" not in hints[2]
        assert told.shown[8].refused == "refused 10" and told.explanation(0) is None


def test_a_hint_names_the_rows_of_a_fresh_run() -> None:
    with document() as told:
        told.update(HEAD + ADD)
        told.update(HEAD + TWICE + ADD + "delete 1\ndelete 7\n")
        explanation = told.explanation(8)
        assert explanation is not None and "2" in explanation.hint and "1" not in explanation.hint


# Lines.


def told_of(texts: list[str]) -> list[list[str]]:
    """What is told of each of some texts."""
    said: list[str] = []
    with document() as told:
        view, parts = Plain(told, said.append), list[list[str]]()
        for text in texts:
            view.show(told.update(text))
            parts.append(said.copy())
            said.clear()
    return parts


def test_what_is_told_in_lines() -> None:
    wrong = TEXT + "u-add-3-1L b a a 80\n"
    other = wrong.replace("1 2 3 4", "1 2 3 5")
    fresh = Fresh(other.split("\n")[:-1])
    b, c = (numbers_of(reply) for reply in fresh.answers(["show b after 1", "show c end"]))
    assert (b, c) == ([2, 4, 6, 10], [4, 8, 12, 20])
    first, second, third, fourth = told_of([TEXT, wrong, other, other])
    assert first == [
        "a new book (the first text): 2 of 2 rows ran",
        "  6: u-add-3-1L b a a 8: b 2 4 6 8  carry 0000  overflow 0000",
        "  7: u-add-3-1L c b b 8: c 4 8 12 16  carry 0000  overflow 0000",
        "  8: show c end: c 4 8 12 16",
    ]
    assert second == [
        "0 of 2 rows ran again; 1 line is refused",
        "  9: u-add-3-1L b a a 80: `b` has 8 bits, and the length L is 80; `a` has 8 bits, and the length L is 80 "
        "(refused 12: a length is 0, or above the width of an operand)",
    ]
    assert third == [
        "2 of 2 rows ran again; 1 line is refused",
        "  6: u-add-3-1L b a a 8: b 2 4 6 10*  carry 0000  overflow 0000",
        "  7: u-add-3-1L c b b 8: c 4 8 12 20*  carry 0000  overflow 0000",
        "  8: show c end: c 4 8 12 20",
    ]
    assert fourth == ["0 of 2 rows ran again; 1 line is refused"]


GONE = TEXT + "delete 1\nreplace 2 u-max-3-1L c a b 8\n"
"""The first row is taken out further down, and the second one is replaced: `c` is the greater one of `a` and 0."""


def test_rows_that_are_taken_out_or_replaced_are_told_in_lines() -> None:
    first, second, third = told_of([GONE, GONE.replace("delete 1\n", ""), GONE])
    assert first == [
        "a new book (the first text): 1 of 1 row ran",
        "  6: u-add-3-1L b a a 8: taken out by line 9",
        "  7: u-add-3-1L c b b 8: replaced by line 10",
        "  8: show c end: c 1 2 3 4",
        "  10: replace 2 u-max-3-1L c a b 8: c 1 2 3 4",
    ]
    # What is gone is told of once. Where it is gone anew it is told of anew.
    assert second[1:] == [
        "  6: u-add-3-1L b a a 8: b 2 4 6 8  carry 0000  overflow 0000",
        "  8: show c end: c 2 4 6 8",
        "  9: replace 2 u-max-3-1L c a b 8: c 2* 4* 6* 8*",
    ]
    assert third[1:3] == ["  6: u-add-3-1L b a a 8: taken out by line 9", "  8: show c end: c 1 2 3 4"]


def test_each_of_two_lines_that_are_gone_is_told_of() -> None:
    twice = HEAD + ADD + ADD
    assert told_of([twice, twice + "delete 1\n", twice + "delete 1\ndelete 2\n"])[2] == [
        "0 of 0 rows ran again",
        "  7: u-add-3-1L b a a 8: taken out by line 9",
    ]


def test_it_tells_what_the_document_says() -> None:
    document = (ROOT / "docs/PEOPLE.md").read_text(encoding="utf-8").split("\n## watch\n")[1].split("\n## ")[0]
    text, first, rest = re.findall(r"^```\n(.*?)^```$", document, re.S | re.M)
    texts = [text, text.replace("1 2 3", "1 7 3")]
    texts += [texts[1].replace("u-max", name) for name in ("u-mx", "u-min")]
    told = told_of(texts)
    assert told[0] == first.splitlines() and [line for part in told[1:] for line in part] == rest.splitlines()


def test_of_many_rows_some_are_told() -> None:
    rows = [f"u-move-constant-1L b {number % 200} 8" for number in range(4_095)]
    first, second = told_of(
        ["\n".join([HEAD[:-1], *rows, TWICE]), "\n".join([HEAD[:-1], *rows, TWICE, "# A comment."])]
    )
    assert first[0] == "a new book (the first text): 4,096 of 4,096 rows ran" and len(first) == MOST_TOLD + 2
    assert first[-1] == "  lines from 206 on aren't told of, since they are too many"
    assert second == ["0 of 4,096 rows ran again"]


# The command.


class Watching:
    """A command that watches a file, in lines."""

    def __init__(self, *words: str) -> None:
        environment = {**os.environ, "PARIS_FRONT": str(find()), "PYTHONPATH": str(ROOT / "python")}
        line = [sys.executable, "-P", "-m", "pevudlo", "watch", *words]
        self.child = subprocess.Popen(
            line, env=environment, stdin=subprocess.DEVNULL, stdout=subprocess.PIPE, stderr=subprocess.PIPE
        )

    def until(self, wanted: str) -> str:
        """What is written up to a text, which comes in time."""
        assert self.child.stdout is not None
        seen, until = "", time.monotonic() + PATIENCE
        while wanted not in seen:
            left = until - time.monotonic()
            assert left > 0 and select.select([self.child.stdout], [], [], left)[0], seen
            data = os.read(self.child.stdout.fileno(), 1 << 16)
            assert data, seen
            seen += data.decode()
        return seen

    def end(self, number: int) -> int:
        """The exit status behind a signal."""
        self.child.send_signal(number)
        self.child.communicate(timeout=PATIENCE)
        return self.child.returncode


@pytest.fixture
def watching(path: Path) -> Iterator[Watching]:
    """A command that watches the file."""
    watching = Watching("--plain", "--workers", "1", str(path))
    yield watching
    watching.child.kill()
    watching.child.communicate()


def test_a_file_is_followed_while_it_is_edited(path: Path, watching: Watching) -> None:
    watching.until("show c end: c 4 8 12 16\n")
    path.write_text(TEXT.replace("1 2 3 4", "1 2 3 5"))
    assert watching.until("show c end: c 4 8 12 20\n").startswith("2 of 2 rows ran again\n")
    path.write_text("")
    path.write_text(TEXT)
    assert watching.until("show c end: c 4 8 12 16\n").startswith("2 of 2 rows ran again\n")
    path.unlink()
    watching.until("the file isn't there; what was told last is of its last text\n")
    path.write_text(TEXT + "u-add-3-1L a c c 8\n")
    assert watching.until("a 8 16 24 32").startswith("1 of 3 rows ran again\n")
    # Its programs are killed: the next text begins anew.
    for child in Path(f"/proc/{watching.child.pid}/task/{watching.child.pid}/children").read_text().split():
        os.kill(int(child), signal.SIGKILL)
    path.write_text(TEXT + "u-add-3-1L a b c 8\n")
    assert "a new book (the program has ended (killed by signal 9)): 3 of 3 rows" in watching.until("a 6 12 18 24")
    assert watching.end(signal.SIGINT) == 0


def test_what_comes_into_the_place_of_a_file_is_told_in_lines(path: Path, watching: Watching) -> None:
    """Each of them, one after another, by the command itself. Behind each the file is followed again."""
    watching.until("show c end: c 4 8 12 16\n")
    for number, (put, words) in enumerate(OTHERS.values()):
        path.unlink()
        put(path)
        assert watching.until("of its last text\n") == f"{words}; what was told last is of its last text\n"
        put_away(path)
        path.write_text(TEXT.replace("1 2 3 4", f"1 2 3 {number + 5}"))
        watching.until(f"show c end: c 4 8 12 {4 * (number + 5)}\n")
    assert watching.end(signal.SIGINT) == 0


def test_a_file_that_comes_back_as_it_was_is_told_of(path: Path, watching: Watching) -> None:
    watching.until("show c end: c 4 8 12 16\n")
    path.rename(path.with_name("kept"))
    watching.until("the file isn't there; what was told last is of its last text\n")
    path.with_name("kept").rename(path)
    assert watching.until("was\n") == "the file is there again, as it was\n"


def test_it_ends_when_it_is_told_to(watching: Watching) -> None:
    watching.until("show c end")
    assert watching.end(signal.SIGTERM) == 0


def test_the_column_of_a_row_that_stands_alone_is_that_of_its_line() -> None:
    line = "u-add-3-1L b a 300 8"
    (told,) = told_of([f"{TEXT}{line}\n"])
    column = line.index("300") + 1
    assert told[-1].startswith(f"  9: {line}: no operand is a constant: ")
    assert told[-1].endswith(f" (refused 20 {column}: the line is not in the grammar, from column {column} on)")


def test_the_hint_comes_first_where_a_terminal_is_narrow(path: Path, tmp_path: Path) -> None:
    path.write_text(TEXT + "u-divide-3-1L b a a 8\n")
    with Terminal(tmp_path, str(path), command="watch", is_quiet=False, columns=72) as terminal:
        seen = terminal.until("* other than before")
    assert "✗ u-divide-3-1L b a a 8 did you mean `u-truncate-3-1L`? (refused …" in seen


def test_a_file_on_a_terminal(path: Path, tmp_path: Path) -> None:
    with Terminal(tmp_path, str(path), command="watch", is_quiet=False, columns=120) as terminal:
        first = terminal.until("q ends")
        assert " sum.paris: a new book (the first text): 2 of 2 rows ran" in first
        assert "▶ u-add-3-1L b a a 8   b 2 4 6 8  carry 0000  overflow 0000" in first
        assert "→ show c end           c 4 8 12 16" in first
        path.write_text(TEXT.replace("1 2 3 4", "1 2 3 5") + "u-ad a\n")
        second = terminal.until("q ends")
        assert "2 of 2 rows ran again; 1 line is refused" in second and "b 2 4 6 10*" in second
        assert "✗ u-ad a " in second and "did you mean `u-add-3-1L`? (refused 20 1: " in second
        terminal.press("j")
        assert "b 2 4 6 10*" in terminal.until("q ends")
        path.unlink()
        third = terminal.until("q ends")
        assert " sum.paris: the file isn't there; what" in third and "b 2 4 6 10*" in third
        fcntl.ioctl(terminal.end, termios.TIOCSWINSZ, struct.pack("HHHH", 20, 60, 0, 0))
        assert "b 2 4 6 10*" in terminal.until("▶ new values, * other than before, = touched, with the sam…")
        terminal.press("q")
        assert terminal.wait() == 0


def test_rows_that_are_taken_out_or_replaced_on_a_terminal(path: Path, tmp_path: Path) -> None:
    path.write_text(GONE)
    with Terminal(tmp_path, str(path), command="watch", is_quiet=False, columns=120) as terminal:
        first = terminal.until("q ends")
        assert "- u-add-3-1L b a a 8           taken out by line 9" in first
        assert "- u-add-3-1L c b b 8           replaced by line 10" in first
        assert "- delete 1                     takes out the row of line 6" in first
        assert "▶ replace 2 u-max-3-1L c a b 8 c 1 2 3 4" in first
        terminal.press("q")
        assert terminal.wait() == 0


def test_a_fifo_in_the_place_of_a_file_on_a_terminal(path: Path, tmp_path: Path) -> None:
    """The keys go on, and so does the view."""
    with Terminal(tmp_path, str(path), command="watch", is_quiet=False, columns=120) as terminal:
        terminal.until("q ends")
        path.unlink()
        fifo(path)
        assert " sum.paris: a fifo stands in the place of the file; what" in terminal.until("q ends")
        terminal.press("j")
        assert "b 2 4 6 8" in terminal.until("q ends")
        path.unlink()
        path.write_text(TEXT.replace("1 2 3 4", "1 2 3 5"))
        while "b 2 4 6 10*" not in terminal.until("q ends"):
            pass
        terminal.press("q")
        assert terminal.wait() == 0


def test_a_terminal_without_a_program(path: Path, tmp_path: Path) -> None:
    with Terminal(
        tmp_path, "--workers", "1", str(path), command="watch", is_quiet=False, program=Path("/bin/false")
    ) as terminal:
        said = terminal.until("(exit status 1); the next text begins anew")
        assert re.search(r" sum\.paris: the program (has ended|ended before)", said)
        terminal.press("q")
        assert terminal.wait() == 0


def test_a_long_file_is_moved_through(path: Path, tmp_path: Path) -> None:
    rows = "".join(f"u-move-constant-1L b {number} 8\n" for number in range(200))
    path.write_text(HEAD + rows)
    with Terminal(tmp_path, str(path), command="watch", is_quiet=False, columns=120) as terminal:
        assert "   48 ▶ " in (seen := terminal.until("q ends")) and "   49 ▶ " not in seen
        terminal.press(" ")
        assert "   68 ▶ " in (seen := terminal.until("q ends")) and "   20 " not in seen
        # It goes to a row that ran where none is visible.
        path.write_text(HEAD + rows + TWICE)
        assert "  206 ▶ u-add-3-1L c b b 8" in terminal.until("q ends")


@pytest.mark.parametrize(
    ("words", "said"),
    [
        (("/nope/sum.paris",), "paris watch: can't read /nope/sum.paris: No such file or directory\n"),
        (("-",), "`-` is no file here\n"),
        ((), "the following arguments are required: FILE\n"),
    ],
)
def test_what_cannot_be_watched(words: tuple[str, ...], said: str) -> None:
    watching = Watching(*words)
    out, errors = watching.child.communicate(timeout=PATIENCE)
    assert (watching.child.returncode, out) == (2, b"") and errors.decode().endswith(said)


@pytest.mark.parametrize("other", ["a fifo", "a folder", "a device by a link"])
@pytest.mark.parametrize("words", [("watch",), ("live", "--follow")], ids=" ".join)
def test_what_is_no_file_is_not_followed(other: str, words: tuple[str, ...], tmp_path: Path) -> None:
    path = tmp_path / "other.paris"
    OTHERS[other][0](path)
    environment = {**os.environ, "PARIS_FRONT": str(find()), "PYTHONPATH": str(ROOT / "python")}
    line = [sys.executable, "-P", "-m", "pevudlo", *words, str(path)]
    ran = subprocess.run(
        line, env=environment, stdin=subprocess.DEVNULL, capture_output=True, text=True, timeout=PATIENCE
    )
    kind = other.removesuffix(" by a link")
    said = f"paris {words[0]}: can't read {path}: {kind} stands there, and no file\n"
    assert (ran.returncode, ran.stdout, ran.stderr) == (2, "", said)
