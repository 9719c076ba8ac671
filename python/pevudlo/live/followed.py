"""A live session of a file that is followed: it is edited elsewhere, as a text on the page, and row by row."""

from __future__ import annotations

import threading
from collections.abc import Sequence
from pathlib import Path

from pevudlo.document.answers import mark_of
from pevudlo.document.document import Document
from pevudlo.document.edits import edited
from pevudlo.document.marks import headline
from pevudlo.document.pieces import Kind, first_command, piece_of
from pevudlo.document.update import Update
from pevudlo.document.watched import PERIOD, Glimpse, Watched
from pevudlo.files import put_text
from pevudlo.lang.grammar import PROFILE_COMMAND, wrong_column
from pevudlo.lang.replies import NoReply, parse
from pevudlo.client.news import News
from pevudlo.live.running import BY_THEMSELVES as THEMSELVES
from pevudlo.live.running import given_in, step_of
from pevudlo.live.session import CHANGING, Session, Step, Stopped
from pevudlo.talk import LOOKS
from pevudlo.wire.book import Book
from pevudlo.wire.library import Library
from pevudlo.wire.peers import Peer
from pevudlo.wire.pipe import PipeError, is_comment

EDITING = ("set", "field", "input", "insert", "delete", "replace")
MOST_LINES = 400
"""Of so many lines it is told at once what they give."""

BY_THEMSELVES = f"{THEMSELVES}, when the text changes"


class OtherText(Exception):
    """The text is another than it was when it was edited."""


class Gone(PipeError):
    """The session's program has ended."""

    def __init__(self, words: str) -> None:
        Exception.__init__(self, words)
        self.status, self.line = -1, ""


class SessionPeer:
    """A session as the peer of a document: what changes the program is a step of it, and looks go to `inner`."""

    def __init__(self, session: FollowedSession) -> None:
        self._session = session
        self.inner = session.begin_anew()

    def ask(self, line: str) -> list[str]:
        """The lines of the reply to one line. Raises PipeError."""
        return self._session.told_line(line)

    def ask_all(self, lines: Sequence[str]) -> list[list[str]]:
        """The replies to many lines."""
        return self._session.told_lines(lines)

    def close(self) -> int:
        """The session ends its program itself."""
        return 0


class FollowedSession(Session):
    """A session of a file. `text` is its text, `number` counts texts, and `done` is what the last update did."""

    kept_edits = 0

    def __init__(self, path: Path, library: Path, workers: int = 2, is_quiet: bool = True) -> None:
        self._anew = set[str]()
        # Whether the rows are those of a program that was listed, so that what an update touches tells what is other.
        self._is_listed = False
        super().__init__(library, workers, is_quiet)
        self.file = Watched(path)
        self.text, self.done, self.missing = "", Update(), ""
        self.document = Document(lambda: SessionPeer(self), begin_second=self._begun_second)
        self._is_new = True
        self._over = threading.Event()

    # The file.

    def follow(self) -> None:
        """Looks at the file until the session is closed. Raises nothing: what goes wrong is the session's trouble."""
        while not self._over.wait(PERIOD):
            try:
                self.look()
            except Exception as error:
                self.trouble = f"{type(error).__name__}: {error}"
                self.changed()

    def look(self) -> None:
        """Takes the file's text where it is another. No lock is held while the file is read.

        Where what was seen is late twice, another thread has seen the file meanwhile.
        """
        for _ in range(2):
            glimpse = self.file.look()
            with self.lock:
                if not self.file.is_late(glimpse):
                    self._take_in(glimpse)
                    return

    def _take_in(self, glimpse: Glimpse) -> None:
        """Takes in what was seen of the file. The lock is held."""
        text = self.file.take(glimpse)
        if text is not None and (text != self.text or not self.number):
            self.take(text)
        if self.file.missing != self.missing:
            self.missing = self.file.missing
            self.changed()

    def take(self, text: str, hold: bool = False) -> None:
        """Brings the program in step with a text."""
        with self.lock:
            self.text, self.number = text, self.number + 1
            try:
                with self._telling(self.file.path.name):
                    before = self._still()
                    self.done = self.document.update(text, hold)
                    self.before = before if self._is_listed else None
                    self._see_text()
            except (PipeError, Stopped, NoReply, MemoryError) as error:
                self.trouble = self.trouble or str(error)
            # The text is what a program is begun anew with.
            self.taken.clear()
            self.changed()

    def _still(self) -> Book | None:
        """The present program, to be compared with. None where there is no memory for it, or no program."""
        try:
            return self.book.still() if self.book.is_open else None
        except MemoryError:
            return None

    def _see_text(self) -> None:
        """Sees the rows and the input data behind an update."""
        self.edits, self.line = self.edits + 1, self.file.path.name
        given = [key for key in given_in(self.document.lines) if self.board.set_of(key) is not None]
        self.ledger.keep_given(given, self._anew, self.version + 1)
        self._anew.clear()
        if not self._is_listed:
            self._is_listed = True
            self.see_rows()
            return
        is_moved = any(line.startswith(("insert ", "delete ")) for line in self.done.sent)
        order = self.board.rows if is_moved else None
        self.ledger.touch(sorted(self.done.touched), 0, self.board.texts, order, self.version + 1)
        self.ledger.turn(self.book.unsettled(), self.version + 1)
        self.see_faults()

    def type(self, was: int, start: int, end: int, text: str, hold: bool) -> None:
        """Puts a text into the place of a part, by units of UTF-16, and writes the file.

        Raises OtherText where the text isn't that of the number any more, ValueError where it has no such part, and
        OSError where the file can't be written.
        """
        self.look()
        with self.lock:
            if was != self.number:
                raise OtherText
            raw = self.text.encode("utf-16-le", "surrogatepass")
            if not 0 <= 2 * start <= 2 * end <= len(raw):
                raise ValueError("the text has no such part")
            data = raw[: 2 * start] + text.encode("utf-16-le", "surrogatepass") + raw[2 * end :]
            self._write(data.decode("utf-16-le", "surrogatepass"), hold)

    def _write(self, text: str, hold: bool) -> None:
        """Writes the file, and takes the text."""
        if text != self.text:
            self._put(text)
        self.take(text, hold)

    def _put(self, text: str) -> None:
        """Writes the file. What was seen of it before isn't taken in any more. Raises OSError."""
        put_text(self.file.path, text)
        self.file.was_written()

    # What is done on the page.

    def run(self, line: str, was: str | None = None) -> Step:
        """Does an edit of a row or of input data in the text. Looks are asked of the program."""
        word = line.split(" ")[0]
        if is_comment(line) or "\n" in line:
            raise ValueError("one command is wanted")
        if word not in LOOKS:
            self.look()
        with self.lock:
            self._check_row(line, was)
            if word in LOOKS:
                return self._told(line)
            if word in CHANGING and word not in (PROFILE_COMMAND, *EDITING):
                raise ValueError(BY_THEMSELVES)
            is_first = word == PROFILE_COMMAND and first_command(self.document.lines) is None
            if is_first and wrong_column(line, is_first) is None:
                return self._noted(self._edit(line))
            piece = piece_of(line)
            if word not in EDITING or piece.kind is Kind.WRONG:
                return self._told(line)
            return self._noted(self._edit(line))

    def _told(self, line: str) -> Step:
        """A look, or a line that isn't in the grammar: the program answers, and nothing is changed."""
        return self._noted(self._step(line))

    def _noted(self, step: Step) -> Step:
        """Tells the tabs of a command and its reply."""
        self.note(step)
        self.changed()
        return step

    def _edit(self, line: str) -> Step:
        """An edit of the text. Where the program refuses it, or the file can't be written, the text stays as it was.

        Raises OSError for the latter.
        """
        before = self.text
        lines, at = edited(self.document, line)
        self.take("".join(f"{each}\n" for each in lines))
        word, shown = line.split(" ")[0], self.document.shown
        told = self.document.explanation(at) if word != "delete" else None
        if told is not None:
            refused = shown[at].refused
            self.take(before)
            return Step(line, (refused,), parse([refused]), told)
        try:
            self._put(self.text)
        except OSError:
            self.take(before)
            raise
        row = shown[at].row if word == "insert" else None
        reply = "ok" if row is None else f"row {row.book}"
        return Step(line, (reply,), parse([reply]))

    @property
    def commands(self) -> int:
        """How many commands the text has."""
        return sum(not is_comment(line) for line in self.document.lines)

    def script(self) -> str:
        """The text of the file."""
        return self.text

    def restart(self) -> None:
        """Begins another program with the text."""
        with self.lock:
            self.document.close()
            self.take(self.text)

    def values(self, first: int, last: int) -> dict[str, object]:
        """What the lines of a range give, and what the last update did."""
        with self.lock:
            document, told = self.document, list[list[str]]()
            try:
                if document.is_in_step and not self.trouble:
                    for number in range(max(0, first), min(last + 1, len(document.lines), first + MOST_LINES)):
                        mark = mark_of(document, number, self.done)
                        told.append([mark.state.name.lower(), mark.state.value, mark.text])
                    away = f"; {self.missing}, and this is its last text" if self.missing else ""
                    return {"number": self.number, "lines": told, "head": headline(document, self.done) + away}
            except (PipeError, NoReply):
                pass
            return {"number": self.number, "lines": [], "head": self.trouble}

    def extra(self) -> News:
        return {"on": True, "out": 0}

    def close(self) -> None:
        """Ends what runs the rows, and what gives the verdicts."""
        self._over.set()
        super().close()
        self.document.close()

    # The program, as the document's peer.

    def begin_anew(self) -> Peer:
        """Begins another program, where this one was told something, and gives it."""
        self._is_listed = False
        if not self._is_new:
            self._end()
            self.taken, self.trouble = [], ""
            self.steps.clear()
            self.ledger.forget()
            self._begin()
        self._is_new = False
        return self.book

    def _begun_second(self) -> Peer:
        """What gives the verdicts, with nothing declared."""
        return Library(self._library)

    def _step(self, line: str) -> Step:
        """One command. Raises Stopped where the program has ended."""
        if self.trouble:
            raise Stopped(self.trouble)
        answer = self._talk.tell(line)
        assert answer is not None
        step = step_of(answer)
        self.told += 1
        if step.word in ("set", "field", "paris"):
            self.ledger.declared = self.version + 1
        if not step.is_refused and step.word in CHANGING:
            self.taken.append(line)
        return step

    def told_line(self, line: str) -> list[str]:
        """The reply to one line of the document. Raises PipeError."""
        if line.split(" ", 1)[0] not in CHANGING:
            return self.book.ask(line)
        self._note_given(line)
        try:
            return list(self._step(line).lines)
        except Stopped as error:
            raise Gone(str(error)) from error

    def told_lines(self, lines: Sequence[str]) -> list[list[str]]:
        """The replies to the lines that a new book is told."""
        replies = self.book.ask_all(lines)
        for line, reply in zip(lines, replies):
            if reply:
                self.board.note(line, reply[0])
                self.told += 1
                self._note_given(line)
        return replies

    def _note_given(self, line: str) -> None:
        """Notes input data that is given anew."""
        if line.startswith("input "):
            self._anew.add(line.split(" ", 2)[1])
