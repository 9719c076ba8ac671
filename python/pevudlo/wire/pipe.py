"""Talks with one child process, line by line.

This is the one place that knows of a process. A `Library` takes its place behind the same calls: `ask` and `close`.

One line in and one reply out can't block each other. The program reads a line to its line feed before it writes, and
it writes a whole reply before it reads more. So while a line is written nothing comes, and while a reply is read
nothing is wanted. A program that does otherwise is found out: what it writes while a line is written ends the talk with
OutOfTurn, however much it is.
"""

from __future__ import annotations

import fcntl
import os
import select
import signal
import subprocess
import tempfile
import threading
from collections.abc import Sequence
from contextlib import suppress
from pathlib import Path
from types import TracebackType
from typing import IO, NoReturn

from pevudlo.interrupts import undisturbed

CHUNK = 1 << 20
# Seconds that a child has to end once its input is closed.
PATIENCE = 10.0
CLOSED = "the program is closed"


class PipeError(Exception):
    """The talk is over. `status` is the child's exit status (negative: the signal), `line` its last one on stderr."""

    def __init__(self, what: str, status: int, line: str) -> None:
        self.status = status
        self.line = line
        end = f"killed by signal {-status}" if status < 0 else f"exit status {status}"
        super().__init__(f"{what} ({end}{': ' + line if line else ''})")


class Ended(PipeError):
    """The program ended, or was killed."""


class OutOfTurn(PipeError):
    """The program wrote something that is no reply to the line it was asked. It was killed."""


def count_of_lines(first: bytes) -> int:
    """How many lines of a reply come behind the first one: N behind `rows N` and `faults N`, else none."""
    word, _, number = first.partition(b" ")
    return int(number) if word in (b"rows", b"faults") and number.isdigit() else 0


def is_comment(line: str) -> bool:
    """Whether a line of a script is no command, and has no reply: a comment, or an empty line."""
    return not line or line.startswith("#")


def widen(pipe: int) -> None:
    """Gives a pipe room for a long reply, where the system has it, so that who writes and who reads wait less."""
    with suppress(OSError, AttributeError):
        fcntl.fcntl(pipe, fcntl.F_SETPIPE_SZ, CHUNK)


class Pipe:
    """A running program. Threads may share it: one line is asked at a time.

    In a child that the process begets by `fork` no call is made: its bytes would go between those of the parent.
    """

    def __init__(self, program: Path, workers: int = 2) -> None:
        self._said: IO[bytes] = tempfile.TemporaryFile()
        # In a session of its own, so Ctrl-C at a terminal reaches whoever holds the pipe, and that one ends the child.
        self._child = subprocess.Popen(
            # A name without a folder would be looked for on the PATH.
            [os.path.abspath(program), "--workers", str(workers)],
            bufsize=0,
            stdin=subprocess.PIPE,
            stdout=subprocess.PIPE,
            stderr=self._said,
            start_new_session=True,
        )
        assert self._child.stdin is not None and self._child.stdout is not None
        self._in, self._out = self._child.stdin.fileno(), self._child.stdout.fileno()
        os.set_blocking(self._in, False)
        widen(self._out)
        self._ears = select.poll()
        self._ears.register(self._out, select.POLLIN)
        self._lock = threading.RLock()
        self._home = os.getpid()
        self._rest = bytearray()
        self._over: tuple[type[PipeError], str, int, str] | None = None
        self._is_owed = self._is_in_call = self._is_closing = False

    @property
    def process(self) -> int:
        """The child's process id."""
        return self._child.pid

    @property
    def lock(self) -> threading.RLock:
        """The lock of the calls. Raises RuntimeError in a child of the process: a thread may hold it there for ever."""
        if self.is_elsewhere:
            raise RuntimeError("a talk with the program stays in the process that began it")
        return self._lock

    @property
    def is_open(self) -> bool:
        """Whether the talk isn't over, as far as is known."""
        return self._over is None

    @property
    def is_owed(self) -> bool:
        """Whether the program settles on whose wait Ctrl-C has ended: the next call waits for its end."""
        return self._is_owed

    @property
    def is_elsewhere(self) -> bool:
        """Whether this is a child of the process that began it, in which no call is made."""
        return os.getpid() != self._home

    def settle_line(self) -> list[str]:
        """The reply to `settle`. Ctrl-C ends the wait alone: the program settles on, and the next line waits for it."""
        with self.lock:
            self._check_open()
            try:
                self._is_in_call = True
                self._take_owed()
                with undisturbed():
                    self._begin_settle()
                return self._take_owed()
            finally:
                self._is_in_call = False

    def _begin_settle(self) -> None:
        """Asks for a settle, whose reply is owed then."""
        try:
            self._write(b"settle\n")
            self._is_owed = True
        except BaseException:
            self._end()
            raise

    def _take_owed(self) -> list[str]:
        """Waits for the reply that is owed, where one is, and takes it as a whole. Ctrl-C leaves it owed."""
        while self._is_owed:
            self._ears.poll()
            with undisturbed():
                try:
                    self._rest += self._more()
                    if self._has_reply():
                        self._is_owed = False
                        return self._read()
                except BaseException:
                    self._end()
                    raise
        return []

    def ask(self, line: str) -> list[str]:
        """The lines of the reply to one line; none for an empty line or a comment, which have no reply.

        Bytes that are not UTF-8 stand in the text as surrogates (`errors="surrogateescape"`).
        Raises ValueError where the text has a line feed, Ended and OutOfTurn where the talk is over.
        """
        if "\n" in line:
            raise ValueError("one line is asked at a time")
        with self.lock:
            self._check_open()
            if is_comment(line):
                return []
            data = line.encode("utf-8", "surrogateescape") + b"\n"
            try:
                self._is_in_call = True
                self._take_owed()
                return self._answered(data)
            finally:
                self._is_in_call = False

    def _answered(self, data: bytes) -> list[str]:
        """The reply to one line. Where it is cut short the talk is over."""
        try:
            self._write(data)
            return self._read()
        except BaseException:
            self._end()
            raise

    def ask_all(self, lines: Sequence[str]) -> list[list[str]]:
        """The replies to many lines, as by `ask` of one after another. All lines go in one write."""
        if any("\n" in line for line in lines):
            raise ValueError("each line is one line")
        told = [line for line in lines if not is_comment(line)]
        data = "".join(f"{line}\n" for line in told).encode("utf-8", "surrogateescape")
        with self.lock:
            self._check_open()
            try:
                self._is_in_call = True
                self._take_owed()
                replies = iter(self._all_answered(data, len(told)))
            finally:
                self._is_in_call = False
        return [[] if is_comment(line) else next(replies) for line in lines]

    def _all_answered(self, data: bytes, count: int) -> list[list[str]]:
        """The replies to so many lines. Where one is cut short the talk is over."""
        try:
            self._write_all(data)
            replies = [self._read_reply() for _ in range(count)]
            self._check_rest()
            return replies
        except BaseException:
            self._end()
            raise

    def close(self) -> int:
        """Ends the input, waits for the child, and gives its exit status.

        Where a call is under way, or a settle, the child is killed. A thread that waits for a reply gets Ended.
        """
        if self.is_elsewhere:
            return 0 if self._over is None else self._over[2]
        is_free = self._lock.acquire(blocking=False)
        try:
            if is_free and not self._is_in_call:
                return self._close()
            self._is_closing = True
            self.kill()
            if is_free:
                # A handler of signals has come into the call, which finds the child's end behind it.
                return self._child.wait()
            with self._lock:
                return self._close()
        finally:
            if is_free:
                self._lock.release()

    def _close(self) -> int:
        """Ends the input, waits for the child, and gives its exit status. No call is under way."""
        if self._child.returncode is None:
            assert self._child.stdin is not None
            self._child.stdin.close()
            try:
                self._child.wait(0.0 if self._is_owed else PATIENCE)
            except BaseException as error:
                self._end()
                if not isinstance(error, subprocess.TimeoutExpired):
                    raise
        return self._end(CLOSED)[0]

    def kill(self) -> None:
        """Kills the child, and what it has started. A thread that waits for a reply gets Ended."""
        if self._child.poll() is None:
            with suppress(ProcessLookupError):
                os.killpg(self._child.pid, signal.SIGKILL)

    def __enter__(self) -> Pipe:
        return self

    def __exit__(self, kind: type[BaseException] | None, error: BaseException | None, at: TracebackType | None) -> None:
        self.close()

    def _check_open(self) -> None:
        """Raises RuntimeError within a call, as in a handler of signals, and what ended the talk where it is over."""
        if self._is_in_call:
            raise RuntimeError("a talk with the program is in one call at a time")
        if self._over is not None:
            kind, what, status, said = self._over
            raise kind(what, status, said)

    def _write(self, line: bytes) -> None:
        """Writes a whole line. What comes meanwhile is out of turn."""
        if self._rest or self._ears.poll(0):
            self._unasked()
        left = memoryview(line)
        while left:
            try:
                left = left[os.write(self._in, left) :]
            except BlockingIOError:
                ways = select.poll()
                ways.register(self._in, select.POLLOUT)
                ways.register(self._out, select.POLLIN)
                if any(way == self._out for way, _ in ways.poll()):
                    self._unasked()
            except BrokenPipeError:
                self._stop(Ended, "the program ended before it took the line")

    def _write_all(self, data: bytes) -> None:
        """Writes many lines, and takes in what is answered meanwhile."""
        if self._rest or self._ears.poll(0):
            self._unasked()
        ways = select.poll()
        ways.register(self._in, select.POLLOUT)
        ways.register(self._out, select.POLLIN)
        left = memoryview(data)
        while left:
            for way, _ in ways.poll():
                try:
                    if way == self._out:
                        self._rest += self._more()
                    else:
                        left = left[os.write(self._in, left) :]
                except BlockingIOError:
                    pass
                except BrokenPipeError:
                    self._stop(Ended, "the program ended before it took the lines")

    def _read(self) -> list[str]:
        """Reads the lines of one reply, behind which nothing comes."""
        lines = self._read_reply()
        self._check_rest()
        return lines

    def _has_reply(self) -> bool:
        """Whether a whole reply was read, so that nothing waits for more of it."""
        first, feed, rest = self._rest.partition(b"\n")
        return bool(feed) and rest.count(b"\n") >= count_of_lines(bytes(first))

    def _read_reply(self) -> list[str]:
        """Reads the lines of one reply."""
        first = self._read_line()
        lines = [first, *self._read_lines(count_of_lines(first))]
        return [line.decode("utf-8", "surrogateescape") for line in lines]

    def _check_rest(self) -> None:
        """Ends the talk where more came than was asked for."""
        if self._rest:
            self._stop(OutOfTurn, f"the program wrote more than a reply: {bytes(self._rest[:80])!r}")

    def _read_line(self) -> bytes:
        """The next line, without its line feed."""
        looked = 0
        while (end := self._rest.find(b"\n", looked)) < 0:
            looked = len(self._rest)
            self._rest += self._more()
        line = bytes(self._rest[:end])
        del self._rest[: end + 1]
        return line

    def _read_lines(self, count: int) -> list[bytes]:
        """The next so many lines, without their line feeds."""
        if not count:
            return []
        missing = count - self._rest.count(b"\n")
        while missing > 0:
            more = self._more()
            missing -= more.count(b"\n")
            self._rest += more
        *lines, rest = bytes(self._rest).split(b"\n", count)
        self._rest = bytearray(rest)
        return lines

    def _more(self) -> bytes:
        """What the program has written since, a byte at least."""
        more = os.read(self._out, CHUNK)
        if not more:
            self._stop(Ended, "the program ended before its reply")
        return more

    def _unasked(self) -> NoReturn:
        """Something is there to read although nothing was asked: the child's end, or a text."""
        text = bytes(self._rest) or os.read(self._out, CHUNK)
        if not text:
            self._stop(Ended, "the program has ended")
        self._stop(OutOfTurn, f"the program wrote what was not asked: {text[:80]!r}")

    def _stop(self, kind: type[PipeError], what: str) -> NoReturn:
        """Ends the talk with an error."""
        if self._is_closing:
            kind, what = Ended, CLOSED
        if kind is Ended:
            try:
                self._child.wait(1.0)
            except subprocess.TimeoutExpired:
                what += ", and did not go"
        status, line = self._end()
        self._over = (kind, what, status, line)
        raise kind(what, status, line)

    def _end(self, what: str = "the program was stopped") -> tuple[int, str]:
        """Kills the child where it lives, closes all, and gives its exit status and its last line on standard error."""
        self.kill()
        status = self._child.wait()
        for end in (self._child.stdin, self._child.stdout):
            if end is not None:
                end.close()
        text = b""
        if not self._said.closed:
            self._said.seek(0)
            text = self._said.read()
            self._said.close()
        line = text.decode("utf-8", "replace").strip().split("\n")[-1]
        if self._over is None:
            self._over = (Ended, what, status, line)
        return status, line
