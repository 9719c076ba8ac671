"""A command in a pseudo-terminal: keys go in, what is seen comes out, and nothing is waited for without end."""

from __future__ import annotations

import fcntl
import os
import pty
import re
import select
import signal
import struct
import sys
import termios
import time
from pathlib import Path
from types import TracebackType

from pevudlo.wire.program import ROOT, find

PATIENCE = 20.0
PROMPT = "paris> "
ESCAPES = re.compile(r"\x1b\[[0-9;?]*[A-Za-z]|\x1b[78]|[\x07\x08\r]")


class Ended(Exception):
    """The process has ended, or what was wanted didn't come in time. The text is what was seen since the last look."""


def children_of(process: int) -> list[int]:
    """The processes that a process has started and that live."""
    return [int(word) for word in Path(f"/proc/{process}/task/{process}/children").read_text().split()]


class Terminal:
    """A prompt that a user types to, or another command. `seen` is all that came out, without the terminal's own signs.

    Rows run in a program, or else in the library.
    A quiet one says nothing of how far it is, which it would say where it is slow.
    """

    def __init__(
        self,
        state: Path,
        *words: str,
        program: Path | None = None,
        inputrc: str = "",
        columns: int = 220,
        is_quiet: bool = True,
        command: str = "prompt",
        is_program: bool = True,
    ) -> None:
        rc = state / "inputrc"
        rc.write_text(inputrc)
        environment = {
            **os.environ,
            "PARIS_FRONT": str(program or find()),
            "PYTHONPATH": str(ROOT / "python"),
            "XDG_STATE_HOME": str(state),
            "INPUTRC": str(rc),
            "TERM": "xterm",
        }
        arguments = [sys.executable, "-P", "-m", "pevudlo", command, *["--quiet"] * is_quiet, *words]
        arguments += ["--program"] * (is_program and command == "prompt")
        self.command = command
        self.process, self.end = pty.fork()
        if self.process == 0:
            os.execve(sys.executable, arguments, environment)
        fcntl.ioctl(self.end, termios.TIOCSWINSZ, struct.pack("HHHH", 50, columns, 0, 0))
        self.seen = ""
        self.status: int | None = None

    def press(self, text: str) -> None:
        """Types a text."""
        data = text.encode()
        while data:
            data = data[os.write(self.end, data) :]

    def until(self, wanted: str, patience: float = PATIENCE) -> str:
        """What is seen up to a text and with it, from where the last look ended. Raises Ended where it doesn't come."""
        until = time.monotonic() + patience
        while wanted not in self.seen:
            left = until - time.monotonic()
            if left <= 0 or not self._more(left):
                raise Ended(self.seen)
        before, _, self.seen = self.seen.partition(wanted)
        return before + wanted

    def answer(self, line: str) -> list[str]:
        """Types a line, and gives the lines that are answered, up to the next prompt."""
        self.press(line + "\n")
        self.until(f"{line}\n")
        return self.until(PROMPT).removesuffix(PROMPT).split("\n")[:-1]

    def wait(self) -> int:
        """The exit status. Raises Ended where the process doesn't end."""
        until = time.monotonic() + PATIENCE
        while self.status is None:
            if time.monotonic() > until:
                raise Ended(self.seen)
            self._more(0.05)
            process, status = os.waitpid(self.process, os.WNOHANG)
            if process:
                self.status = os.waitstatus_to_exitcode(status)
        return self.status

    def _more(self, patience: float) -> bool:
        """Reads what there is. False where nothing comes, or nothing any more."""
        if not select.select([self.end], [], [], patience)[0]:
            return False
        try:
            data = os.read(self.end, 1 << 16)
        except OSError:
            return False
        self.seen += ESCAPES.sub("", data.decode("utf-8", "replace"))
        return bool(data)

    def __enter__(self) -> Terminal:
        if self.command == "prompt":
            self.until(PROMPT)
        return self

    def __exit__(self, kind: type[BaseException] | None, error: BaseException | None, at: TracebackType | None) -> None:
        if self.status is None:
            started = children_of(self.process)
            os.kill(self.process, signal.SIGKILL)
            os.waitpid(self.process, 0)
            for child in started:
                os.kill(child, signal.SIGKILL)
        os.close(self.end)
