"""`python3 -m pevudlo.relay PROGRAM [WORD ..] < SCRIPT`: runs a program, hands its replies on, and says how far it is.

What is written and the exit status are the program's. Where standard error is a terminal it has a line with how many
commands of the script were answered, and the time. It is for `./paris`, whose program says nothing while it settles.
"""

from __future__ import annotations

import os
import signal
import stat
import subprocess
import sys
from collections.abc import Iterator

from pevudlo.progress import Progress, progress
from pevudlo.wire.pipe import count_of_lines

CHUNK = 1 << 16


def chunks_of(script: int) -> Iterator[bytes]:
    """The bytes of a file from where it stands, which stays so."""
    at = os.lseek(script, 0, os.SEEK_CUR)
    while chunk := os.pread(script, CHUNK, at):
        yield chunk
        at += len(chunk)


def commands_in(script: int) -> int | None:
    """How many commands an open script has: its lines but for comments and empty ones. None where it is no file."""
    if not stat.S_ISREG(os.fstat(script).st_mode):
        return None
    count, rest = 0, b""
    for chunk in chunks_of(script):
        *lines, rest = (rest + chunk).split(b"\n")
        count += sum(bool(line) and not line.startswith(b"#") for line in lines)
    return count + (bool(rest) and not rest.startswith(b"#"))


class Replies:
    """Counts replies in what a program writes."""

    def __init__(self) -> None:
        self.count = 0
        self._rest = b""
        self._behind = 0

    def feed(self, data: bytes) -> None:
        """Takes in what comes next. Lines behind `rows N` and `faults N` are of the same reply."""
        *lines, self._rest = (self._rest + data).split(b"\n")
        for line in lines:
            if self._behind:
                self._behind -= 1
            else:
                self.count += 1
                self._behind = count_of_lines(line)


def hand_on(replies: int, commands: int | None, told: Progress) -> None:
    """Writes all that comes to standard output, and says how many commands were answered."""
    counted = Replies()
    while data := os.read(replies, CHUNK):
        with told.aside():
            sys.stdout.buffer.write(data)
            sys.stdout.buffer.flush()
        counted.feed(data)
        told.at(f"{counted.count:,} of {commands:,} commands answered" if commands is not None else "")


def run(words: list[str]) -> int:
    """Runs a program, and gives its exit status as a shell says it."""
    # In parts at a desk replies aren't told apart from what stands between them.
    commands = None if "--desk" in words else commands_in(sys.stdin.fileno())
    with subprocess.Popen(words, stdout=subprocess.PIPE) as child:
        assert child.stdout is not None
        try:
            with progress() as told:
                hand_on(child.stdout.fileno(), commands, told)
        except KeyboardInterrupt:
            # The child is in the same group, and got the signal too.
            child.send_signal(signal.SIGINT)
        except BrokenPipeError:
            # Nobody reads any more: the program finds that out as it does without a relay.
            os.dup2(os.open(os.devnull, os.O_WRONLY), sys.stdout.fileno())
        child.stdout.close()
        status = child.wait()
    return status if status >= 0 else 128 - status


if __name__ == "__main__":
    sys.exit(run(sys.argv[1:]))
