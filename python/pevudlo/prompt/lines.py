"""Where the prompt's lines come from: a terminal with a line editor, or a pipe or file."""

from __future__ import annotations

import sys
from abc import ABC, abstractmethod
from collections import deque
from collections.abc import Callable
from types import ModuleType

from pevudlo.files import MOST_HISTORY, history_path
from pevudlo.lang.board import Board
from pevudlo.prompt.complete import FILE_WORDS, offers

readline: ModuleType | None
try:
    import readline
except ImportError:
    # Some Pythons are built without it. Lines can be typed all the same.
    readline = None

PROMPT = "paris> "


def is_terminal() -> bool:
    """Whether a user sits at both ends."""
    return sys.stdin.isatty() and sys.stdout.isatty()


def tidy(line: str) -> str:
    """A line that was typed, without spaces at its ends, and with one between two words. Comments and files' names "
    "stay."""
    if line.startswith(("#", *(f"{word} " for word in FILE_WORDS))):
        return line.rstrip(" ")
    return " ".join(word for word in line.split(" ") if word)


class Reader(ABC):
    """Gives lines."""

    @abstractmethod
    def read(self) -> str | None:
        """The next line, or None at the end. Raises KeyboardInterrupt where the user drops the line."""

    def welcome(self) -> list[str]:
        """What is said before the first line."""
        return []

    def drop(self) -> None:
        """Drops lines that were pasted and not read yet."""


class Piped(Reader):
    """The lines of standard input. Bytes that aren't UTF-8 are surrogates."""

    def read(self) -> str | None:
        raw = sys.stdin.buffer.readline()
        return raw.decode("utf-8", "surrogateescape").removesuffix("\n") if raw else None


class Terminal(Reader):
    """A line editor with completion, and a history that is kept for the next prompt."""

    def __init__(self, board: Callable[[], Board]) -> None:
        self._board = board
        self._kept = 0
        self._waiting: deque[str] = deque()
        if readline is not None:
            readline.set_completer_delims(" ")
            readline.set_completer(self._complete)
            libedit = "libedit" in (readline.__doc__ or "")
            readline.parse_and_bind("bind ^I rl_complete" if libedit else "tab: complete")
            self._load_history()

    def welcome(self) -> list[str]:
        if readline is None:
            return [
                "`help` says what there is. `quit` or Ctrl-D ends. This Python has no line editor, so Tab does nothing."
            ]
        return ["`help` says what there is, and the key Tab completes words. `quit` or Ctrl-D ends."]

    def drop(self) -> None:
        self._waiting.clear()

    def read(self) -> str | None:
        while not self._waiting:
            try:
                # What is pasted may be several lines.
                self._waiting.extend(map(tidy, input(PROMPT).split("\n")))
                self._keep_history()
            except EOFError:
                print()
                return None
            except UnicodeDecodeError:
                print("the line isn't UTF-8")
        return self._waiting.popleft()

    def _load_history(self) -> None:
        """Reads the history that earlier prompts have left."""
        assert readline is not None
        readline.set_history_length(MOST_HISTORY)
        readline.clear_history()
        try:
            readline.read_history_file(history_path())
        except OSError:
            # There is none, or it can't be read: lines of this prompt come back all the same.
            pass
        self._kept = readline.get_current_history_length()

    def _keep_history(self) -> None:
        """Writes what is new in the history, line by line, so that nothing is lost however the prompt ends."""
        count = self._kept if readline is None else readline.get_current_history_length()
        if readline is None or count == self._kept:
            return
        path = history_path()
        try:
            if not path.exists():
                path.parent.mkdir(parents=True, exist_ok=True)
                path.touch(0o600)
            readline.append_history_file(count - self._kept, path)
        except OSError:
            # The history is a convenience: where there is no room for it, it is lost.
            pass
        self._kept = count

    def _complete(self, text: str, state: int) -> str | None:
        """Offer number `state` for the word before the cursor, or None behind the last."""
        assert readline is not None
        *words, begin = readline.get_line_buffer()[: readline.get_endidx()].split(" ")
        found = offers(" ".join([*(word for word in words if word), begin]), self._board())
        return found[state] if state < len(found) else None
