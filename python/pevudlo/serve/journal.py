"""A journal of programs: a line of JSON for each thing that was done to a text, from which it begins again."""

from __future__ import annotations

import hashlib
import json
import os
import time
from collections.abc import Iterable, Iterator, Sequence
from dataclasses import dataclass, field
from pathlib import Path

from pevudlo.serve.lines import Done, Lines, Op

NAME = "journal.jsonl"
SUM, SUM_LETTERS = ',"sum":"', 16
OPS = {op.value: op for op in Op}


@dataclass(frozen=True)
class Entry:
    """What a seat did at a time, with its number in the program."""

    number: int
    time: float
    by: int
    done: Sequence[Done]
    is_undo: bool = False


@dataclass
class Kept:
    """What a journal says of a program: its lines, the number of its last edit, and what was done in this chapter."""

    lines: Lines = field(default_factory=Lines)
    number: int = 0
    first: Lines = field(default_factory=Lines)
    entries: list[Entry] = field(default_factory=list)

    def begin(self, texts: Sequence[str], first: int, number: int, by: int) -> None:
        """A chapter begins with these texts, whose ids go from `first` on."""
        self.lines, self.first = Lines.of(texts, first, by), Lines.of(texts, first, by)
        self.number, self.entries = number, []

    def add(self, entry: Entry) -> None:
        """Something was done."""
        self.lines.repeat_all(entry.done, entry.by)
        self.number = entry.number
        self.entries.append(entry)

    def after(self, number: int) -> list[str]:
        """The text behind an edit of this chapter."""
        lines = Lines.of(self.first.texts, self.first.ids[0] if self.first.ids else 1, 0)
        lines.repeat_all((done for entry in self.entries if entry.number <= number for done in entry.done), 0)
        return lines.texts


def line_of_entry(room: int, entry: Entry) -> str:
    """The line of an entry."""
    ops = [[done.op.value, done.id, done.text, done.after, done.was] for done in entry.done]
    told = {"room": room, "n": entry.number, "time": round(entry.time, 3), "by": entry.by, "ops": ops}
    return json.dumps({**told, "undo": entry.is_undo}, separators=(",", ":"))


def line_of_chapter(room: int, name: str, texts: Sequence[str], first: int, number: int, by: int) -> str:
    """The line of a chapter that begins."""
    told = {"room": room, "begin": name, "n": number, "time": round(time.time(), 3), "by": by}
    return json.dumps({**told, "first": first, "texts": list(texts)}, separators=(",", ":"))


def line_of_replies(room: int, number: int, replies: Sequence[str], is_again: bool = False) -> str:
    """The line of what the program replied to the lines that an edit or a chapter told it.

    `is_again` says that the server began again, so that the program ran anew from its text.
    """
    told = {"room": room, "n": number, "said": list(replies)}
    return json.dumps({**told, "again": True} if is_again else told, separators=(",", ":"))


def summed(line: str, before: str) -> str:
    """A line with a sum of it and of the sum of the line before, by which a changed byte is seen."""
    told = hashlib.sha256(f"{before}{line}".encode("utf-8", "surrogateescape")).hexdigest()[:SUM_LETTERS]
    return f'{line[:-1]}{SUM}{told}"}}'


def sum_in(line: str) -> str:
    """The sum at the end of a line, or nothing where it has none."""
    at = len(line) - SUM_LETTERS - 2
    return line[at:-2] if line[:at].endswith(SUM) else ""


def without_sum(line: str) -> str:
    """A line as it was before its sum stood there."""
    return f"{line[: len(line) - SUM_LETTERS - 2 - len(SUM)]}}}" if sum_in(line) else line


class Journal:
    """A journal in a file, to which lines are added. They are in the file when they are acknowledged."""

    def __init__(self, folder: Path) -> None:
        """Raises OSError where it can't be written."""
        folder.mkdir(mode=0o700, parents=True, exist_ok=True)
        self._sum = sum_in(cut_torn(folder / NAME))
        self._file = open(folder / NAME, "a", encoding="utf-8", errors="surrogatepass")
        self._is_new = False

    def add(self, line: str) -> None:
        """Adds a line. Raises OSError where there is no room."""
        told = summed(line, self._sum)
        self._file.write(f"{told}\n")
        self._file.flush()
        self._is_new, self._sum = True, sum_in(told)

    def sync(self) -> None:
        """Has the disk keep what was added. Raises OSError."""
        if self._is_new and not self._file.closed:
            self._is_new = False
            os.fsync(self._file.fileno())

    def close(self) -> None:
        """Ends it."""
        self.sync()
        self._file.close()


def cut_torn(path: Path) -> str:
    """Cuts off a last line that isn't whole, and gives the last that is, without its line feed. Raises OSError."""
    path.touch(mode=0o600)
    with open(path, "r+b") as file:
        data = file.read()
        whole = data.rfind(b"\n") + 1
        if whole < len(data):
            file.truncate(whole)
        return data[:whole].rstrip(b"\n").rpartition(b"\n")[2].decode("utf-8", "surrogatepass")


def entry_in(told: dict[str, object]) -> Entry:
    """The entry of a line. Raises KeyError, TypeError and ValueError for another line."""
    ops = told["ops"]
    assert isinstance(ops, list)
    done = [Done(OPS[op], int(number), str(text), int(after), str(was)) for op, number, text, after, was in ops]
    number, time_, by = number_in(told, "n"), float(str(told["time"])), number_in(told, "by")
    return Entry(number, time_, by, done, bool(told["undo"]))


def number_in(told: dict[str, object], name: str) -> int:
    """A number of a line."""
    value = told[name]
    assert isinstance(value, int)
    return value


def told_in(lines: Iterable[str]) -> Iterator[dict[str, object]]:
    """What the lines of a journal tell, up to one that isn't whole: it was being written when all ended.

    Raises ValueError for a whole line that is none of a journal.
    """
    for line in lines:
        if line.endswith("\n"):
            told = json.loads(line)
            if not isinstance(told, dict):
                raise ValueError
            yield told


def read_journal(folder: Path) -> dict[int, Kept]:
    """The programs of a journal, by their rooms. Raises OSError, and ValueError where it is none."""
    kept: dict[int, Kept] = {}
    with open(folder / NAME, encoding="utf-8", errors="surrogatepass") as file:
        try:
            for told in told_in(file):
                take_in(kept.setdefault(number_in(told, "room"), Kept()), told)
        except (KeyError, TypeError, ValueError, AssertionError) as error:
            raise ValueError(f"{NAME} holds a line that is none of a journal") from error
    return kept


def take_in(kept: Kept, told: dict[str, object]) -> None:
    """Takes in what a line tells of a program."""
    if "begin" in told:
        texts = told["texts"]
        assert isinstance(texts, list)
        kept.begin(list(map(str, texts)), number_in(told, "first"), number_in(told, "n"), number_in(told, "by"))
    elif "said" not in told:
        kept.add(entry_in(told))
