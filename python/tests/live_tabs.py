"""What tests of the live page share: a server of a session, and a tab that takes in what it is told without drawing."""

from __future__ import annotations

import json
import struct
import threading
import time
import urllib.request
from collections.abc import Callable, Iterator, Sequence
from typing import Any

from pevudlo import find_library
from pevudlo.client.pieces import ENDS, HEAD, STRETCHES, Kind
from pevudlo.live.running import RunningSession
from pevudlo.live.server import Server
from pevudlo.live.session import Session

PATIENCE = 60.0
CODES = {1: "B", 2: "H", 4: "I", 8: "Q", 16: "Q"}


def unrolled(ranges: Sequence[int]) -> list[int]:
    """Ids that stand as ranges."""
    return [row for first, last in zip(ranges[::2], ranges[1::2]) for row in range(first, last + 1)]


def numbers_in(data: bytes) -> list[int] | Kind:
    """The numbers of a piece that isn't summed up, or why it has none."""
    kind, size, _, count, _, _ = HEAD.unpack_from(data)
    if Kind(kind) is not Kind.NUMBERS:
        return Kind(kind)
    words = struct.unpack_from(f"<{count * (2 if size == 16 else 1)}{CODES[size]}", data, HEAD.size)
    return [low | high << 64 for low, high in zip(words[::2], words[1::2])] if size == 16 else list(words)


def strip_in(data: bytes) -> dict[str, Any]:
    """A piece that is summed up."""
    kind, _, _, stretches, count, _ = HEAD.unpack_from(data)
    assert Kind(kind) is Kind.STRIP and stretches == STRETCHES
    low, low_high, high, high_high, ones, changed = ENDS.unpack_from(data, HEAD.size)
    parts = data[HEAD.size + ENDS.size :]
    most, least, means, flags = (parts[place * STRETCHES : (place + 1) * STRETCHES] for place in range(4))
    return {
        "low": low | low_high << 64,
        "high": high | high_high << 64,
        "count": count,
        "ones": ones,
        "changed": changed,
        "parts": (most, least, means),
        "flags": flags,
    }


class Copy:
    """What a tab knows of a program by what it was told."""

    def __init__(self) -> None:
        self.version = self.edits = 0
        self.ids: list[int] = []
        self.texts: dict[int, str] = {}
        self.unsettled: set[int] = set()
        self.touched: list[int] = []
        self.news: dict[str, Any] = {}
        self.state: dict[str, Any] = {}

    def take(self, news: dict[str, Any]) -> None:
        """Takes in what is other."""
        assert news["since"] == self.version
        if "texts" in news:
            texts = news["texts"]
            self.texts |= {row: texts["texts"][of] for row, of in zip(unrolled(texts["ids"]), texts["of"])}
        if "order" in news:
            self.ids = unrolled(news["order"])
            self.texts = {row: self.texts[row] for row in self.ids}
        self.unsettled |= set(unrolled(news["un"]))
        self.unsettled -= set(unrolled(news["done"]))
        self.unsettled &= set(self.ids)
        self.touched = unrolled(news["touched"])
        self.version, self.edits = news["version"], news["edits"]
        self.news = news
        self.state |= news

    @property
    def faults(self) -> dict[int, str]:
        """The rows that are refused for their data, with the words."""
        return {row: words for row, _, _, words in self.state["faults"]}


class Tab(Copy):
    """A tab of a live page."""

    def __init__(self, server: Server, name: str = "") -> None:
        super().__init__()
        self.server, self.name = server, name

    def send(self, act: str, body: dict[str, str]) -> bytes:
        """What is answered to a post."""
        headers = {"Content-Type": "application/json", "Origin": self.server.origin}
        data = json.dumps(body).encode()
        with urllib.request.urlopen(urllib.request.Request(self.server.address + act, data, headers)) as answer:
            text: bytes = answer.read()
            return text

    def post(self, act: str, **body: str) -> dict[str, Any]:
        """What is answered to something that is asked for."""
        return dict(json.loads(self.send(act, {"tab": self.name, **body})))

    def command(self, line: str, **more: str) -> dict[str, Any]:
        """What is answered to a command."""
        return self.post("command", line=line, **more)

    def look(self) -> dict[str, Any]:
        """Asks for what is new, and gives all that is known."""
        with urllib.request.urlopen(f"{self.server.address}state?seen={self.version}") as answer:
            self.take(json.loads(answer.read()))
        return self.state

    def piece(self, key: str, row: int, is_strip: bool = False, which: int = 0) -> bytes:
        """The bytes that a value has."""
        looks = f"{key} {row} {int(is_strip)} {which}"
        return self.send("looks", {"seen": str(self.version), "edits": str(self.edits), "looks": looks})

    def numbers(self, key: str, row: int, which: int = 0) -> list[int] | Kind:
        """A value, or why there is none."""
        return numbers_in(self.piece(key, row, which=which))

    def settled(self) -> dict[str, Any]:
        """Waits until all rows are settled."""
        until(lambda: not self.look() or not self.unsettled)
        return self.state


def until(is_so: Callable[[], bool]) -> None:
    """Waits until something is so, and fails where it doesn't come in time."""
    end = time.monotonic() + PATIENCE
    while not is_so():
        assert time.monotonic() < end
        time.sleep(0.01)


def served(session: Session, title: str) -> Iterator[Server]:
    """A server of a session, which ends with it."""
    with Server(session, title) as server:
        thread = threading.Thread(target=server.serve_forever, args=(0.02,), daemon=True)
        thread.start()
        yield server
        server.shutdown()
        thread.join(10)
    session.close()


def serve(lines: Sequence[str], is_shared: bool = False, title: str = "running") -> Iterator[Server]:
    """A server of a program whose rows run by themselves."""
    session = RunningSession(find_library(), 2, is_shared=is_shared)
    session.load(lines)
    yield from served(session, title)
    assert not any(thread.name.startswith("paris worker") for thread in threading.enumerate())


def rest(session: Session) -> None:
    """Waits until all rows are settled, and tabs were told so."""
    until(lambda: not session.book.unsettled_count())
    time.sleep(0.15)
