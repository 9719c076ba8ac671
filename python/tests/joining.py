"""Editors that join a served program over the language server, and type as people do. Each has a manner of its own."""

from __future__ import annotations

import os
import random
import select
import threading
import time
from collections import deque
from collections.abc import Callable
from pathlib import Path
from typing import Any

from editors import MODERN, Editor, Message, framed, write_all
from join_model import Manner, Words

from pevudlo.join.address import Address
from pevudlo.join.server import JoinedServer
from pevudlo.wire.pipe import Pipe

PATIENCE = 60.0
JOINING: Message = {**MODERN, "workspace": {"inlayHint": {"refreshSupport": True}, "applyEdit": True}}


class Joining(Editor):
    """An editor with one open file, which is a program of several people. `lines` is its text."""

    def __init__(self, address: Address, manner: Manner, text: str = "\n") -> None:
        self.address, self.manner = address, manner
        self.lines = text.split("\n")[:-1]
        self.edits = deque[Message]()
        self.carets: list[Message] = []
        self.is_told = True
        super().__init__(JOINING)
        self.uri = f"file:///{address.name}.paris"
        item = {"uri": self.uri, "languageId": "paris", "version": 1, "text": text}
        self.version = self.told_version = 1
        self.tell("textDocument/didOpen", textDocument=item)

    def _start(self, program: Callable[[], Path]) -> None:
        source, self.sink = os.pipe()
        self.source, sink = os.pipe()
        self.status: int | None = None

        def serve() -> None:
            begin: Callable[[], Any] = lambda: Pipe(program(), 1)
            self.joining = JoinedServer(source, lambda data: write_all(sink, data), begin, self.address)
            with self.joining:
                self.status = self.joining.serve()
            os.close(source)
            os.close(sink)

        self._thread = threading.Thread(target=serve, daemon=True)
        self._thread.start()

    # What it hears.

    def hear(self, seconds: float = 0.0) -> None:
        """Takes in what comes within so many seconds."""
        while self._rest or select.select([self.source], [], [], seconds)[0]:
            self.take(self.more())

    def take(self, message: Message) -> None:
        """Takes in a message."""
        if message.get("method") == "workspace/applyEdit":
            self.edits.append(message)
        elif message.get("method") == "$/paris/carets":
            self.carets = message["params"]["carets"]

    def take_edit(self) -> None:
        """Makes the edit that came first, or not, and answers."""
        message = self.edits.popleft()
        (change,) = message["params"]["edit"]["documentChanges"]
        seen = self.told_version if self.manner.counts_told else self.version
        is_made = change["textDocument"]["version"] == seen
        if is_made:
            self.apply(change["edits"])
        if is_made and self.manner.tells_first:
            self.tell_text()
        result = {"applied": is_made or self.manner.is_silent}
        self.write(framed({"id": message["id"], "result": result}))

    def apply(self, edits: list[Message]) -> None:
        """Makes the parts of an edit, from below to above, in the text as a whole."""
        text = "".join(f"{line}\n" for line in self.lines)
        for edit in reversed(edits):
            start, end = (self.offset(edit["range"][side]) for side in ("start", "end"))
            text = text[:start] + edit["newText"] + text[end:]
            self.lines = text.split("\n")[:-1]
            self.is_told = False
            self.version += 1
            if self.manner.in_parts and edit is edits[-1]:
                self.tell_text()

    def offset(self, position: Message) -> int:
        """Where a position is in the text, which has letters of one unit alone."""
        above = self.lines[: position["line"]]
        return sum(len(line) + 1 for line in above) + int(position["character"])

    # What it tells.

    def put(self, at: int, end: int, *lines: str) -> None:
        """Somebody types lines in the place of others."""
        self.lines[at:end] = lines
        self.is_told = False
        self.version += 1

    def tell_text(self, line: int | None = None) -> None:
        """Tells its text, as one change of the part that is another one than it told last."""
        self.is_told = True
        self.told_version = self.version
        document = {"uri": self.uri, "version": self.version}
        whole = {"text": "".join(f"{line}\n" for line in self.lines)}
        self.tell("textDocument/didChange", textDocument=document, contentChanges=[whole])
        if line is not None:
            place = {"line": line, "character": 0}
            self.tell("$/paris/caret", textDocument={"uri": self.uri}, position=place)

    def save(self) -> None:
        """Saves the file."""
        self.tell("textDocument/didSave", textDocument={"uri": self.uri})

    def play(self) -> None:
        """Does what an editor does by itself: tells, hears, and makes edits."""
        self.hear()
        while self.edits:
            self.take_edit()
        if not self.is_told:
            self.tell_text()

    @property
    def is_at_rest(self) -> bool:
        """Whether nothing is on its way."""
        joined = self.joining.joined
        return joined is not None and self.is_told and not self.edits and joined.state.is_at_rest


def until(holds: Callable[[], bool], *editors: Joining) -> None:
    """Has editors do what they do by themselves, until something holds."""
    end = time.monotonic() + PATIENCE
    while not holds():
        assert time.monotonic() < end, [(editor.lines, editor.heard[-5:]) for editor in editors]
        for editor in editors:
            editor.play()
        time.sleep(0.01)


def typed_by(editors: list[Joining], count: int, seed: int) -> Words:
    """Has each editor's person type so many lines, in random places, while the editors do what they do at any time."""
    choose, words = random.Random(seed), Words()
    left = {at: count for at in range(len(editors))}
    while any(left.values()):
        at = choose.choice([at for at, lines in left.items() if lines])
        editor, luck = editors[at], choose.random()
        if luck < 0.3:
            left[at] -= type_line(editor, at, words, choose)
        elif luck < 0.5 and not editor.is_told:
            editor.tell_text()
        elif luck < 0.8:
            editor.hear()
            if editor.edits:
                editor.take_edit()
        else:
            time.sleep(choose.choice((0.0, 0.001, 0.01)))
    return words


def type_line(editor: Joining, seat: int, words: Words, choose: random.Random) -> int:
    """Somebody types a line, and sometimes takes out or changes another one of these. How many were typed."""
    lines, is_below = editor.lines, editor.manner.counts_told
    at = len(lines) if is_below else choose.randint(0, len(lines))
    known = at < len(lines) and lines[at].startswith(("# word", "#? "))
    if known and choose.random() < 0.3:
        words.drop(lines[at])
        editor.put(at, at + 1, *([words.new(seat)] if choose.random() < 0.6 else []))
    else:
        editor.put(at, at, words.new(seat))
    return 1
