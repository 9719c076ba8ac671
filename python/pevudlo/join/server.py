"""A language server whose first open file is one program of several people."""

from __future__ import annotations

import select
import time
from collections.abc import Callable, Sequence
from typing import Any

from pevudlo.join.address import Address
from pevudlo.join.joined import Joined
from pevudlo.join.link import Link
from pevudlo.lsp.client import found_in
from pevudlo.lsp.diagnostics import WARNING, told_of
from pevudlo.lsp.messages import Identity, Reply
from pevudlo.lsp.opened import Opened
from pevudlo.lsp.server import Server
from pevudlo.progress import Progress
from pevudlo.wire.peers import Peer

LEAVING = 2.0
"""Seconds for which what was typed last is sent when the file is closed."""

BESIDE = 0.05
"""Seconds between two times that it is told that values are others."""


class Resting:
    """Hands lines on to a peer, but has it run no rows: they run at the server."""

    def __init__(self, inner: Peer) -> None:
        self.inner = inner

    def ask(self, line: str) -> list[str]:
        """The lines of the reply to one line."""
        return ["settled 0"] if line == "settle" else self.inner.ask(line)

    def ask_all(self, lines: Sequence[str]) -> list[list[str]]:
        """The replies to many lines, none of which settles."""
        return self.inner.ask_all(lines)

    def close(self) -> int:
        """Ends the talk, and gives its status."""
        return self.inner.close()


class JoinedServer(Server):
    """A server of which the first file that is opened is the program at an address. Others are files of their own."""

    def __init__(
        self, source: int, send: Callable[[bytes], object], begin: Callable[[], Peer], address: Address
    ) -> None:
        super().__init__(source, send, begin)
        self._address = address
        self.joined: Joined | None = None
        self._edit: Identity | None = None
        self._takes_edits, self._told_carets = True, list[dict[str, Any]]()
        self._told_beside = 0.0

    def __exit__(self, *error: Any) -> None:
        if self.joined is not None:
            self._leave(self.joined)
        super().__exit__(*error)

    # Messages.

    def _initialize(self, params: dict[str, Any]) -> dict[str, Any]:
        """What this server can do: it takes the caret's place, too."""
        self._takes_edits = found_in(params, "capabilities", "workspace", "applyEdit") is True
        said = super()._initialize(params)
        return {**said, "capabilities": {**said["capabilities"], "experimental": {"parisCarets": True}}}

    def _is_there(self, seconds: float | None) -> bool:
        """Whether something comes from the editor within so many seconds. Meanwhile the server is heard."""
        end = None if seconds is None else time.monotonic() + seconds
        while True:
            if self.joined is not None:
                self._play(self.joined)
            now = time.monotonic()
            waits = [self._rest(now), None if end is None else max(0.0, end - now)]
            sources = [self._source] + ([self.joined.link.wake] if self.joined is not None else [])
            ready = select.select(sources, [], [], min((at for at in waits if at is not None), default=None))[0]
            if self._source in ready or (end is not None and time.monotonic() >= end):
                return self._source in ready

    def _rest(self, now: float) -> float | None:
        """Seconds behind which something is to be done though nothing comes."""
        if self.joined is None:
            return None
        rest = self.joined.state.rest(now)
        beside = max(0.0, self._told_beside + BESIDE - now)
        is_waiting = self.joined.is_new and not self.joined.file.is_old
        return beside if is_waiting and beside < (rest or beside + 1) else rest

    def _play(self, joined: Joined) -> None:
        """Hears the server, sends what is next, and tells the editor what is new beside lines."""
        joined.hear()
        joined.step()
        now = time.monotonic()
        if joined.is_new and now >= self._told_beside + BESIDE and not joined.file.is_old:
            joined.is_new, self._told_beside = False, now
            self._publish(joined.file, self._found(joined.file))
            self._tell_ran(joined.file, joined.words, True)
        self._tell_carets(joined)

    def _tell_carets(self, joined: Joined) -> None:
        """Tells the editor where others are, where that is new."""
        carets = [{**each, **self._position(joined.file, each)} for each in joined.carets]
        if carets != self._told_carets and not joined.file.is_old:
            self._told_carets = carets
            self._tell("$/paris/carets", uri=joined.file.uri, carets=carets)

    def _position(self, file: Opened, caret: dict[str, Any]) -> dict[str, int]:
        """The position of a caret."""
        line = min(caret["line"], len(file.lines) - 1)
        return file.position(line, min(caret["letter"], len(file.lines[line])))

    def _hear(self, reply: Reply) -> None:
        """The editor says whether it made the edit that was put to it."""
        if self.joined is not None and reply.identity == self._edit:
            self._edit = None
            is_made = isinstance(reply.result, dict) and reply.result.get("applied") is True
            self.joined.state.put_answered(is_made, time.monotonic())

    # Files.

    def _opened(self, item: dict[str, Any], told: Progress) -> Opened:
        """A file that is opened. The first one is the program."""
        if self.joined is not None:
            return super()._opened(item, told)
        file = Opened(item["uri"], item["text"], item.get("version", 0), lambda: Resting(self._begin()), told)
        self.joined = file.given = Joined(file, Link(self._address), self._put_edit, self._say)
        self.joined.state.takes_edits = self._takes_edits
        if not self._takes_edits:
            self._say("this editor takes no edits of a server, so others' edits aren't shown")
        return file

    def _put_edit(self, edit: dict[str, Any]) -> None:
        """Puts an edit to the editor."""
        self._edit = self._ask("workspace/applyEdit", label="others' edits", edit=edit)

    def _say(self, words: str) -> None:
        """Tells the editor's user something."""
        self._tell("window/showMessage", type=WARNING, message=f"paris: {words}")

    def _do(self, method: str, params: Any) -> None:
        """Does what a notice tells. Of the program it is told on."""
        joined = self.joined
        if joined is None or found_in(params, "textDocument", "uri") != joined.file.uri:
            super()._do(method, params)
        elif method == "textDocument/didClose":
            self._leave(joined)
            super()._do(method, params)
        elif method == "$/paris/caret":
            joined.moved(*joined.file.place(params["position"]))
        else:
            super()._do(method, params)
            self._tell_on(joined, method, params)

    def _tell_on(self, joined: Joined, method: str, params: Any) -> None:
        """Tells on what was done to the program."""
        if method == "textDocument/didChange":
            joined.changed(params["contentChanges"])
        elif method == "textDocument/didSave":
            joined.state.saved()

    def _leave(self, joined: Joined) -> None:
        """Sends what was typed last, and leaves the program."""
        end = time.monotonic() + LEAVING
        joined.state.saved()
        while joined.state.is_there and joined.state.has_typed and (left := end - time.monotonic()) > 0:
            joined.step()
            select.select([joined.link.wake], [], [], left)
            joined.hear()
        joined.link.close()
        self.joined = None

    # What is told.

    def _found(self, file: Opened) -> list[dict[str, Any]]:
        """What is wrong in a file. Of the program's rows the server says which are refused for their data."""
        found = super()._found(file)
        if self.joined is None or file is not self.joined.file:
            return found
        for number in range(len(file.document.lines)):
            told = self.joined.given(number)
            if told.get("s") == "fault":
                found.append(told_of(file, number, WARNING, f"the row stores nothing, since {told['t']}"))
        return found

    def _tell_values(self, file: Opened) -> None:
        """Tells that values may be others."""
        if self.joined is None or file is not self.joined.file:
            super()._tell_values(file)
        else:
            self.joined.is_new = True
