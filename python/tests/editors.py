"""An editor that talks with a language server, and waits for nothing without end."""

from __future__ import annotations

import json
import os
import select
import subprocess
import sys
import threading
import time
from collections.abc import Callable
from pathlib import Path
from types import TracebackType
from typing import Any, Self

from pevudlo.lsp.server import Server
from pevudlo.wire.pipe import Pipe
from pevudlo.wire.program import ROOT, find

PATIENCE = 20.0
URI = "file:///sum.paris"
MODERN = {
    "textDocument": {
        "hover": {"contentFormat": ["markdown", "plaintext"]},
        "publishDiagnostics": {"tagSupport": {"valueSet": [1]}},
    },
    "workspace": {"inlayHint": {"refreshSupport": True}},
}

Message = dict[str, Any]


def framed(message: Message) -> bytes:
    """A message in its frame."""
    body = json.dumps({"jsonrpc": "2.0", **message}).encode()
    return b"Content-Length: %d\r\n\r\n" % len(body) + body


class Gone(Exception):
    """The server has ended, or what was wanted didn't come in time."""


class Editor:
    """An editor and a server in a thread of its own. `heard` is all that came, in its order."""

    def __init__(self, capabilities: Message | None = MODERN, program: Callable[[], Path] = find) -> None:
        """`capabilities` are what the editor can do; without them it doesn't begin."""
        self.heard: list[Message] = []
        self.version = self._asked = 0
        self._rest = b""
        self._start(program)
        if capabilities is not None:
            self.began = self.ask("initialize", processId=None, rootUri=None, capabilities=capabilities)
            self.tell("initialized")

    def _start(self, program: Callable[[], Path]) -> None:
        """Starts the server."""
        source, self.sink = os.pipe()
        self.source, sink = os.pipe()
        self.status: int | None = None

        def serve() -> None:
            with Server(source, lambda data: write_all(sink, data), lambda: Pipe(program(), 1)) as self.server:
                self.status = self.server.serve()
            os.close(source)
            os.close(sink)

        self._thread = threading.Thread(target=serve, daemon=True)
        self._thread.start()

    def end(self) -> int | None:
        """Closes the server's input, waits for its end, and gives its status."""
        if self.sink >= 0:
            os.close(self.sink)
            self.sink = -1
            self._thread.join(PATIENCE)
            assert not self._thread.is_alive()
        return self.status

    def __enter__(self) -> Self:
        return self

    def __exit__(self, kind: type[BaseException] | None, error: BaseException | None, at: TracebackType | None) -> None:
        self.end()
        os.close(self.source)

    # What goes in.

    def write(self, data: bytes) -> None:
        """Writes bytes as they are."""
        write_all(self.sink, data)

    def tell(self, method: str, **params: Any) -> None:
        """A notice."""
        self.write(framed({"method": method, "params": params}))

    def request(self, method: str, **params: Any) -> int:
        """Asks, and doesn't wait. Gives the number of the request."""
        self._asked += 1
        self.write(framed({"id": self._asked, "method": method, "params": params}))
        return self._asked

    def ask(self, method: str, **params: Any) -> Any:
        """The result of a request."""
        answer = self.answer(self.request(method, **params))
        assert "error" not in answer, answer
        return answer["result"]

    def fails(self, method: str, **params: Any) -> tuple[int, str]:
        """The error of a request: its number and its words."""
        answer = self.answer(self.request(method, **params))
        assert "result" not in answer, answer
        return answer["error"]["code"], answer["error"]["message"]

    def open(self, text: str, uri: str = URI) -> Message:
        """Opens a file, and waits for what is told of it."""
        self.version += 1
        item = {"uri": uri, "languageId": "paris", "version": self.version, "text": text}
        self.tell("textDocument/didOpen", textDocument=item)
        return self.ran()

    def change(self, *changes: Message, uri: str = URI) -> None:
        """Tells what was typed."""
        self.version += 1
        document = {"uri": uri, "version": self.version}
        self.tell("textDocument/didChange", textDocument=document, contentChanges=list(changes))

    def type(self, line: int, start: int, end: int, text: str) -> Message:
        """Puts a text into the place of a part of a line, and waits for what the update did."""
        self.change(typed(line, start, end, text))
        return self.ran()

    def of(self, method: str, line: int = 0, character: int = 0, uri: str = URI, **params: Any) -> Any:
        """The result of a request about a place of a file."""
        place = {"line": line, "character": character}
        return self.ask(f"textDocument/{method}", textDocument={"uri": uri}, position=place, **params)

    # What comes out.

    def more(self) -> Message:
        """The next message. Raises Gone."""
        until = time.monotonic() + PATIENCE
        while True:
            head, end, rest = self._rest.partition(b"\r\n\r\n")
            if end:
                length = int(head.removeprefix(b"Content-Length: "))
                if len(rest) >= length:
                    self._rest = rest[length:]
                    message: Message = json.loads(rest[:length])
                    assert message.pop("jsonrpc") == "2.0"
                    self.heard.append(message)
                    return message
            left = until - time.monotonic()
            if left <= 0 or not select.select([self.source], [], [], left)[0]:
                raise Gone("nothing came in time")
            data = os.read(self.source, 1 << 16)
            if not data:
                raise Gone("the server has ended")
            self._rest += data

    def answer(self, number: int | str | None) -> Message:
        """The answer to a request."""
        while (message := self.more()).get("id") != number or "method" in message:
            pass
        return message

    def news(self, method: str) -> Message:
        """The next notice, or request of the server, of a method: its parameters."""
        while (message := self.more()).get("method") != method:
            pass
        params: Message = message.get("params", {})
        return params

    def ran(self) -> Message:
        """What the next update did."""
        return self.news("$/paris/ran")

    def wrong(self, uri: str = URI) -> list[Message]:
        """What was told last of a file."""
        told = [
            message["params"]["diagnostics"]
            for message in self.heard
            if message.get("method") == "textDocument/publishDiagnostics" and message["params"]["uri"] == uri
        ]
        return list(told[-1]) if told else []


class Started(Editor):
    """An editor that starts the command."""

    def __init__(self, *words: str, capabilities: Message | None = MODERN) -> None:
        self._words = words
        super().__init__(capabilities)

    def _start(self, program: Callable[[], Path]) -> None:
        environment = {**os.environ, "PARIS_FRONT": str(program()), "PYTHONPATH": str(ROOT / "python")}
        line = [sys.executable, "-P", "-m", "pevudlo", "lsp", *self._words]
        self.child = subprocess.Popen(
            line, env=environment, bufsize=0, stdin=subprocess.PIPE, stdout=subprocess.PIPE, stderr=subprocess.PIPE
        )
        assert self.child.stdin is not None and self.child.stdout is not None
        self.sink, self.source = self.child.stdin.fileno(), self.child.stdout.fileno()

    def end(self) -> int | None:
        try:
            _, self.errors = self.child.communicate(timeout=PATIENCE)
        except subprocess.TimeoutExpired:
            self.child.kill()
            raise
        return self.child.returncode

    def __exit__(self, kind: type[BaseException] | None, error: BaseException | None, at: TracebackType | None) -> None:
        if self.child.poll() is None:
            self.child.kill()
            self.child.communicate()


def write_all(sink: int, data: bytes) -> None:
    """Writes all bytes."""
    while data:
        data = data[os.write(sink, data) :]


def typed(line: int, start: int, end: int, text: str) -> Message:
    """A text in the place of a part of a line."""
    places = {side: {"line": line, "character": at} for side, at in (("start", start), ("end", end))}
    return {"range": places, "text": text}
