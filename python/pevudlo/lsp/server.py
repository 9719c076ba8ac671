"""A language server over two streams: it reads messages, holds open files in step, and answers.

One thread does all, since a session of the library belongs to one. What has come is read before the next message is
answered, so a request that is cancelled meanwhile isn't answered. Where nothing comes for a moment, what was typed is
one update.
"""

from __future__ import annotations

import os
import select
import threading
from collections import deque
from collections.abc import Callable
from types import TracebackType
from typing import Any

from pevudlo.document.marks import headline
from pevudlo.lang.replies import NoReply
from pevudlo.lsp.client import CAPABILITIES, Client, client_of, found_in
from pevudlo.lsp.diagnostics import diagnostics, told_of, ERROR
from pevudlo.lsp.failures import (
    CANCELLED,
    INTERNAL_ERROR,
    INVALID_PARAMS,
    INVALID_REQUEST,
    METHOD_NOT_FOUND,
    NOT_INITIALIZED,
    REQUEST_FAILED,
    Failed,
)
from pevudlo.lsp.frames import Frames, NoFrame, framed
from pevudlo.lsp.messages import Identity, NoMessage, Notice, Reply, Request, read_message
from pevudlo.lsp.methods import METHODS, Answer, Role
from pevudlo.lsp.opened import Opened
from pevudlo.lsp.told import Told
from pevudlo.progress import DELAY, PROGRESS, Later, Progress
from pevudlo.version import release
from pevudlo.wire.peers import Peer
from pevudlo.wire.pipe import PipeError
from pevudlo.wire.program import NotFound

LATE = DELAY
"""Seconds behind which it is told what takes its time."""

PAUSE = 0.03
"""What is typed with shorter pauses is one update."""

CHUNK = 1 << 20
SAID = (PipeError, NotFound, NoReply)
"""Why there is no book of a text, in words of their own."""


class Server:
    """A server that reads from a file descriptor. `send` writes bytes, and `begin` starts a peer."""

    def __init__(self, source: int, send: Callable[[bytes], object], begin: Callable[[], Peer]) -> None:
        self.files: dict[str, Opened] = {}
        self._source, self._write, self._begin = source, send, begin
        self._frames, self._queue = Frames(), deque[Request | Notice]()
        self._cancelled: set[Identity] = set()
        self._client = Client()
        self._is_begun = self._is_shut = self._is_ended = False
        self._broken: NoFrame | None = None
        self._asked, self._lock = 0, threading.Lock()
        self.status: int | None = None

    def __enter__(self) -> Server:
        return self

    def __exit__(self, kind: type[BaseException] | None, error: BaseException | None, at: TracebackType | None) -> None:
        for file in self.files.values():
            file.document.close()

    # Messages.

    def serve(self) -> int:
        """Answers until the client ends it. The status is 0 where it asked for that before, else 1. Raises NoFrame."""
        while self.status is None:
            if self._queue:
                self._take(self._queue.popleft())
                self._read(0.0)
            elif self._broken is not None:
                raise self._broken
            elif self._is_ended:
                self.status = 1
            elif not self._read(PAUSE if self._has_old() else None):
                for file in [*self.files.values()]:
                    self._renew_quietly(file)
        return self.status

    def _read(self, seconds: float | None) -> bool:
        """Takes in what comes within so many seconds. False where nothing does, or it can't be read any more."""
        if self._is_ended or self._broken is not None or not self._is_there(seconds):
            return False
        data = os.read(self._source, CHUNK)
        self._is_ended = not data
        self._frames.feed(data)
        try:
            while (body := self._frames.body()) is not None:
                self._arrive(body)
        except NoFrame as error:
            # What came before it is answered first.
            self._broken = error
        return True

    def _is_there(self, seconds: float | None) -> bool:
        """Whether something comes within so many seconds."""
        return bool(select.select([self._source], [], [], seconds)[0])

    def _arrive(self, body: bytes) -> None:
        """Puts a message behind those that wait. A request that is cancelled while it waits is marked."""
        try:
            message = read_message(body)
        except NoMessage as failed:
            self._send(id=failed.identity, error={"code": failed.code, "message": str(failed)})
            return
        match message:
            case Notice("$/cancelRequest", {"id": number}, ""):
                if any(isinstance(waiting, Request) and waiting.identity == number for waiting in self._queue):
                    self._cancelled.add(number)
            case Request() | Notice():
                self._queue.append(message)
            case Reply():
                self._hear(message)

    def _hear(self, reply: Reply) -> None:
        """Takes an answer of the client. Nothing hangs on one here."""

    def _send(self, **message: Any) -> None:
        """Sends a message, whole, from any thread."""
        self._put(framed(message))

    def _put(self, frame: bytes) -> None:
        """Writes a frame, whole, from any thread."""
        with self._lock:
            self._write(frame)

    def _tell(self, method: str, **params: Any) -> None:
        """Tells the client something."""
        self._send(method=method, params=params)

    def _ask(self, method: str, **params: Any) -> Identity:
        """Asks the client something, whose answer isn't waited for. The number of the request."""
        self._asked += 1
        identity = f"paris-{self._asked}"
        self._send(id=identity, method=method, params=params)
        return identity

    def _take(self, message: Request | Notice) -> None:
        """Answers a request, or does what is told."""
        if isinstance(message, Notice):
            self._note(message)
        else:
            self._put(self._answered(message))

    def _answered(self, request: Request) -> bytes:
        """The answer to a request, in its frame. One request may fail, and the server goes on."""
        try:
            return framed({"id": request.identity, "result": self._result(request)})
        except Failed as failed:
            code, words = failed.code, str(failed)
        except Exception as error:
            code, words = INTERNAL_ERROR, f"{request.method}: {type(error).__name__}: {error}"
        return framed({"id": request.identity, "error": {"code": code, "message": words}})

    def _result(self, request: Request) -> Any:
        """The result of a request. Raises Failed where it has none."""
        if request.identity in self._cancelled:
            self._cancelled.discard(request.identity)
            raise Failed(CANCELLED, "the request was cancelled")
        is_first = request.method == "initialize"
        if not self._is_begun and not is_first:
            raise Failed(NOT_INITIALIZED, "the first request is `initialize`")
        if self._is_shut or (self._is_begun and is_first):
            raise Failed(INVALID_REQUEST, "the server is shut down" if self._is_shut else "it is initialized already")
        known = METHODS.get(request.method)
        if known is None or known.role is not Role.REQUEST:
            raise Failed(METHOD_NOT_FOUND, f"there is no method {request.method} that is answered")
        if request.wrong:
            raise Failed(INVALID_PARAMS, f"{request.method}: {request.wrong}")
        if known.answer is not None:
            return self._of_file(known.answer, request.params)
        if is_first:
            return self._initialize(request.params or {})
        self._is_shut = True
        return None

    def _of_file(self, answer: Answer, params: Any) -> Any:
        """The result of a request about a file. Where the program has ended since, it is begun anew, once."""
        file = self._file(params)
        self._renew(file)
        try:
            return answer(file, params, self._client)
        except PipeError:
            file.is_old = True
            self._renew(file)
            try:
                return answer(file, params, self._client)
            except PipeError as error:
                raise Failed(REQUEST_FAILED, str(error)) from error

    def _initialize(self, params: dict[str, Any]) -> dict[str, Any]:
        """What this server can do."""
        self._client = client_of(params.get("capabilities"))
        self._is_begun = True
        return {"serverInfo": {"name": "paris", "version": release()}, "capabilities": CAPABILITIES}

    # Files.

    def _note(self, notice: Notice) -> None:
        """Does what the client tells. What isn't of the protocol is said to it, and changes nothing."""
        if notice.method == "exit":
            self.status = 0 if self._is_shut else 1
        if self._is_shut or not self._is_begun:
            return
        try:
            if notice.wrong:
                self._lose(notice)
                raise Failed(INVALID_PARAMS, notice.wrong)
            self._do(notice.method, notice.params)
        except Failed as failed:
            self._tell("window/logMessage", type=ERROR, message=f"{notice.method}: {failed}")
        except Exception as error:
            self._tell("window/logMessage", type=ERROR, message=f"{notice.method}: {type(error).__name__}: {error}")

    def _lose(self, notice: Notice) -> None:
        """Notes that the text of a file is another in the editor, where a change of it isn't of the protocol."""
        uri = found_in(notice.params, "textDocument", "uri")
        if notice.method == "textDocument/didChange" and isinstance(uri, str) and uri in self.files:
            self.files[uri].is_lost = True

    def _do(self, method: str, params: Any) -> None:
        """Does what a notice in its shape tells. Of methods that aren't known nothing is done. Raises Failed."""
        match method:
            case "textDocument/didOpen":
                self._open(params["textDocument"])
            case "textDocument/didChange":
                self._file(params).change(params["contentChanges"], params["textDocument"].get("version") or 0)
            case "textDocument/didSave":
                self._file(params).save()
            case "textDocument/didClose":
                self._close(self._file(params))

    def _file(self, params: Any) -> Opened:
        """The open file that a message is about. Raises Failed where it isn't open."""
        uri = params["textDocument"]["uri"]
        if uri not in self.files:
            raise Failed(INVALID_PARAMS, f"{uri} isn't open")
        return self.files[uri]

    def _open(self, item: dict[str, Any]) -> None:
        """Opens a file."""
        if item["uri"] in self.files:
            self.files[item["uri"]].document.close()
        told = Later(Told(item["uri"], self._send).tell, LATE) if self._client.shows_progress else PROGRESS
        self.files[item["uri"]] = self._opened(item, told)

    def _opened(self, item: dict[str, Any], told: Progress) -> Opened:
        """A file that is opened."""
        return Opened(item["uri"], item["text"], item.get("version", 0), self._begin, told)

    def _close(self, file: Opened) -> None:
        """Closes a file, of which nothing is wrong then."""
        del self.files[file.uri]
        file.document.close()
        self._tell("textDocument/publishDiagnostics", uri=file.uri, diagnostics=[])

    def _has_old(self) -> bool:
        """Whether something was typed that no document has yet."""
        return any(file.is_old for file in self.files.values())

    def _renew_quietly(self, file: Opened) -> None:
        """Brings a file in step. That there is no book is among what is told of it."""
        try:
            self._renew(file)
        except Failed:
            pass

    def _renew(self, file: Opened) -> None:
        """Brings a file in step where it was changed, and tells what is wrong. Raises Failed where it has no book."""
        if file.is_old:
            try:
                file.renew()
                file.trouble = ""
                found = self._found(file)
            except Exception as error:
                file.trouble = str(error) if isinstance(error, SAID) else f"{type(error).__name__}: {error}"
                found = [told_of(file, 0, ERROR, f"no values: {file.trouble}")]
            self._publish(file, found)
            if not file.trouble:
                self._tell_values(file)
        if file.trouble:
            raise Failed(REQUEST_FAILED, file.trouble)

    def _found(self, file: Opened) -> list[dict[str, Any]]:
        """What is wrong in a file that is in step."""
        return diagnostics(file, self._client.draws_pale)

    def _publish(self, file: Opened, found: list[dict[str, Any]]) -> None:
        """Tells what is wrong, where that is other than it was."""
        if found != file.told:
            file.told = found
            self._tell("textDocument/publishDiagnostics", uri=file.uri, version=file.version, diagnostics=found)

    def _tell_values(self, file: Opened) -> None:
        """Tells that values may be others, and what the last update did."""
        done = file.done
        self._tell_ran(file, headline(file.document, done), bool(done.sent))

    def _tell_ran(self, file: Opened, words: str, is_new: bool) -> None:
        """Tells what the last update did, in words; where values are new, that they are asked for again."""
        self._tell("$/paris/ran", uri=file.uri, text=words, ran=file.done.count, rows=file.done.rows)
        if self._client.refreshes_hints and is_new:
            self._ask("workspace/inlayHint/refresh")
