"""The connections of a server: how many there are, and how long one may take to say what it wants."""

from __future__ import annotations

import asyncio
from collections.abc import Callable
from typing import Any

MOST_CONNECTIONS = 256
"""So many connections are held at most."""

HEAD_SECONDS = 5.0
"""So long a request's head may take."""

MOST_HEAD = 16_384
"""So many bytes a request's head has at most."""

END = b"\r\n\r\n"


class Gate:
    """Makes the protocols of connections. `make` gives one that answers."""

    def __init__(self, make: Callable[[], Any], most: int = MOST_CONNECTIONS, seconds: float = HEAD_SECONDS) -> None:
        self.make, self.most, self.seconds = make, most, seconds
        self.count = 0

    def __call__(self) -> Watched:
        return Watched(self)


def refusal(status: str, said: str) -> bytes:
    """An answer that is given before a request is read."""
    body = f"{said}\n".encode("ascii")
    head = f"HTTP/1.1 {status}\r\nContent-Type: text/plain\r\nContent-Length: {len(body)}\r\nConnection: close\r\n\r\n"
    return head.encode("ascii") + body


class Watched(asyncio.Protocol):
    """A connection that is handed on once its request's head is there, and ended where that isn't there in time."""

    def __init__(self, gate: Gate) -> None:
        self._gate = gate
        self._inner: Any = None
        self._transport: Any = None
        self._timer: asyncio.TimerHandle | None = None
        self._head = b""

    def connection_made(self, transport: asyncio.BaseTransport) -> None:
        self._transport = transport
        self._gate.count += 1
        if self._gate.count > self._gate.most:
            self._refuse("503 Service Unavailable", "there are too many connections: try it again in a while")
        else:
            self._timer = asyncio.get_running_loop().call_later(self._gate.seconds, self._is_late)

    def data_received(self, data: bytes) -> None:
        if self._inner is not None:
            self._inner.data_received(data)
            return
        self._head += data
        if END in self._head:
            self._hand_on()
        elif len(self._head) > MOST_HEAD:
            self._refuse("431 Request Header Fields Too Large", "a request has a shorter head")

    def _hand_on(self) -> None:
        """Hands the connection on, with what was read of it."""
        if self._transport.is_closing():
            return
        self._stop()
        self._inner = self._gate.make()
        self._inner.connection_made(self._transport)
        self._inner.data_received(self._head)
        self._head = b""

    def eof_received(self) -> bool | None:
        return self._inner.eof_received() if self._inner is not None else None

    def connection_lost(self, error: Exception | None) -> None:
        self._gate.count -= 1
        self._stop()
        if self._inner is not None:
            self._inner.connection_lost(error)

    def pause_writing(self) -> None:
        if self._inner is not None:
            self._inner.pause_writing()

    def resume_writing(self) -> None:
        if self._inner is not None:
            self._inner.resume_writing()

    def _is_late(self) -> None:
        """The request's head isn't there in time."""
        self._refuse("408 Request Timeout", "the request was not there in time")

    def _refuse(self, status: str, said: str) -> None:
        """Answers, and ends the connection."""
        self._stop()
        self._transport.write(refusal(status, said))
        self._transport.close()

    def _stop(self) -> None:
        """Waits for nothing more."""
        if self._timer is not None:
            self._timer.cancel()
            self._timer = None
