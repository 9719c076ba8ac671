"""Connections to a live page: how many are answered at once, and how long a request may take to come."""

from __future__ import annotations

import io
import socket
import threading
import time
from http.server import ThreadingHTTPServer
from typing import Any

MOST_CONNECTIONS = 96
"""So many connections are answered at once. Others wait in the queue of those that come."""

QUEUE = 512
IDLE_SECONDS = 10.0
"""A connection on which no request begins is closed."""

REQUEST_SECONDS = 5.0
"""A request that has begun has to be there as a whole."""

ANSWER_SECONDS = 30.0
"""A part of an answer has to be taken."""

PLACE_SECONDS = 3 * (IDLE_SECONDS + REQUEST_SECONDS)
"""So long a connection waits for its place, longer than one takes that asks nothing."""


class TimelyReader(io.RawIOBase):
    """What a connection brings. Raises TimeoutError where a request doesn't begin, or isn't whole, in its time."""

    def __init__(self, connection: socket.socket) -> None:
        self._connection = connection
        self.idle = IDLE_SECONDS
        self._until: float | None = None

    def readable(self) -> bool:
        """It can be read."""
        return True

    def wait_for_request(self) -> None:
        """The next request may take its time to begin."""
        self._until = None

    def readinto(self, room: Any) -> int:
        """Reads what is there, or waits for it."""
        left = self.idle if self._until is None else self._until - time.monotonic()
        if left <= 0:
            raise TimeoutError("the request didn't come in time")
        self._connection.settimeout(left)
        count = self._connection.recv_into(room)
        if self._until is None:
            self._until = time.monotonic() + REQUEST_SECONDS
        return count


class LimitedServer(ThreadingHTTPServer):
    """A server with a thread for each connection, and so many connections at once."""

    daemon_threads = True
    block_on_close = False
    allow_reuse_address = False
    request_queue_size = QUEUE

    def __init__(self, *words: Any) -> None:
        self._places = threading.BoundedSemaphore(MOST_CONNECTIONS)
        self._placed = set[Any]()
        super().__init__(*words)

    def process_request(self, request: Any, client_address: Any) -> None:
        """Answers a connection in a thread, once there is a place for it."""
        if not self._places.acquire(timeout=PLACE_SECONDS):
            self.shutdown_request(request)
            return
        self._placed.add(request)
        try:
            super().process_request(request, client_address)
        except BaseException:
            self._give_back(request)
            raise

    def process_request_thread(self, request: Any, client_address: Any) -> None:
        """Answers a connection, and gives its place back."""
        try:
            super().process_request_thread(request, client_address)
        finally:
            self._give_back(request)

    def _give_back(self, request: Any) -> None:
        """Gives a connection's place back, once: a thread whose start is interrupted may be at work all the same."""
        try:
            self._placed.remove(request)
        except KeyError:
            return
        self._places.release()
