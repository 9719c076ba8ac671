"""Messages of a tab by one WebSocket, as RFC 6455 has it: texts that come, texts and bytes that go, no extensions."""

from __future__ import annotations

import base64
import hashlib
import socket
import struct
import threading
from binascii import Error
from email.message import Message
from typing import BinaryIO

from pevudlo.live.connections import ANSWER_SECONDS, TimelyReader

TEXT, BINARY, CLOSE, PING, PONG = 1, 2, 8, 9, 10
LAST, MASKED, LENGTH, KIND = 0x80, 0x80, 0x7F, 0x0F
SHORT = 125
WRONG, TOO_BIG = 1002, 1009
NAME = b"258EAFA5-E914-47DA-95CA-C5AB0DC85B11"
VERSION = "13"

END_SECONDS, MOST_PARTS, PART = 1.0, 16, 65_536
"""So long, and so often, something is taken behind the end, and so many bytes of it."""


class Wrong(Exception):
    """What came is no message, or is too long. `code` says which."""

    def __init__(self, code: int) -> None:
        super().__init__(code)
        self.code = code


def key_of(headers: Message) -> str:
    """What answers a request for a socket. Raises ValueError where the headers are none."""
    ways = [word.strip().lower() for word in headers.get("Connection", "").split(",")]
    if headers.get("Upgrade", "").lower() != "websocket" or "upgrade" not in ways:
        raise ValueError("a socket is wanted")
    key = headers.get("Sec-WebSocket-Key", "")
    try:
        is_key = len(base64.b64decode(key, validate=True)) == 16
    except (Error, ValueError):
        is_key = False
    if headers.get("Sec-WebSocket-Version") != VERSION or not is_key:
        raise ValueError("another version of sockets is wanted")
    return base64.b64encode(hashlib.sha1(key.encode("ascii") + NAME, usedforsecurity=False).digest()).decode("ascii")


class Socket:
    """A socket behind its beginning. Texts are read by one thread, and have at most so many bytes; any thread sends."""

    def __init__(self, connection: socket.socket, reader: TimelyReader, file: BinaryIO, most: int) -> None:
        self._connection, self._reader, self._file, self._most = connection, reader, file, most
        self._lock = threading.Lock()
        self.is_over = False

    def read(self) -> bytes | None:
        """The next text in UTF-8, or None at the end. Raises Wrong, and OSError where it doesn't come in its time."""
        text, has_begun = bytearray(), False
        while True:
            self._reader.wait_for_request()
            kind, is_last, data = self._frame(self._most - len(text))
            if kind == CLOSE:
                return None
            if kind == PING:
                self.send(PONG, data)
            elif kind in (0, TEXT):
                if (kind == TEXT) == has_begun:
                    raise Wrong(WRONG)
                has_begun = True
                text += data
                if is_last:
                    return bytes(text)
            elif kind != PONG:
                raise Wrong(WRONG)

    def _frame(self, most: int) -> tuple[int, bool, bytes]:
        """A frame: its kind, whether it is the last of its message, and what it brings. One at the end is a close."""
        head = self._file.read(2)
        if len(head) < 2:
            return CLOSE, True, b""
        kind, is_last, length = head[0] & KIND, bool(head[0] & LAST), head[1] & LENGTH
        is_long = length > SHORT
        if head[0] & ~(LAST | KIND) or not head[1] & MASKED or (kind >= CLOSE and (is_long or not is_last)):
            raise Wrong(WRONG)
        if is_long:
            (length,) = struct.unpack(
                ">H" if length == SHORT + 1 else ">Q", self._whole(2 if length == SHORT + 1 else 8)
            )
        if kind < CLOSE and length > most:
            raise Wrong(TOO_BIG)
        mask, data = self._whole(4), self._whole(length)
        masks = (mask * (length // 4 + 1))[:length]
        return kind, is_last, (int.from_bytes(data) ^ int.from_bytes(masks)).to_bytes(length)

    def _whole(self, count: int) -> bytes:
        """So many bytes. Raises EOFError where they don't come."""
        data = self._file.read(count)
        if len(data) < count:
            raise EOFError
        return data

    def send(self, kind: int, data: bytes) -> None:
        """Sends a message. Raises OSError where nobody takes it in time."""
        count = len(data)
        size = bytes([count]) if count <= SHORT else struct.pack(">BH", SHORT + 1, count & 0xFFFF)
        if count > 0xFFFF:
            size = struct.pack(">BQ", SHORT + 2, count)
        with self._lock:
            self._connection.settimeout(ANSWER_SECONDS)
            self._connection.sendall(bytes([LAST | kind]) + size + data)

    def end(self, code: int) -> None:
        """Says that it is over, to who still reads. A little of what still comes is taken, so that this arrives."""
        self.is_over = True
        try:
            self.send(CLOSE, struct.pack(">H", code))
            self._connection.shutdown(socket.SHUT_WR)
            self._connection.settimeout(END_SECONDS)
            for _ in range(MOST_PARTS):
                if not self._connection.recv(PART):
                    break
        except OSError:
            pass
