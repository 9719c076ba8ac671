"""Messages in frames: a head that says how long the body is, and a body of JSON."""

from __future__ import annotations

import json
import re
from typing import Any

Message = dict[str, Any]

MOST_HEAD = 4_096
MOST_BODY = 1 << 28
"""A longer body isn't taken in."""

LENGTH = re.compile(rb"(?im)^content-length:[ \t]*([0-9]{1,12})[ \t]*\r?$")
END = b"\r\n\r\n"


class NoFrame(Exception):
    """What came is no frame: where the next one begins isn't known."""


class Frames:
    """Cuts bytes, as they come, into bodies."""

    def __init__(self) -> None:
        self._rest = bytearray()

    def feed(self, data: bytes) -> None:
        """Takes in what came."""
        self._rest += data

    def body(self) -> bytes | None:
        """The next body, or None until it is whole. Raises NoFrame."""
        end = self._rest.find(END, 0, MOST_HEAD)
        if end < 0:
            if len(self._rest) >= MOST_HEAD:
                raise NoFrame("a head has no end")
            return None
        found = LENGTH.search(self._rest[:end])
        if found is None or int(found[1]) > MOST_BODY:
            raise NoFrame("a head has no length, or one that is too great")
        start = end + len(END)
        stop = start + int(found[1])
        if len(self._rest) < stop:
            return None
        body = bytes(self._rest[start:stop])
        del self._rest[:stop]
        return body


def framed(message: Message) -> bytes:
    """A message in its frame."""
    body = json.dumps({"jsonrpc": "2.0", **message}, ensure_ascii=False).encode("utf-8", "backslashreplace")
    return b"Content-Length: %d\r\n\r\n%s" % (len(body), body)
