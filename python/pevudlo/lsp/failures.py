"""Why a request has no result."""

from __future__ import annotations

PARSE_ERROR = -32700
INVALID_REQUEST = -32600
METHOD_NOT_FOUND = -32601
INVALID_PARAMS = -32602
INTERNAL_ERROR = -32603
NOT_INITIALIZED = -32002
CANCELLED = -32800
REQUEST_FAILED = -32803


class Failed(Exception):
    """A request has no result: a number of the protocol, and words."""

    def __init__(self, code: int, words: str) -> None:
        super().__init__(words)
        self.code = code
