"""Messages as they come in: their shapes are seen here, before anything is done for them."""

from __future__ import annotations

import json
from dataclasses import dataclass
from math import isfinite
from typing import Any, Union

from pevudlo.lsp.failures import INVALID_REQUEST, PARSE_ERROR, Failed
from pevudlo.lsp.methods import IDENTITY, METHODS
from pevudlo.lsp.shapes import misfit

Identity = Union[int, str]


@dataclass(frozen=True)
class Request:
    """A request. `wrong` says which of its parameters isn't what its method wants, where one isn't."""

    identity: Identity
    method: str
    params: Any
    wrong: str


@dataclass(frozen=True)
class Notice:
    """What is told, and has no answer."""

    method: str
    params: Any
    wrong: str


@dataclass(frozen=True)
class Reply:
    """The client's answer to a request of the server. `result` is None where it failed."""

    identity: Identity | None
    result: Any


Incoming = Union[Request, Notice, Reply]


class NoMessage(Failed):
    """A body is no message. `identity` is that of the request that it would be, where that is known."""

    def __init__(self, code: int, words: str, identity: Identity | None = None) -> None:
        super().__init__(code, words)
        self.identity = identity


def read_message(body: bytes) -> Incoming:
    """The message in a body. Raises NoMessage."""
    try:
        message = json.loads(body, parse_constant=refuse, parse_float=finite)
    except (ValueError, RecursionError) as error:
        raise NoMessage(PARSE_ERROR, "a body is no JSON") from error
    if not isinstance(message, dict):
        raise NoMessage(INVALID_REQUEST, "a message is an object")
    is_told, wrong_identity = "id" not in message, misfit(message.get("id"), IDENTITY, "id")
    identity = None if is_told or wrong_identity else message["id"]
    if "method" not in message and ("result" in message or "error" in message):
        return Reply(identity, message.get("result"))
    if not isinstance(message.get("method"), str):
        known = identity if "method" in message else None
        raise NoMessage(INVALID_REQUEST, "a message has a method, or is an answer", known)
    method, params = message["method"], message.get("params")
    wrong = wrong_params(method, {} if params is None else params)
    if is_told:
        return Notice(method, params, wrong)
    if identity is None:
        raise NoMessage(INVALID_REQUEST, wrong_identity)
    return Request(identity, method, params, wrong)


def wrong_params(method: str, params: Any) -> str:
    """Which of the parameters isn't what a method wants, and why; nothing where all are, or the method isn't known."""
    return misfit(params, METHODS[method].params, "params") if method in METHODS else ""


def refuse(word: str) -> Any:
    """A word that isn't in JSON, though Python reads it."""
    raise ValueError(word)


def finite(word: str) -> float:
    """A number with a fraction or an exponent. Raises ValueError where it is too great."""
    if not isfinite(float(word)):
        raise ValueError(word)
    return float(word)
