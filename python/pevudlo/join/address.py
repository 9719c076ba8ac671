"""The address of a served program, and the token of a seat there."""

from __future__ import annotations

import os
from collections.abc import Mapping
from dataclasses import dataclass, field
from getpass import getuser
from urllib.parse import urlsplit

SEAT_VARIABLE = "PARIS_SEAT"
"""The variable that has a seat's token, where the address has none."""

JOINS = "join:"
"""What a token begins with by which people come in under a name."""

SCHEMES = {"http": "http", "https": "https", "ws": "http", "wss": "https"}


class NoAddress(ValueError):
    """What was said is no address of a seat."""


@dataclass(frozen=True)
class Address:
    """Where a program is served, a seat's token there, and the name for who has none yet."""

    base: str
    token: str = field(repr=False)
    name: str

    @property
    def first(self) -> dict[str, str]:
        """The first message at a socket."""
        if self.token.startswith(JOINS):
            return {"do": "join", "token": self.token.removeprefix(JOINS), "name": self.name}
        return {"do": "sit", "token": self.token}


def read_address(word: str, name: str | None, variables: Mapping[str, str] = os.environ) -> Address:
    """The address that was said. Raises NoAddress."""
    try:
        parts = urlsplit(word)
        host = parts.netloc if parts.port is None or parts.port else ""
    except ValueError as error:
        raise NoAddress(f"`{word.partition('#')[0]}` is no address") from error
    if parts.scheme not in SCHEMES or not host or "@" in host or parts.path not in ("", "/") or parts.query:
        raise NoAddress("--join wants an address such as http://127.0.0.1:8600, or https://paris.school.example")
    token = parts.fragment or variables.get(SEAT_VARIABLE, "")
    if not token:
        raise NoAddress(f"--join wants a seat: its token stands behind the # of an address, or in {SEAT_VARIABLE}")
    return Address(f"{SCHEMES[parts.scheme]}://{host}", token, name or usual_name())


def usual_name() -> str:
    """The name of who is logged in."""
    try:
        return getuser()
    except (KeyError, OSError):
        return "Editor"
