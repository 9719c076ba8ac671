"""What a client shows of an update that takes its time."""

from __future__ import annotations

from itertools import count
from typing import Any, Callable

NUMBERS = count(1)


class Told:
    """Tells a client what is being done for a file, from the first words to the empty ones."""

    def __init__(self, uri: str, send: Callable[..., None]) -> None:
        self._name, self._send = uri.rsplit("/", 1)[-1], send
        self._token = ""

    def tell(self, words: str) -> None:
        """Tells what is being done, `""` where nothing is any more."""
        if not self._token:
            self._token = f"paris-progress-{next(NUMBERS)}"
            self._send(id=self._token, method="window/workDoneProgress/create", params={"token": self._token})
            self._say(kind="begin", title=self._name, message=words)
        elif words:
            self._say(kind="report", message=words)
        else:
            self._say(kind="end")
            self._token = ""

    def _say(self, **value: Any) -> None:
        """A sign of the protocol."""
        self._send(method="$/progress", params={"token": self._token, "value": value})
