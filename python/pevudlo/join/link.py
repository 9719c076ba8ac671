"""A connection to a server of seats, in a thread of its own, which begins again where it ends."""

from __future__ import annotations

import asyncio
import json
import os
import queue
import threading
from contextlib import suppress
from typing import Any

import aiohttp

from pevudlo.join.address import Address

HEARTBEAT = 20.0
CONNECT_SECONDS = 10.0
FIRST_WAIT, MOST_WAIT = 0.5, 30.0
"""Seconds behind which it is tried again: twice as many each time."""

PIPE = 1 << 16
"""So many bytes wait in a pipe at most."""

MOST_MESSAGE = 1 << 26
"""A longer message isn't taken in."""

Told = dict[str, Any]
GONE = "gone"
"""What is told under this name is why the server is gone."""


class Link:
    """A connection at the seat of an address. `wake` is a descriptor with something to read once there is news.

    Connections are numbered from 1 on, and each message that comes has the number of its own as `turn`.
    """

    def __init__(self, address: Address) -> None:
        self._first, self._base = dict(address.first), address.base
        self._news = queue.SimpleQueue[Told]()
        self.wake, self._wakes = os.pipe()
        os.set_blocking(self.wake, False)
        os.set_blocking(self._wakes, False)
        self._loop = asyncio.new_event_loop()
        self._over, self._is_open, self._turn = asyncio.Event(), False, 0
        self._socket: aiohttp.ClientWebSocketResponse | None = None
        self._thread = threading.Thread(target=self._run, daemon=True)
        self._thread.start()

    # For the thread that asks.

    def ask(self, turn: int, **message: Any) -> None:
        """Sends a message over the connection of a number, where that hasn't ended."""
        text = json.dumps(message, separators=(",", ":"))
        self._loop.call_soon_threadsafe(lambda: self._loop.create_task(self._send(turn, text)))

    def news(self) -> list[Told]:
        """What came since it was asked last, in its order."""
        with suppress(BlockingIOError):
            os.read(self.wake, PIPE)
        found: list[Told] = []
        with suppress(queue.Empty):
            while True:
                found.append(self._news.get_nowait())
        return found

    def close(self) -> None:
        """Ends the connection, and waits until the server was told so."""
        self._loop.call_soon_threadsafe(self._over.set)
        self._thread.join(CONNECT_SECONDS)
        os.close(self.wake)
        os.close(self._wakes)

    # Within the thread.

    def _run(self) -> None:
        """Is connected, again and again, until it is closed."""
        self._loop.run_until_complete(self._until_over())
        self._loop.close()

    async def _until_over(self) -> None:
        """Is connected until it is closed."""
        work = asyncio.ensure_future(self._stay())
        await self._over.wait()
        work.cancel()
        with suppress(asyncio.CancelledError):
            await work

    async def _stay(self) -> None:
        """Is connected, and tries it again where the connection ends."""
        wait = FIRST_WAIT
        while True:
            self._is_open = False
            why = await self._tried()
            wait = FIRST_WAIT if self._is_open else min(2 * wait, MOST_WAIT)
            self._tell({GONE: why})
            await asyncio.sleep(wait)

    async def _tried(self) -> str:
        """Is connected once, and gives why that ended."""
        headers = {"Origin": self._base}
        timeout = aiohttp.ClientTimeout(total=None, sock_connect=CONNECT_SECONDS)
        try:
            async with aiohttp.ClientSession(timeout=timeout) as session:
                async with session.ws_connect(
                    f"{self._base}/seat", headers=headers, heartbeat=HEARTBEAT, max_msg_size=MOST_MESSAGE
                ) as socket:
                    return await self._listen(socket)
        except (aiohttp.ClientError, asyncio.TimeoutError, OSError) as error:
            return f"{self._base} isn't reached: {error or type(error).__name__}"

    async def _listen(self, socket: aiohttp.ClientWebSocketResponse) -> str:
        """Says which seat it is for, and takes in what comes. Why it ended."""
        await socket.send_json(self._first)
        self._socket, self._turn, said = socket, self._turn + 1, "the connection has ended"
        try:
            async for message in socket:
                if message.type is not aiohttp.WSMsgType.TEXT:
                    break
                told: Told = json.loads(message.data)
                said = str(told.get("bye", said))
                self._take(told)
        finally:
            self._socket = None
        return said

    def _take(self, told: Told) -> None:
        """Takes in a message. Who came in under a name comes back by the seat's own token."""
        self._is_open = self._is_open or "text" in told
        for answer in told.get("answers", ()):
            token = answer.get("hello", {}).get("token")
            if token:
                self._first = {"do": "sit", "token": token}
        self._tell({**told, "turn": self._turn})

    async def _send(self, turn: int, text: str) -> None:
        """Sends a message. Where the connection of this number has ended, it is lost."""
        if self._socket is not None and turn == self._turn:
            with suppress(ConnectionError):
                await self._socket.send_str(text)

    def _tell(self, told: Told) -> None:
        """Puts news behind the others."""
        self._news.put(told)
        with suppress(BlockingIOError):
            os.write(self._wakes, b".")
