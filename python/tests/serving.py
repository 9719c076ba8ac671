"""A server of seats that tests start, and clients of it that do what pages do."""

from __future__ import annotations

import asyncio
import json
import os
import re
import signal
import subprocess
import sys
from collections.abc import Callable, Iterator
from contextlib import contextmanager
from dataclasses import dataclass, field
from pathlib import Path
from typing import Any

import aiohttp

from pevudlo.wire.program import ROOT

PATIENCE = 20.0
Told = dict[str, Any]


@dataclass
class Server:
    """A running server: its process, and the addresses that it wrote."""

    process: subprocess.Popen[str]
    base: str
    words: str

    def token(self, who: str) -> str:
        """The token of a line that it wrote, by its first words."""
        found = re.search(rf"^{who} .*/#(\S+)", self.words, re.M)
        assert found is not None, self.words
        return found[1]

    @property
    def teacher(self) -> str:
        """The teacher's token."""
        return self.token("Who teaches")

    @property
    def memory(self) -> float:
        """The memory that it has, in MB."""
        status = Path(f"/proc/{self.process.pid}/status").read_text()
        found = re.search(r"^VmRSS:\s+(\d+) kB", status, re.M)
        assert found is not None
        return int(found[1]) / 1000


@contextmanager
def served(*words: str | Path, cwd: Path) -> Iterator[Server]:
    """A server that is started with these words, in a folder."""
    environment = {**os.environ, "PYTHONPATH": str(ROOT / "python")}
    line = [sys.executable, "-P", "-m", "pevudlo", "serve", *map(str, words)]
    with subprocess.Popen(line, stdout=subprocess.PIPE, text=True, cwd=cwd, env=environment) as process:
        try:
            assert process.stdout is not None
            told = ""
            while "Ctrl-C ends it" not in told and (line_ := process.stdout.readline()):
                told += line_
            found = re.search(r"(https?://[^/\s]+)/#", told)
            assert found is not None, told
            yield Server(process, found[1], told)
        finally:
            process.send_signal(signal.SIGINT)
            process.wait(PATIENCE)


@dataclass
class Client:
    """A page of a seat: what it was told, as a page holds it. `low` notes the least number that a state was behind."""

    socket: aiohttp.ClientWebSocketResponse
    hello: Told = field(default_factory=dict)
    lines: list[list[Any]] = field(default_factory=list)
    name: str = ""
    number: int = 0
    states: Told = field(default_factory=dict)
    bye: str = ""
    order: list[int] = field(default_factory=list)
    texts: int = 0
    is_reading: bool = True
    _marks: int = 0
    _asked: dict[int, asyncio.Future[Told]] = field(default_factory=dict)
    _news: asyncio.Event = field(default_factory=asyncio.Event)
    _reader: asyncio.Task[None] | None = None

    def start(self) -> None:
        """Reads what comes from now on."""
        self._reader = asyncio.create_task(self._read())

    async def close(self) -> None:
        """Goes."""
        await self.socket.close()
        if self._reader is not None:
            await self._reader

    async def _read(self) -> None:
        """Takes in what comes, until the end."""
        async for message in self.socket:
            self.take(json.loads(message.data))
            self._news.set()
        self.bye = self.bye or f"the socket was ended, {self.socket.close_code}"
        for future in self._asked.values():
            if not future.done():
                future.set_result({"refused": self.bye})
        self._news.set()

    def take(self, told: Told) -> None:
        """Takes in a message."""
        self.bye = told.get("bye", self.bye)
        for answer in told.get("answers", ()):
            self._answered(answer)
        if "text" in told:
            self.texts += 1
            self.name, self.number = told["text"]["name"], told["text"]["n"]
            self.lines = [list(line) for line in told["text"]["lines"]]
        for op in told.get("ops", ()):
            self.do(op)
        if told.get("lost"):
            asyncio.create_task(self.ask("text"))
        self.states |= told.get("states", {})
        if "rows" in told.get("states", {}):
            self.order.append(told["states"]["rows"]["at"])

    def _answered(self, answer: Told) -> None:
        """Takes in an answer."""
        if "hello" in answer:
            self.hello = answer["hello"]
        elif (future := self._asked.pop(answer["mark"], None)) is not None:
            future.set_result(answer)

    def do(self, op: Told) -> None:
        """Does to its text what was done."""
        self.number = op["n"]
        at = self.place(op["id"])
        if op["op"] == "insert":
            after = self.place(op["after"]) if op["after"] else -1
            assert after is not None, op
            self.lines.insert(after + 1, [op["id"], op["text"], op["by"]])
        elif at is not None and op["op"] == "replace":
            self.lines[at] = [op["id"], op["text"], op["by"]]
        elif at is not None:
            del self.lines[at]

    def place(self, number: int) -> int | None:
        """Where a line stands."""
        return next((at for at, line in enumerate(self.lines) if line[0] == number), None)

    @property
    def text(self) -> list[str]:
        """The texts of the lines."""
        return [line[1] for line in self.lines]

    async def ask(self, word: str, **more: Any) -> Told:
        """Asks for something to be done, and waits for the answer."""
        self._marks += 1
        future = self._asked[self._marks] = asyncio.get_running_loop().create_future()
        await self.socket.send_json({"do": word, "mark": self._marks, **more})
        return await asyncio.wait_for(future, PATIENCE)

    async def replace(self, at: int, text: str) -> Told:
        """Gives the line of an index another text."""
        number, was, _ = self.lines[at]
        return await self.ask("edit", changes=[{"op": "replace", "id": number, "was": was, "text": text}])

    async def insert(self, at: int, *texts: str) -> Told:
        """Puts lines in before the line of an index."""
        before = self.lines[at - 1][0] if at else 0
        ids = [before, *[-1] * (len(texts) - 1)]
        changes = [{"op": "insert", "id": number, "text": text} for number, text in zip(ids, texts)]
        return await self.ask("edit", changes=changes)

    async def look(self) -> None:
        """Looks at its first lines."""
        await self.socket.send_json({"do": "look", "ids": [line[0] for line in self.lines[:64]]})

    def gives(self, at: int) -> Told:
        """What the line of an index gives, as far as it was told."""
        found: Told = self.states.get(f"v{self.lines[at][0]}", {})
        return found

    def sees(self, at: int) -> list[str]:
        """The numbers beside the line of an index."""
        return [value[3] for value in self.gives(at).get("v", ())]

    async def until(self, holds: Callable[[], bool], what: str = "") -> None:
        """Waits until something holds of what it was told."""
        end = asyncio.get_running_loop().time() + PATIENCE
        while not holds():
            self._news.clear()
            left = end - asyncio.get_running_loop().time()
            assert left > 0, (what, self.states, self.text, self.bye)
            try:
                await asyncio.wait_for(self._news.wait(), min(left, 1.0))
            except asyncio.TimeoutError:
                pass


@dataclass
class People:
    """A session in which clients come to a server."""

    server: Server
    session: aiohttp.ClientSession
    clients: list[Client] = field(default_factory=list)

    async def open(self, first: Told, origin: str | None = None) -> Client:
        """A client with this first message."""
        base = self.server.base
        headers = {"Origin": base if origin is None else origin}
        socket = await self.session.ws_connect(f"{base}/seat", headers=headers, max_msg_size=1 << 26)
        await socket.send_json(first)
        client = Client(socket)
        client.start()
        self.clients.append(client)
        await client.until(lambda: bool(client.bye) or bool(client.texts))
        return client

    async def sit(self, token: str) -> Client:
        """A client at the seat of a token."""
        return await self.open({"do": "sit", "token": token})

    async def join(self, name: str) -> Client:
        """A client that joins by a name."""
        token = self.server.token("(?:The class|All others)").removeprefix("join:")
        return await self.open({"do": "join", "token": token, "name": name})


async def with_people(server: Server, play: Callable[[People], Any]) -> None:
    """Plays something by people at a server, and ends their connections."""
    async with aiohttp.ClientSession() as session:
        people = People(server, session)
        try:
            await play(people)
        finally:
            for client in people.clients:
                await client.close()
