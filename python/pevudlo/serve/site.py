"""The server: pages and sockets, and who may have them."""

from __future__ import annotations

import asyncio
import json
from collections.abc import Awaitable, Callable
from contextlib import suppress
from typing import Any
from urllib.parse import urlsplit

from aiohttp import WSCloseCode, WSMsgType, web

from pevudlo.serve import asked as reading
from pevudlo.serve.gate import Gate
from pevudlo.serve.guests import Guest, TooSlow
from pevudlo.serve.hall import Asked, Hall
from pevudlo.serve.limits import Refused
from pevudlo.serve.pages import HEADERS, page_file
from pevudlo.serve.seats import Seat

HOST = "127.0.0.1"
SIT_SECONDS = 5.0
"""So long a socket may take to say which seat it is for."""

MOST_MESSAGE = 1 << 19
"""So many bytes a message has at most."""

HEARTBEAT = 20.0
SEND_SECONDS = 30.0
"""Who takes no message for so long is let go."""

FLOOD_SECONDS = 0.1
"""So long nothing is read of a socket whose seat asks for too much."""

JOINS = 20.0
"""So many people come in by a name in a second at most. The others wait for their turn."""

JOIN_SECONDS = 5.0
"""Who would wait for longer than so is told to try it again."""

REFUSED = 4000
"""The code by which a socket is ended for a reason that was told."""

Handler = Callable[[web.Request], Awaitable[web.StreamResponse]]


class Site:
    """A server of a hall at a port. `origin` is what a proxy before it is called, nothing without one."""

    def __init__(self, hall: Hall, port: int, origin: str = "") -> None:
        self.hall, self._port, self.origin = hall, port, origin
        self._joined = 0.0
        self._server: asyncio.AbstractServer | None = None
        self._runner: web.AppRunner | None = None
        self._writers = set[asyncio.Task[None]]()

    @property
    def address(self) -> str:
        """Where the pages are."""
        return self.origin or f"http://{HOST}:{self._port}"

    async def open(self) -> None:
        """Listens. Raises OSError where the port can't be had."""
        app = web.Application(middlewares=[self._guarded], client_max_size=1024)
        app.add_routes([web.get("/seat", self._seat), web.get("/{name:[a-z_.]*}", self._page)])
        self._runner = web.AppRunner(app, access_log=None, handle_signals=False)
        await self._runner.setup()
        loop = asyncio.get_running_loop()
        assert self._runner.server is not None
        self._server = await loop.create_server(Gate(self._runner.server), HOST, self._port)
        self._port = self._server.sockets[0].getsockname()[1]

    async def close(self) -> None:
        """Ends it, and tells all who are there."""
        for guest in list(self.hall.guests):
            guest.leave("the server was ended")
        await asyncio.sleep(0.05)
        if self._server is not None:
            self._server.close()
        if self._runner is not None:
            await self._runner.cleanup()

    # Who may ask.

    def is_allowed(self, request: web.Request, is_socket: bool) -> bool:
        """Whether a request names this server, and comes from a page of it where it comes from a page."""
        host = urlsplit(self.address).netloc
        origins: list[str] = request.headers.getall("Origin", [])
        hosts: list[str] = request.headers.getall("Host", [])
        if hosts != [host] or origins not in ([], [self.address]):
            return False
        return not is_socket or origins == [self.address]

    @web.middleware
    async def _guarded(self, request: web.Request, handler: Handler) -> web.StreamResponse:
        """Answers requests that are allowed, with the rules for pages, and ends the connection behind each."""
        try:
            if not self.is_allowed(request, request.path == "/seat"):
                said = "this server is called otherwise, or the request is of another site's page"
                response: web.StreamResponse = web.Response(status=403, text=f"{said}\n")
            else:
                response = await handler(request)
        except web.HTTPException as error:
            response = web.Response(status=error.status, text=f"{error.reason}\n")
        if not response.prepared:
            response.headers.update(HEADERS)
            response.force_close()
        return response

    async def _page(self, request: web.Request) -> web.StreamResponse:
        """A file of the pages."""
        found = page_file(request.match_info["name"])
        if found is None:
            raise web.HTTPNotFound
        data, kind = found
        return web.Response(body=data, content_type=kind, charset="utf-8")

    # Sockets.

    async def _seat(self, request: web.Request) -> web.StreamResponse:
        """A socket of a seat: what it asks, and what it is told."""
        socket = web.WebSocketResponse(heartbeat=HEARTBEAT, max_msg_size=MOST_MESSAGE, compress=False)
        await socket.prepare(request)
        try:
            guest = await self._sat(socket)
        except (Refused, reading.NoMessage, TypeError, asyncio.TimeoutError) as error:
            said = str(error) if isinstance(error, (Refused, reading.NoMessage)) else "a seat is named first, in time"
            await self._send_away(socket, said)
            return socket
        writer = asyncio.create_task(self._write(socket, guest))
        try:
            await self._read(socket, guest)
        finally:
            self.hall.go(guest)
            writer.cancel()
            with suppress(asyncio.CancelledError):
                await writer
        return socket

    async def _sat(self, socket: web.WebSocketResponse) -> Guest:
        """The guest of a socket, whose first message says by what it may come. Raises Refused and NoMessage."""
        asked = reading.read(await asyncio.wait_for(socket.receive_str(), SIT_SECONDS))
        return self.hall.come(await self._seat_of(asked), asked)

    async def _seat_of(self, asked: Asked) -> Seat:
        """The seat that is asked for. Raises Refused and NoMessage."""
        token = reading.words(asked, "token")
        if asked["do"] == "sit":
            return self.hall.seats.of(token)
        if asked["do"] != "join":
            raise reading.NoMessage("a seat is named first")
        name, now = reading.words(asked, "name"), asyncio.get_running_loop().time()
        turn = max(now, self._joined)
        if turn - now > JOIN_SECONDS:
            raise Refused("many come at once: try it again in a moment")
        self._joined = turn + 1 / JOINS
        await asyncio.sleep(turn - now)
        return self.hall.seats.sit(token, name)

    async def _send_away(self, socket: web.WebSocketResponse, said: str) -> None:
        """Tells why somebody may not come, and ends the socket."""
        with suppress(ConnectionError):
            await socket.send_str(json.dumps({"bye": said}))
            await socket.close(code=REFUSED)

    async def _read(self, socket: web.WebSocketResponse, guest: Guest) -> None:
        """Does what a guest asks, one message after another."""
        async for message in socket:
            if message.type is not WSMsgType.TEXT or guest.bye:
                break
            try:
                self.hall.act(guest, reading.read(message.data))
                if guest.seat.messages.is_empty:
                    await asyncio.sleep(FLOOD_SECONDS)
            except reading.NoMessage as error:
                await self._send_away(socket, str(error))
                break
            except TooSlow:
                await socket.close(code=WSCloseCode.POLICY_VIOLATION)
                break

    async def _write(self, socket: web.WebSocketResponse, guest: Guest) -> None:
        """Tells a guest what waits for it. Who takes nothing for long is let go."""
        with suppress(ConnectionError, asyncio.TimeoutError):
            while not guest.bye:
                text = await guest.next()
                await asyncio.wait_for(socket.send_str(text), SEND_SECONDS)
            await socket.close(code=REFUSED)
            return
        transport: Any = socket._req.transport if socket._req is not None else None
        if transport is not None:
            transport.abort()
