"""A live page's socket: who gets one, what is answered, and what ends it."""

from __future__ import annotations

import base64
import json
import os
import socket
import struct
import threading
import time
import tracemalloc
from collections.abc import Iterator
from pathlib import Path
from typing import Any

import pytest
from live_tabs import Tab, numbers_in, rest, serve
from pages import answers, script_of
from test_live_http import HUNDRED_MEGABYTES, LITTLE_MEMORY

from pevudlo.live import connections, server as serving, sockets
from pevudlo.live.server import HOST, MOST_BYTES, Server

KEY, ACCEPTED = "dGhlIHNhbXBsZSBub25jZQ==", "s3pPLMBiTxaQ9kYGzzhZRbK+xOo="
"""The example of RFC 6455, section 1.3."""

TEXT, BINARY, CLOSE, PING, PONG = 1, 2, 8, 9, 10


@pytest.fixture
def server(libparis: Path) -> Iterator[Server]:
    for server in serve(script_of("first-sum"), title="first-sum", is_shared=True):
        rest(server.session)
        yield server


def frame(kind: int, data: bytes, first: int = 0x80, masked: bool = True, length: int | None = None) -> bytes:
    """A frame as a browser sends it. It may say another length than it has."""
    count, mask = len(data) if length is None else length, os.urandom(4)
    head = bytes([first | kind, (0x80 * masked) | (count if count < 126 else 126 if count < 65536 else 127)])
    head += b"" if count < 126 else struct.pack(">H" if count < 65536 else ">Q", count)
    if not masked:
        return head + data
    return head + mask + bytes(byte ^ mask[place % 4] for place, byte in enumerate(data))


class Wire:
    """A socket without a browser. `status` is that of the answer to its beginning."""

    def __init__(self, server: Server, name: str | None = None, **headers: str | None) -> None:
        self.socket = socket.create_connection((HOST, server.server_address[1]), 20)
        sent: dict[str, str | None] = {
            "Host": server.host,
            "Origin": server.origin,
            "Connection": "keep-alive, Upgrade",
        }
        sent |= {"Upgrade": "websocket", "Sec-WebSocket-Version": "13", "Sec-WebSocket-Key": KEY}
        sent |= {key.replace("_", "-"): value for key, value in headers.items()}
        lines = [f"{key}: {value}" for key, value in sent.items() if value is not None]
        path = f"/{server.token}/socket" if name is None else name
        self.socket.sendall("\r\n".join([f"GET {path} HTTP/1.1", *lines, "", ""]).encode())
        self.file = self.socket.makefile("rb")
        self.status = int(self.file.readline().split()[1])
        self.headers = dict(line.decode().strip().split(": ", 1) for line in iter(self.file.readline, b"\r\n"))

    def send(self, kind: int, data: bytes, **more: Any) -> None:
        self.socket.sendall(frame(kind, data, **more))

    def ask(self, mark: int, do: str, **body: str) -> None:
        self.send(TEXT, json.dumps({"mark": str(mark), "do": do, **body}).encode())

    def read(self) -> tuple[int, bytes]:
        """The next frame. One that doesn't come is a close without a code."""
        head = self.file.read(2)
        if len(head) < 2:
            return CLOSE, b""
        assert head[0] & 0x80 and not head[1] & 0x80
        length = head[1]
        if length > 125:
            (length,) = struct.unpack(">H" if length == 126 else ">Q", self.file.read(2 if length == 126 else 8))
        return head[0] & 15, self.file.read(length)

    def answer(self, mark: int) -> Any:
        """The answer of a mark: what JSON it is, or its bytes. News and signs of life are passed over."""
        while True:
            kind, data = self.read()
            assert kind in (TEXT, BINARY, PING), (kind, data)
            if kind == BINARY and struct.unpack_from("<I", data)[0] == mark:
                return data[8:]
            if kind == TEXT and json.loads(data).get("mark") == mark:
                return json.loads(data)

    def end(self) -> int:
        """The code of the close that comes, 0 for an end without one."""
        while True:
            kind, data = self.read()
            if kind == CLOSE:
                assert self.read() == (CLOSE, b"")
                return int.from_bytes(data)

    def __enter__(self) -> Wire:
        return self

    def __exit__(self, *words: object) -> None:
        self.file.close()
        self.socket.close()


# Who gets one.


def test_a_socket_begins_as_the_standard_says(server: Server) -> None:
    with Wire(server) as wire:
        assert (wire.status, wire.headers["Sec-WebSocket-Accept"]) == (101, ACCEPTED)
        assert "Sec-WebSocket-Extensions" not in wire.headers


OTHERS: list[tuple[dict[str, str | None], int]] = [
    ({"Origin": None}, 403),
    ({"Origin": "http://example.com"}, 403),
    ({"Origin": "null"}, 403),
    ({"Host": "example.com"}, 403),
    ({"Sec-Fetch-Site": "cross-site"}, 403),
    ({"name": "/socket"}, 403),
    ({"name": "/x/socket"}, 403),
    ({"Upgrade": None}, 400),
    ({"Connection": "keep-alive"}, 400),
    ({"Sec-WebSocket-Version": "8"}, 400),
    ({"Sec-WebSocket-Key": None}, 400),
    ({"Sec-WebSocket-Key": "c2hvcnQ="}, 400),
    ({"Sec-WebSocket-Key": "é"}, 400),
]


@pytest.mark.parametrize(("headers", "status"), OTHERS)
def test_others_get_none(server: Server, headers: dict[str, str | None], status: int) -> None:
    version = server.session.version
    with Wire(server, **headers) as wire:
        assert wire.status == status
        wire.ask(1, "command", line="input a 0 9")
    assert server.session.version == version and server.listeners == 0


def test_as_many_tabs_listen_as_may(server: Server) -> None:
    wires = [Wire(server) for _ in range(serving.MOST_LISTENERS)]
    with Wire(server) as late:
        assert {wire.status for wire in wires} == {101} and late.status == 503
    for wire in wires:
        wire.socket.close()
        wire.file.close()
    end = time.monotonic() + 30
    while server.listeners:
        assert time.monotonic() < end
        time.sleep(0.01)


# What is answered.


def test_what_is_asked_is_answered_as_by_requests(server: Server) -> None:
    tab = Tab(server)
    tab.look()
    with Wire(server) as wire:
        wire.ask(7, "state", seen="0")
        state = wire.answer(7)
        assert state == json.loads(json.dumps(server.state(0))) | {"mark": 7}
        wire.ask(8, "command", line="input a 0 9 9", seen=str(state["version"]))
        told = wire.answer(8)
        assert told["reply"] == ["ok"] and told["state"]["line"] == "input a 0 9 9"
        server.session.wait_for_small()
        rest(server.session)
        tab.look()
        wire.ask(9, "looks", seen=str(tab.version), edits=str(tab.edits), looks="c 1 0 0\na 0 0 0")
        data = wire.answer(9)
        shown = answers([*script_of("first-sum"), "input a 0 9 9", "settle", "show c after 1"])[-1][0].split(" ")[1:]
        assert data == tab.piece("c", 1) + tab.piece("a", 0) and numbers_in(data) == list(map(int, shown))
        wire.ask(10, "command", line="u-add-3-1L")
        assert wire.answer(10)["refused"]["hint"]
        wire.ask(11, "since", row="1")
        assert wire.answer(11)["line"] == "input a 0 9 9"
        wire.ask(12, "nothing")
        assert wire.answer(12)["wrong"]
        wire.ask(13, "looks", looks="c")
        assert wire.answer(13)["wrong"]


def test_news_come_by_themselves_and_parts_of_a_message_are_one(server: Server) -> None:
    with Wire(server) as wire:
        kind, data = wire.read()
        assert kind == TEXT and json.loads(data) == {"version": server.session.version}
        server.session.run("input a 0 3")
        kind, data = wire.read()
        assert json.loads(data)["version"] <= server.session.version
        text = json.dumps({"mark": "1", "do": "state", "seen": "0"}).encode()
        wire.send(TEXT, text[:9], first=0)
        wire.send(PING, b"there?")
        wire.send(0, text[9:11], first=0)
        wire.socket.sendall(frame(0, b"", first=0) * 20_000)
        wire.send(0, text[11:])
        found = list[tuple[int, bytes]]()
        while not found or found[-1][0] != TEXT or b'"mark":1' not in found[-1][1]:
            found.append(wire.read())
        assert (PONG, b"there?") in found
        wire.send(CLOSE, struct.pack(">H", 1000))
        assert wire.end() == 1000


def test_many_messages_at_once_are_answered_in_order(server: Server) -> None:
    def ask(wire: Wire, seen: list[int]) -> None:
        for mark in range(100):
            wire.ask(mark, "command", line=f"input a {mark % 4} {mark}")
        while len(seen) < 100:
            kind, data = wire.read()
            if kind == TEXT and "mark" in json.loads(data):
                seen.append(json.loads(data)["mark"])
                assert json.loads(data)["reply"] == ["ok"]

    wires, seen = [Wire(server) for _ in range(4)], [list[int]() for _ in range(4)]
    threads = [threading.Thread(target=ask, args=each) for each in zip(wires, seen)]
    for thread in threads:
        thread.start()
    for thread in threads:
        thread.join(60)
    assert seen == [list(range(100))] * 4
    for wire in wires:
        wire.__exit__()


# What ends it.

WRONG: list[tuple[str, bytes, int]] = [
    ("not masked", frame(TEXT, b"{}", masked=False), 1002),
    ("reserved bits", frame(TEXT, b"{}", first=0xC0), 1002),
    ("of no kind", frame(3, b"{}"), 1002),
    ("bytes", frame(BINARY, b"{}"), 1002),
    ("the rest of nothing", frame(0, b"{}"), 1002),
    ("another beginning", frame(TEXT, b"{", first=0) + frame(TEXT, b"}"), 1002),
    ("a long sign of life", frame(PING, bytes(126)), 1002),
    ("half a sign of life", frame(PING, b"", first=0), 1002),
    ("no JSON", frame(TEXT, b"{"), 1002),
    ("no texts", frame(TEXT, b'{"mark": 1}'), 1002),
    ("no mark", frame(TEXT, b'{"do": "state"}'), 1002),
    ("no UTF-8", frame(TEXT, b'{"mark": "1", "do": "\xff"}'), 1002),
    ("too long", frame(TEXT, b"", length=MOST_BYTES + 1), 1009),
    ("a hundred megabytes", frame(TEXT, b"", length=HUNDRED_MEGABYTES), 1009),
    ("too long in parts", frame(TEXT, bytes(MOST_BYTES), first=0) + frame(0, b"1"), 1009),
]


@pytest.mark.parametrize(("data", "code"), [each[1:] for each in WRONG], ids=[each[0] for each in WRONG])
def test_what_is_no_message_ends_it(server: Server, data: bytes, code: int) -> None:
    version = server.session.version
    tracemalloc.start()
    with Wire(server) as wire:
        wire.socket.sendall(data)
        assert wire.end() == code
    assert tracemalloc.get_traced_memory()[1] < LITTLE_MEMORY
    tracemalloc.stop()
    assert server.session.version == version and Tab(server).look()["version"] == version


def test_half_a_message_ends_it_and_others_are_answered(server: Server, monkeypatch: pytest.MonkeyPatch) -> None:
    monkeypatch.setattr(connections, "REQUEST_SECONDS", 0.5)
    with Wire(server) as half, Wire(server) as other:
        half.socket.sendall(frame(TEXT, b'{"mark": "1", "do": "state"}')[:9])
        other.ask(1, "state", seen="0")
        assert other.answer(1)["hello"] == "first-sum"
        assert half.end() in (0, 1000)


def test_a_tab_that_gives_no_sign_of_life_is_let_go(server: Server, monkeypatch: pytest.MonkeyPatch) -> None:
    monkeypatch.setattr(serving, "HEARTBEAT", 0.2)
    with Wire(server) as wire:
        kinds = set[int]()
        begun = time.monotonic()
        while CLOSE not in kinds:
            kinds.add(wire.read()[0])
        assert PING in kinds and time.monotonic() - begun < 15


def test_a_tab_that_reads_nothing_holds_nobody_and_is_let_go(server: Server, monkeypatch: pytest.MonkeyPatch) -> None:
    monkeypatch.setattr(sockets, "ANSWER_SECONDS", 1.0)
    with Wire(server) as slow, Wire(server) as other:
        slow.socket.setblocking(False)
        until = time.monotonic() + 60
        try:
            # It asks again and again, and takes no answer, until nothing more of it is taken.
            while time.monotonic() < until:
                slow.socket.send(frame(TEXT, b'{"mark": "1", "do": "state", "seen": "0"}'))
        except (BlockingIOError, ConnectionError):
            pass
        tracemalloc.start()
        for number in range(50):
            other.ask(number, "command", line=f"input a 0 {number}")
            assert other.answer(number)["reply"] == ["ok"]
        assert tracemalloc.get_traced_memory()[1] < LITTLE_MEMORY
        tracemalloc.stop()
        while server.listeners > 1:
            assert time.monotonic() < until
            time.sleep(0.05)


def test_the_end_of_the_server_ends_it(libparis: Path) -> None:
    for server in serve(script_of("first-sum")):
        wire = Wire(server)
        assert wire.status == 101
    assert wire.end() in (0, 1000)
    wire.__exit__()


def test_the_key_is_as_the_standard_says() -> None:
    assert base64.b64decode(KEY) == b"the sample nonce"
