"""Many connections to a live page: none of a burst is lost, and requests that don't come to an end free their place."""

from __future__ import annotations

import http.client
import json
import socket
import threading
import time
from collections.abc import Iterator
from concurrent.futures import ThreadPoolExecutor
from pathlib import Path

import pytest
from live_tabs import serve
from pages import script_of

from pevudlo.live.connections import IDLE_SECONDS, MOST_CONNECTIONS, REQUEST_SECONDS
from pevudlo.live.server import HOST, Server

BURST = 300


@pytest.fixture(scope="module")
def server(libparis: Path) -> Iterator[Server]:
    yield from serve(script_of("first-sum"))


def free_places(server: Server) -> int:
    """How many connections more would be answered at once."""
    places = [server._places.acquire(blocking=False) for _ in range(MOST_CONNECTIONS + 1)]
    for _ in range(sum(places)):
        server._places.release()
    return sum(places)


def answered(server: Server, name: str, asked: dict[str, str] | None = None) -> tuple[int, bytes]:
    """Status and text of an answer: to a post of what is asked, else to a get."""
    connection = http.client.HTTPConnection(HOST, server.server_address[1], timeout=60)
    headers = {"Origin": server.origin, "Content-Type": "application/json"}
    words = ("GET", None) if asked is None else ("POST", json.dumps(asked))
    try:
        connection.request(words[0], f"/{server.token}/{name}", words[1], headers)
        answer = connection.getresponse()
        return answer.status, answer.read()
    finally:
        connection.close()


def told(server: Server, **asked: str) -> dict[str, object]:
    """What comes of a command."""
    status, text = answered(server, "command", asked)
    assert status == 200
    found: dict[str, object] = json.loads(text)
    return found


def begun(server: Server, text: bytes) -> socket.socket:
    """A connection on which this was sent."""
    connection = socket.create_connection((HOST, server.server_address[1]), timeout=30)
    connection.sendall(text)
    return connection


def half(server: Server) -> bytes:
    return f"POST /{server.token}/command HTTP/1.1\r\nHost: {server.host}\r\n".encode()


def test_no_post_of_a_burst_is_lost(server: Server) -> None:
    before = len(server.session.taken)
    with ThreadPoolExecutor(BURST) as threads:
        found = list(threads.map(lambda value: told(server, line=f"input b 1 {value % 10}"), range(BURST)))
    assert [answer["reply"] for answer in found] == [["ok"]] * BURST
    assert len(server.session.taken) == before + BURST


def test_half_requests_end_and_others_are_answered(server: Server) -> None:
    start = time.monotonic()
    slow = [begun(server, half(server)) for _ in range(MOST_CONNECTIONS + 20)]
    try:
        assert told(server, line="input b 1 3")["reply"] == ["ok"]
        assert time.monotonic() - start < REQUEST_SECONDS + 5
        for connection in slow[:MOST_CONNECTIONS]:
            assert connection.recv(100) == b""
        assert time.monotonic() - start < REQUEST_SECONDS + 5
    finally:
        for connection in slow:
            connection.close()


@pytest.mark.parametrize("body", [False, True])
def test_a_request_that_comes_drop_by_drop_ends(server: Server, body: bool) -> None:
    head = f"Origin: {server.origin}\r\nContent-Type: application/json\r\nContent-Length: 1000\r\n\r\n" if body else ""
    start = time.monotonic()
    with begun(server, half(server) + head.encode()) as connection:
        connection.settimeout(0.2)
        while time.monotonic() - start < 3 * REQUEST_SECONDS:
            try:
                connection.sendall(b"a")
                if connection.recv(100) == b"":
                    break
            except TimeoutError:
                continue
            except OSError:
                break
        assert REQUEST_SECONDS - 1 < time.monotonic() - start < REQUEST_SECONDS + 3


def test_a_connection_that_asks_nothing_ends(server: Server) -> None:
    start = time.monotonic()
    with begun(server, b"") as connection:
        assert connection.recv(100) == b""
    assert IDLE_SECONDS - 1 < time.monotonic() - start < IDLE_SECONDS + 5


def test_a_connection_serves_several_requests(server: Server) -> None:
    connection = http.client.HTTPConnection(HOST, server.server_address[1], timeout=30)
    for _ in range(3):
        connection.request("GET", f"/{server.token}/state")
        assert connection.getresponse().read().startswith(b"{")
        time.sleep(0.1)
    connection.close()


# Two tabs and one row


def test_a_row_that_is_another_by_now_is_told(server: Server) -> None:
    session = server.session
    text = "u-add-3-1L c a b 8"
    assert session.board.texts[1] == text
    assert told(server, line="replace 1 u-max-3-1L c a b 8", was=text)["reply"] == ["ok"]
    for line in ("replace 1 u-min-3-1L c a b 8", "delete 1"):
        taken = list(session.taken)
        answer = told(server, line=line, was=text)
        assert answer["reply"] == [] and answer["text"] == "u-max-3-1L c a b 8"
        assert "Row 1 was changed meanwhile" in str(answer["refused"]) and session.taken == taken
    assert told(server, line="delete 1", was="u-max-3-1L c a b 8")["reply"] == ["ok"]
    answer = told(server, line="replace 1 u-min-3-1L c a b 8", was="u-max-3-1L c a b 8")
    assert answer["text"] is None and "Row 1 was deleted meanwhile" in str(answer["refused"])


def test_an_interrupt_while_an_answer_begins_ends_the_server(server: Server, monkeypatch: pytest.MonkeyPatch) -> None:
    """Ctrl-C may come while a thread is begun, which has answered and given its place back by then."""
    begin = threading.Thread.start

    def begin_and_end(thread: threading.Thread) -> None:
        begin(thread)
        thread.join(10)
        raise KeyboardInterrupt

    ours, theirs = socket.socketpair()
    with ours, theirs:
        theirs.close()
        monkeypatch.setattr(threading.Thread, "start", begin_and_end)
        with pytest.raises(KeyboardInterrupt):
            server.process_request(ours, ("", 0))
        monkeypatch.undo()
    # (connections of earlier tests give theirs back in their own time)
    until = time.monotonic() + 30
    while free_places(server) < MOST_CONNECTIONS and time.monotonic() < until:
        time.sleep(0.01)
    assert free_places(server) == MOST_CONNECTIONS
