"""The server of a live session: who is answered, and who is refused without being read."""

from __future__ import annotations

import gzip
import http.client
import io
import json
import re
import socket
import threading
import time
import tracemalloc
from collections.abc import Iterator
from pathlib import Path

import pytest
from live_tabs import Tab, numbers_in, rest, serve
from pages import answers, script_of

from pevudlo.live.server import HOST, MOST_BYTES, Server

MOST_OF_A_LINE = 65_537
"""So many bytes of a line or of a header are read, and no more."""

HUNDRED_MEGABYTES = 100_000_000
LITTLE_MEMORY = 5_000_000


@pytest.fixture(scope="module")
def server(libparis: Path) -> Iterator[Server]:
    for server in serve(script_of("first-sum"), title="first-sum"):
        rest(server.session)
        yield server


def asked(
    server: Server, method: str, name: str, body: bytes | None = None, **headers: str | None
) -> tuple[int, bytes, dict[str, str]]:
    """Status, body and headers of an answer. A header that is None is left out."""
    sent = {"Host": server.host, "Origin": server.origin, "Content-Type": "application/json"}
    for key, value in headers.items():
        sent.pop(key.replace("_", "-"), None)
        if value is not None:
            sent[key.replace("_", "-")] = value
    connection = http.client.HTTPConnection(HOST, server.server_address[1], timeout=10)
    try:
        connection.putrequest(method, name, skip_host=True, skip_accept_encoding=True)
        for key, value in sent.items():
            connection.putheader(key, value)
        if body is not None and "Content-Length" not in sent:
            connection.putheader("Content-Length", str(len(body)))
        connection.endheaders(body)
        answer = connection.getresponse()
        return answer.status, answer.read(), dict(answer.getheaders())
    finally:
        connection.close()


def page(server: Server, name: str = "") -> str:
    return f"/{server.token}/{name}"


def command(server: Server, line: str) -> tuple[int, dict[str, object]]:
    status, data, _ = asked(server, "POST", page(server, "command"), json.dumps({"line": line}).encode())
    return status, json.loads(data)


def test_listens_on_the_loopback_address_alone(server: Server) -> None:
    assert server.server_address[0] == "127.0.0.1"
    assert len(server.token) >= 32 and server.token in server.address


def test_the_page_and_its_state(server: Server) -> None:
    status, data, headers = asked(server, "GET", page(server), Origin=None)
    assert status == 200 and data.startswith(b"<!doctype html>")
    assert headers["Cache-Control"] == "no-store" and headers["Referrer-Policy"] == "no-referrer"
    status, data, _ = asked(server, "GET", page(server, "state"))
    state = json.loads(data)
    assert status == 200 and state["order"] == [1, 1] and state["hello"] == "first-sum"
    assert state["texts"] == {"ids": [1, 1], "texts": ["u-add-3-1L c a b 8"], "of": [0]}
    status, data, _ = asked(server, "GET", page(server, f"state?seen={state['version']}"))
    again = json.loads(data)
    assert again["since"] == again["version"] == state["version"] and not {"order", "texts", "hello"} & again.keys()


def test_the_client_is_served_under_a_policy(server: Server) -> None:
    """It loads its own files alone, and runs nothing that is written in the page. Long ones are packed for who asks."""
    modules = set()
    names = ["", "client.css", "main.js"]
    while names:
        name = names.pop()
        status, data, headers = asked(server, "GET", page(server, name), Origin=None)
        assert status == 200 and "script-src 'self'" in headers["Content-Security-Policy"]
        assert b"<script>" not in data and b" style=" not in data
        modules.add(name)
        found = re.findall(r'(?:from|import\() ?"\./(\w+\.js)"', data.decode()) if name.endswith(".js") else []
        names += [each for each in found if each not in modules and each not in names]
    assert len(modules) == 15
    _, packed, headers = asked(server, "GET", page(server, "main.js"), Accept_Encoding="gzip")
    assert headers["Content-Encoding"] == "gzip"
    assert gzip.decompress(packed) == asked(server, "GET", page(server, "main.js"))[1]


@pytest.mark.parametrize("path", ["/", "/state", "/wrong/", "/wrong/state", "//", "/etc/passwd", "/../../etc/passwd"])
@pytest.mark.parametrize("method", ["GET", "POST"])
def test_without_the_token_nothing_is_answered(server: Server, path: str, method: str) -> None:
    status, data, _ = asked(server, method, path, b"{}" if method == "POST" else None)
    assert (status, data) == (403, b"403 Forbidden\n")


def test_a_token_that_is_almost_right_is_wrong(server: Server) -> None:
    for token in (server.token[:-1], server.token + "a", server.token.swapcase(), ""):
        assert asked(server, "GET", f"/{token}/state")[0] == 403


@pytest.mark.parametrize("host", ["evil.example", "localhost", "127.0.0.1", "127.0.0.1:1", "evil.example:80", None])
def test_another_host_is_refused(server: Server, host: str | None) -> None:
    assert asked(server, "GET", page(server, "state"), Host=host)[0] == 403
    assert asked(server, "POST", page(server, "command"), b'{"line": "settle"}', Host=host)[0] == 403


@pytest.mark.parametrize("origin", ["http://evil.example", "null", "http://127.0.0.1", "http://127.0.0.1:1", "file://"])
def test_another_origin_is_refused(server: Server, origin: str) -> None:
    assert asked(server, "GET", page(server, "state"), Origin=origin)[0] == 403
    assert asked(server, "POST", page(server, "command"), b'{"line": "settle"}', Origin=origin)[0] == 403


def test_a_command_wants_an_origin(server: Server) -> None:
    assert asked(server, "POST", page(server, "command"), b'{"line": "settle"}', Origin=None)[0] == 403
    assert asked(server, "GET", page(server, "state"), Sec_Fetch_Site="cross-site")[0] == 403


def test_refused_requests_change_nothing(server: Server) -> None:
    before = server.session.version
    for origin in ("http://evil.example", None):
        asked(server, "POST", page(server, "command"), b'{"line": "input a 0 1"}', Origin=origin)
    asked(server, "POST", "/wrong/command", b'{"line": "input a 0 1"}')
    assert server.session.version == before


def head_of(server: Server, length: int) -> bytes:
    """The head of a command, with a body of this length."""
    return (
        f"POST {page(server, 'command')} HTTP/1.1\r\nHost: {server.host}\r\nOrigin: {server.origin}\r\n"
        f"Content-Type: application/json\r\nContent-Length: {length}\r\n\r\n"
    ).encode()


def with_long_part(server: Server, part: str) -> tuple[bytes, list[bytes]]:
    """What is sent before a part of a request that is too long, with so much of it as is answered, and the statuses."""
    body = json.dumps({"line": "list"}).encode()
    return {
        "body": (head_of(server, HUNDRED_MEGABYTES) + b'{"line": "', [b"413"]),
        "line": (b"a" * MOST_OF_A_LINE, [b"414"]),
        "header": (b"GET / HTTP/1.1\r\n" + b"a" * MOST_OF_A_LINE, [b"431"]),
        "behind": (head_of(server, len(body)) + body + b"a" * MOST_OF_A_LINE, [b"200", b"414"]),
    }[part]


@pytest.mark.parametrize("part", ["body", "line", "header", "behind"])
def test_a_hundred_megabytes_are_refused_without_being_read(server: Server, part: str) -> None:
    sent, statuses = with_long_part(server, part)
    tracemalloc.start()
    try:
        with socket.create_connection((HOST, server.server_address[1]), timeout=10) as connection:
            connection.sendall(sent)
            data = b""
            while more := connection.recv(4096):
                data += more
            assert re.findall(rb"HTTP/1\.1 (\d+) ", data) == statuses
            count, piece = 0, b"a" * 65536
            with pytest.raises(OSError):
                while count < HUNDRED_MEGABYTES:
                    count += connection.send(piece)
        assert tracemalloc.get_traced_memory()[1] < LITTLE_MEMORY
    finally:
        tracemalloc.stop()
    assert asked(server, "GET", page(server, "state"))[0] == 200


def test_a_body_that_is_cut_is_no_command(server: Server) -> None:
    """Also where what came of it would be one."""
    before = list(server.session.taken)
    for body in (b"", b'{"line": "inp', b'{"line": "input b 1 3"}'):
        with socket.create_connection((HOST, server.server_address[1]), timeout=10) as connection:
            connection.sendall(head_of(server, 1000) + body)
            connection.shutdown(socket.SHUT_WR)
            assert connection.recv(100).startswith(b"HTTP/1.1 400 ")
    assert server.session.taken == before


def test_the_limit_is_a_line_of_65536_bytes(server: Server) -> None:
    line = "# " + "a" * 65534
    body = json.dumps({"line": line}).encode()
    assert len(body) <= MOST_BYTES
    status, data, _ = asked(server, "POST", page(server, "command"), body)
    assert status == 400 and b"one command is wanted" in data
    assert asked(server, "POST", page(server, "command"), b"a" * (MOST_BYTES + 1))[0] == 413


@pytest.mark.parametrize(
    ("body", "headers", "status"),
    [
        (b"{}", {"Content_Type": "text/plain"}, 415),
        (b"{}", {"Content_Length": "-1"}, 411),
        (b"{}", {"Content_Length": "x"}, 411),
        (b"{}", {"Content_Length": "9" * 30}, 413),
        (b"{}", {"Transfer_Encoding": "chunked"}, 411),
        (b"[]", {}, 400),
        (b"{", {}, 400),
        (b'{"line": 1}', {}, 400),
        (b"[" * 60000, {}, 400),
        (b"{}", {}, 400),
        (b'{"line": "set S 4\\nsettle"}', {}, 400),
        (b'{"line": ""}', {}, 400),
    ],
)
def test_bodies_that_are_no_command(server: Server, body: bytes, headers: dict[str, str], status: int) -> None:
    assert asked(server, "POST", page(server, "command"), body, **headers)[0] == status


@pytest.mark.parametrize("name", ["nothing", "static/page.js", "../live/server.py", "%2e%2e/%2e%2e/etc/passwd"])
def test_no_file_is_served(server: Server, name: str) -> None:
    assert asked(server, "GET", page(server, name))[0] == 404


def test_other_methods_are_no_methods(server: Server) -> None:
    for method in ("PUT", "DELETE", "OPTIONS", "HEAD"):
        assert asked(server, method, page(server))[0] == 501


def test_commands_are_answered_as_the_program_does(server: Server) -> None:
    lines = script_of("first-sum")
    more = ["input a 0 100", "shw", "settle", "show c end"]
    replies = [reply[0] for reply in answers(lines + more)[len(lines) :]]
    for line, reply in zip(more, replies):
        status, answer = command(server, line)
        # (rows run by themselves)
        assert status == 200 and answer["reply"] == (["ok"] if line == "settle" else [reply])
        assert bool(answer["refused"]) == reply.startswith("refused")
        rest(server.session)


def test_news_are_told_to_all_who_listen(server: Server) -> None:
    heads = f"GET {page(server, 'news')} HTTP/1.1\r\nHost: {server.host}\r\n\r\n"
    listeners = [socket.create_connection((HOST, server.server_address[1]), timeout=10) for _ in range(2)]
    try:
        for listener in listeners:
            listener.sendall(heads.encode())
        files = [listener.makefile("rb") for listener in listeners]
        for file in files:
            until(file, server.session.version)
        command(server, "input a 1 7")
        for file in files:
            until(file, server.session.version)
    finally:
        for listener in listeners:
            listener.close()


def until(file: io.BufferedReader, version: int) -> None:
    """Reads lines up to one of this version or a later one, or fails when the socket's time is over."""
    for _ in range(100):
        line = file.readline()
        if line.startswith(b"data: ") and int(line[6:]) >= version:
            return
    raise AssertionError(f"version {version} didn't come")


def test_a_slow_request_blocks_nobody(server: Server) -> None:
    with socket.create_connection((HOST, server.server_address[1]), timeout=10) as slow:
        slow.sendall(b"GET / HTTP/1.1\r\nHost: ")
        begun = time.monotonic()
        assert asked(server, "GET", page(server, "state"))[0] == 200
        assert time.monotonic() - begun < 5


def test_commands_from_many_sides_at_once(server: Server) -> None:
    """Threads send edits while others fetch what is new: each edit is done once, and what stands is the program's."""
    wrong: list[object] = []

    def edit(first: int) -> None:
        for value in range(first, first + 20):
            status, answer = command(server, f"input b {value % 4} {value}")
            wrong.extend([] if (status, answer["reply"]) == (200, ["ok"]) else [answer])

    def fetch() -> None:
        seen = 0
        for _ in range(20):
            status, data, _ = asked(server, "GET", page(server, f"state?seen={seen}"))
            wrong.extend([] if status == 200 and json.loads(data)["version"] >= seen else [data])
            seen = json.loads(data)["version"]

    before = len(server.session.taken)
    threads = [threading.Thread(target=edit, args=(20 * number,)) for number in range(4)]
    threads += [threading.Thread(target=fetch) for _ in range(2)]
    for thread in threads:
        thread.start()
    for thread in threads:
        thread.join(30)
    assert wrong == [] and not any(thread.is_alive() for thread in threads)
    taken = server.session.taken
    assert len(taken) == before + 80
    status, data, _ = asked(server, "GET", page(server, "script"))
    assert data.decode().splitlines() == taken
    tab = Tab(server)
    tab.look()
    shown = numbers_in(tab.piece("b", 0))
    assert isinstance(shown, list)
    assert ["values", *map(str, shown)] == answers(taken + ["show b start"])[-1][0].split(" ")


@pytest.mark.parametrize("looks", ["c", "c 1 0", "c x 0 0", "c 1 0 0 0", "c -1 0 0", "c 1 0 0\n", "c 1\x000 0 0"])
def test_values_that_nobody_can_ask_for(server: Server, looks: str) -> None:
    body = json.dumps({"seen": "1", "edits": "0", "looks": looks}).encode()
    assert asked(server, "POST", page(server, "looks"), body)[0] == 400
    assert asked(server, "POST", page(server, "looks"), b'{"looks": ""}')[0] == 400


@pytest.mark.parametrize("look", ["zz 1 0 0", "c 99 0 0", "S.none 1 0 0", ". 0 0 0", "\u00e9 0 0 0", "a.b.c 0 0 7"])
def test_values_that_are_not_there(server: Server, look: str) -> None:
    body = json.dumps({"seen": "1", "edits": "0", "looks": look}).encode()
    status, data, headers = asked(server, "POST", page(server, "looks"), body)
    assert (status, data) == (200, bytes([2]) + bytes(15)) and headers["Content-Type"] == "application/octet-stream"
