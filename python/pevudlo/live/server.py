"""Serves a session on the loopback address: one page, its news, and what is asked of it. No files but the page's own.

A request is refused where it doesn't name this host, where it comes from another page, or where the token isn't in
its address. A body above the limit isn't read.
"""

from __future__ import annotations

import gzip
import io
import json
import secrets
import socket
import struct
import sys
import threading
from http import HTTPStatus
from http.server import BaseHTTPRequestHandler
from typing import Any
from urllib.parse import parse_qs, urlsplit

from pevudlo.files import why
from pevudlo.client.files import KINDS, POLICY, client_file
from pevudlo.live.connections import ANSWER_SECONDS, LimitedServer, TimelyReader
from pevudlo.live.followed import FollowedSession, OtherText
from pevudlo.client.news import News, grammar, other_row, refusal, trouble
from pevudlo.live.running import OtherTab, RunningSession
from pevudlo.live.session import MOST_LOOKS, Look, OtherRow, Session, Step, Stopped
from pevudlo.live.sockets import BINARY, PING, TEXT, WRONG, Socket, Wrong, key_of
from pevudlo.talk import LOOKS
from pevudlo.wire.pipe import Ended

HOST = "127.0.0.1"
MOST_BYTES = 65_536 + 1_024
"""A line of 65,536 bytes in its wrapping."""

MOST_LISTENERS = 32
HEARTBEAT = 10.0
"""Seconds between two signs of life to a tab that waits for news."""

MARK = struct.Struct("<II")

LEAST_PACKED = 4_096
"""A text of so many bytes is packed for who takes it so."""


def is_number(word: str) -> bool:
    """Whether a word is a number that isn't too long."""
    return word.isascii() and word.isdigit() and len(word) < 19


def number_of(asked: dict[str, str], name: str) -> int:
    """A number that is asked with, 0 where there is none."""
    return int(asked[name]) if is_number(asked.get(name, "")) else 0


def type_text(session: FollowedSession, asked: dict[str, str]) -> dict[str, object]:
    """Puts what was typed into the text. Raises ValueError where that can't be."""
    places = [asked[name] for name in ("was", "start", "end")]
    if not all(map(is_number, places)):
        raise ValueError("a part of the text is wanted")
    was, start, end = map(int, places)
    try:
        session.type(was, start, end, asked["text"], asked["hold"] == "yes")
    except OtherText:
        return {"other": True}
    except OSError as error:
        raise ValueError(f"can't write the file: {why(error)}") from error
    return {"number": session.number}


RUNNING = ("go", "stop", "undo", "redo", "history")
"""What can be done with rows that run by themselves."""

OTHER_TAB = "Another tab edits, and this one looks."


def run_by_itself(session: RunningSession, name: str, asked: dict[str, str]) -> dict[str, object] | None:
    """Does what is of rows that run by themselves. A tab that looks is told so. None where something else is asked.

    Raises KeyError and ValueError where nobody can do it.
    """
    refused: dict[str, object] = {"pen": True, **trouble(OTHER_TAB)}
    if name == "pen":
        session.take_pen(asked["tab"])
    elif name in RUNNING or (name == "command" and asked["line"].split(" ")[0] not in LOOKS):
        try:
            session.check_tab(asked.get("tab", ""))
        except OtherTab:
            return {"reply": [], "refused": refused}
        if name == "command":
            return None
        if name == "history":
            if not is_number(asked["place"]):
                raise ValueError("a place of the history is wanted")
            session.go_to(int(asked["place"]))
        else:
            {"go": session.go_on, "stop": session.stop, "undo": session.undo, "redo": session.redo}[name]()
    else:
        return None
    return {"reply": [], "refused": None}


def answer_of(step: Step) -> dict[str, object]:
    """What is answered to a command."""
    refused = None if step.explanation is None else refusal(step.explanation, step.lines[0])
    return {"reply": list(step.lines[:1]), "refused": refused}


def looks_in(text: str) -> list[Look]:
    """The values that are asked for, one a line: a key, a row, 1 for it summed up, and which. Raises ValueError."""
    looks = list[Look]()
    for line in text.split("\n")[:MOST_LOOKS] if text else ():
        words = line.split(" ")
        if len(words) != 4 or not all(map(is_number, words[1:])):
            raise ValueError("a value is asked for by a key and three numbers")
        looks.append(Look(words[0], int(words[1]), words[2] == "1", int(words[3])))
    return looks


def as_bytes(value: dict[str, object] | bytes) -> bytes:
    """What is answered, as bytes."""
    return value if isinstance(value, bytes) else json.dumps(value, separators=(",", ":")).encode("ascii")


def texts_in(data: bytes) -> dict[str, str] | None:
    """What is asked: texts by name. None where it is none."""
    try:
        asked = json.loads(data)
    except (ValueError, RecursionError):
        return None
    return asked if isinstance(asked, dict) and all(isinstance(text, str) for text in asked.values()) else None


class Unwelcome(Exception):
    """A request that is refused, with the status of the answer."""

    def __init__(self, status: HTTPStatus) -> None:
        super().__init__(status.phrase)
        self.status = status


class Server(LimitedServer):
    """A server of one session. `address` is where its page is."""

    def __init__(self, session: Session, title: str, port: int = 0) -> None:
        super().__init__((HOST, port), Handler)
        self.session = session
        self.title = title
        self.token = secrets.token_urlsafe(24)
        self.listeners = 0
        self.host = f"{HOST}:{self.server_address[1]}"

    @property
    def origin(self) -> str:
        """What a browser says that requests of our page come from."""
        return f"http://{self.host}"

    @property
    def address(self) -> str:
        """The page's address."""
        return f"{self.origin}/{self.token}/"

    def state(self, seen: int) -> News:
        """What a tab that has seen a version wants to know. One that has seen none is told what stays, too."""
        session = self.session
        if seen:
            return session.state(seen)
        hello: News = {"hello": self.title, "grammar": grammar(), "followed": isinstance(session, FollowedSession)}
        return hello | session.state(0)

    def handle_error(self, request: Any, client_address: Any) -> None:
        """Says what went wrong on standard error; a tab that goes while it is answered is no error."""
        if not isinstance(sys.exc_info()[1], OSError):
            super().handle_error(request, client_address)


class Handler(BaseHTTPRequestHandler):
    """Answers one connection."""

    server: Server
    protocol_version = "HTTP/1.1"
    server_version = "paris"
    sys_version = ""
    # Else the end of an answer waits until its beginning is acknowledged, for 40 ms.
    disable_nagle_algorithm = True

    def setup(self) -> None:
        """Reads the connection by a reader that keeps time."""
        super().setup()
        self.rfile.close()
        self.reader = TimelyReader(self.connection)
        self.rfile = io.BufferedReader(self.reader)

    def handle_one_request(self) -> None:
        """Answers one request of the connection."""
        self.reader.wait_for_request()
        super().handle_one_request()

    def log_message(self, format: str, *words: Any) -> None:
        """Says nothing: the token is in addresses."""

    def do_GET(self) -> None:
        """The page, its news, and what is new since a version."""
        try:
            self._get(self._allowed(False))
        except Unwelcome as error:
            self._refuse(error.status)
        except Ended as error:
            self._send_json({"stopped": str(error)}, HTTPStatus.CONFLICT)

    def do_POST(self) -> None:
        """A command, values, a step of the history, or a new start."""
        try:
            name, body = self._allowed(True), self._body()
            data, status = self._done(name, body)
            kind = "application/json" if isinstance(data, dict) else "application/octet-stream"
            self._send(status, as_bytes(data), kind)
        except Unwelcome as error:
            self._refuse(error.status)

    def _done(self, name: str, asked: dict[str, str]) -> tuple[News | bytes, HTTPStatus]:
        """What is answered to what is asked: values, or what was done with what is new behind it."""
        try:
            seen = number_of(asked, "seen")
            if name == "looks":
                if not asked.keys() >= {"seen", "edits"}:
                    raise ValueError("values are asked for by who has seen something")
                looks = self.server.session.looks(looks_in(asked["looks"]), seen, number_of(asked, "edits"))
                return b"".join(looks), HTTPStatus.OK
            answer = self._act(name, asked)
            if "seen" in asked:
                self.server.session.wait_for_small()
                answer["state"] = self.server.state(seen)
            return answer, HTTPStatus.OK
        except (Stopped, Ended) as error:
            return {"stopped": str(error)}, HTTPStatus.CONFLICT
        except (KeyError, ValueError, MemoryError) as error:
            return {"wrong": str(error)}, HTTPStatus.BAD_REQUEST

    def _get(self, name: str) -> None:
        """Answers with what has this name."""
        session = self.server.session
        if (data := client_file(name, isinstance(session, FollowedSession))) is not None:
            self._send(HTTPStatus.OK, data, KINDS[name.rpartition(".")[2]])
        elif name == "news":
            self._news()
        elif name == "socket":
            self._allowed(True)
            self._talk()
        elif name == "state":
            self._send_json(self.server.state(self._asked("seen")))
        elif name == "since" and isinstance(session, RunningSession):
            self._send_json({"line": session.since(self._asked("row"))})
        elif name == "script":
            self._send(HTTPStatus.OK, session.script().encode("utf-8", "surrogateescape"), "text/plain; charset=utf-8")
        elif name == "text" and isinstance(session, FollowedSession):
            with session.lock:
                text: dict[str, object] = {"number": session.number, "text": session.text}
            self._send_json(text)
        elif name == "lines" and isinstance(session, FollowedSession):
            self._send_json(session.values(self._asked("first"), self._asked("last")))
        else:
            raise Unwelcome(HTTPStatus.NOT_FOUND)

    def _act(self, name: str, asked: dict[str, str]) -> dict[str, object]:
        """Does what is asked, and says what came of it. Raises KeyError and ValueError where nobody can do it."""
        session = self.server.session
        if isinstance(session, RunningSession):
            done = run_by_itself(session, name, asked)
            if done is not None:
                return done
        if name == "command":
            try:
                return answer_of(session.run(asked["line"], asked.get("was")))
            except OtherRow as error:
                told = other_row(error.row, error.text, error.mine)
                return {"reply": [], "refused": told, "text": error.text}
            except OSError as error:
                raise ValueError(f"can't write the file: {why(error)}") from error
        if name == "restart":
            session.restart()
        elif name == "text" and isinstance(session, FollowedSession):
            return type_text(session, asked)
        else:
            raise ValueError("nothing is done at this address")
        return {"reply": [], "refused": None}

    def _allowed(self, is_post: bool) -> str:
        """The part of the address behind the token. Raises Unwelcome where the request may not be answered."""
        origin = self.headers.get("Origin")
        hosts = self.headers.get_all("Host") or []
        strange = origin is not None and origin != self.server.origin
        if hosts != [self.server.host] or strange or (is_post and origin is None):
            raise Unwelcome(HTTPStatus.FORBIDDEN)
        if self.headers.get("Sec-Fetch-Site", "none") not in ("none", "same-origin"):
            raise Unwelcome(HTTPStatus.FORBIDDEN)
        path = urlsplit(self.path).path
        token, slash, name = path.removeprefix("/").partition("/")
        if not slash or not secrets.compare_digest(token.encode(), self.server.token.encode()):
            raise Unwelcome(HTTPStatus.FORBIDDEN)
        return name

    def _body(self) -> dict[str, str]:
        """What a request brings: texts by name. Raises Unwelcome for another body, and reads none that is too long."""
        length = self.headers.get("Content-Length", "")
        if not (length.isascii() and length.isdigit()) or "Transfer-Encoding" in self.headers:
            raise Unwelcome(HTTPStatus.LENGTH_REQUIRED)
        if len(length) > 9 or int(length) > MOST_BYTES:
            raise Unwelcome(HTTPStatus.REQUEST_ENTITY_TOO_LARGE)
        if self.headers.get("Content-Type", "").split(";")[0].strip() != "application/json":
            raise Unwelcome(HTTPStatus.UNSUPPORTED_MEDIA_TYPE)
        data = self.rfile.read(int(length))
        asked = texts_in(data) if len(data) == int(length) else None
        if asked is None:
            raise Unwelcome(HTTPStatus.BAD_REQUEST)
        return asked

    def _asked(self, name: str) -> int:
        """A number of the address, such as the version that a tab has seen; 0 where it has none."""
        words = parse_qs(urlsplit(self.path).query).get(name, ["0"])
        return int(words[0]) if is_number(words[0]) else 0

    def _news(self) -> None:
        """Server-sent events: the version, each time that it is another."""
        server = self.server
        self._listens()
        try:
            self.connection.settimeout(ANSWER_SECONDS)
            self.send_response(HTTPStatus.OK)
            self._say_rules("text/event-stream")
            self.send_header("Connection", "close")
            self.end_headers()
            self.close_connection = True
            seen = 0
            while not server.session.is_closed:
                version = server.session.wait(seen, HEARTBEAT)
                self.wfile.write(b": alive\n\n" if version == seen else f"data: {version}\n\n".encode("ascii"))
                seen = version
        except OSError:
            pass
        finally:
            server.listeners -= 1

    def _listens(self) -> None:
        """Another tab listens for news. Raises Unwelcome where too many do."""
        if self.server.listeners >= MOST_LISTENERS:
            raise Unwelcome(HTTPStatus.SERVICE_UNAVAILABLE)
        self.server.listeners += 1

    def _talk(self) -> None:
        """All that a tab asks by one socket, answered in order, with news between the answers."""
        try:
            key = key_of(self.headers)
        except ValueError as error:
            raise Unwelcome(HTTPStatus.BAD_REQUEST) from error
        self._listens()
        try:
            self.connection.settimeout(ANSWER_SECONDS)
            self.send_response(HTTPStatus.SWITCHING_PROTOCOLS)
            for name, value in (("Upgrade", "websocket"), ("Connection", "Upgrade"), ("Sec-WebSocket-Accept", key)):
                self.send_header(name, value)
            self.end_headers()
            self.wfile.flush()
            self.close_connection, self.reader.idle = True, 3 * HEARTBEAT
            tab = Socket(self.connection, self.reader, self.rfile, MOST_BYTES)
            threading.Thread(target=self._push, args=(tab,), daemon=True).start()
            self._answer_all(tab)
        except (OSError, EOFError):
            pass
        finally:
            self.server.listeners -= 1

    def _answer_all(self, tab: Socket) -> None:
        """Answers what comes until the end. A message that isn't one ends it."""
        code = 1000
        try:
            while (text := tab.read()) is not None:
                asked = texts_in(text)
                if asked is None or not is_number(asked.get("mark", "")):
                    raise Wrong(WRONG)
                data = self._told(asked.get("do", ""), asked)
                if isinstance(data, bytes):
                    tab.send(BINARY, MARK.pack(int(asked["mark"]) & 0xFFFFFFFF, 0) + data)
                else:
                    tab.send(TEXT, as_bytes({**data, "mark": int(asked["mark"])}))
        except Wrong as error:
            code = error.code
        finally:
            tab.end(code)

    def _told(self, name: str, asked: dict[str, str]) -> News | bytes:
        """What is answered to a message: what is new, since which edit a row is unsettled, or as to a post."""
        session, (seen, row) = self.server.session, (number_of(asked, part) for part in ("seen", "row"))
        try:
            if name == "state":
                return self.server.state(seen)
            if name == "since" and isinstance(session, RunningSession):
                return {"line": session.since(row)}
        except Ended as error:
            return {"stopped": str(error)}
        return self._done(name, asked)[0]

    def _push(self, tab: Socket) -> None:
        """Tells a tab each version, and that the server lives. A tab that takes nothing is told the last one later."""
        session, seen = self.server.session, 0
        try:
            while not session.is_closed and not tab.is_over:
                version = session.wait(seen, HEARTBEAT)
                tab.send(PING if version == seen else TEXT, b"" if version == seen else as_bytes({"version": version}))
                seen = version
            if not tab.is_over:
                # (who reads for the tab is woken)
                self.connection.shutdown(socket.SHUT_RDWR)
        except OSError:
            tab.is_over = True

    def _send_json(self, value: dict[str, object], status: HTTPStatus = HTTPStatus.OK) -> None:
        """Answers with JSON."""
        self._send(status, as_bytes(value), "application/json")

    def _send(self, status: HTTPStatus, data: bytes, kind: str) -> None:
        """Answers, and keeps the connection. Long texts are packed for who takes them so."""
        self.connection.settimeout(ANSWER_SECONDS)
        is_text = kind != "application/octet-stream" and len(data) >= LEAST_PACKED
        is_packed = is_text and "gzip" in self.headers.get("Accept-Encoding", "")
        data = gzip.compress(data, 1, mtime=0) if is_packed else data
        self.send_response(status)
        self._say_rules(kind)
        if is_packed:
            self.send_header("Content-Encoding", "gzip")
        self.send_header("Content-Length", str(len(data)))
        self.end_headers()
        self.wfile.write(data)

    def _say_rules(self, kind: str) -> None:
        """Headers that keep what is sent to this page alone."""
        for name, value in (
            ("Content-Type", kind),
            ("Cache-Control", "no-store"),
            ("Content-Security-Policy", POLICY),
            ("X-Content-Type-Options", "nosniff"),
            ("X-Frame-Options", "DENY"),
            ("Referrer-Policy", "no-referrer"),
            ("Cross-Origin-Resource-Policy", "same-origin"),
        ):
            self.send_header(name, value)

    def _refuse(self, status: HTTPStatus) -> None:
        """Answers with a status and its words, and ends the connection. What the request brings isn't read."""
        self.close_connection = True
        data = f"{status.value} {status.phrase}\n".encode("ascii")
        self.send_response(status)
        self._say_rules("text/plain; charset=utf-8")
        self.send_header("Connection", "close")
        self.send_header("Content-Length", str(len(data)))
        self.end_headers()
        self.wfile.write(data)
        self.wfile.flush()
        self.connection.shutdown(socket.SHUT_WR)
