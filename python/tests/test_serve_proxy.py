"""A class behind nginx with TLS, by the configuration of docs/SERVE.md and a certificate that is made here."""

from __future__ import annotations

import asyncio
import os
import re
import shutil
import socket
import ssl
import subprocess
import time
from collections.abc import Iterator
from contextlib import contextmanager
from pathlib import Path

import aiohttp
import pytest
from serving import PATIENCE, People, Server, served
from test_serve import EMPTY, EXERCISE, LOOK, ROWS

from pevudlo.wire.program import ROOT

NGINX = shutil.which("nginx") or "/usr/sbin/nginx"
NAME = "paris.school.example"

pytestmark = [
    pytest.mark.usefixtures("libparis"),
    pytest.mark.skipif(not os.access(NGINX, os.X_OK), reason="there is no nginx"),
]


def free_port() -> int:
    """A port that nobody listens at."""
    with socket.socket() as free:
        free.bind(("127.0.0.1", 0))
        return int(free.getsockname()[1])


def certificate(folder: Path) -> None:
    """Makes a certificate for the name."""
    words = f"req -x509 -newkey rsa:2048 -nodes -days 2 -subj /CN={NAME} -addext subjectAltName=DNS:{NAME}"
    line = ["openssl", *words.split(), "-keyout", str(folder / "paris.key"), "-out", str(folder / "paris.pem")]
    subprocess.run(line, check=True, capture_output=True, timeout=60)


def configured(folder: Path, port: int, behind: int) -> Path:
    """The configuration of the page, with the ports and files of this test."""
    (block,) = re.findall(r"^```nginx\n(.*?)^```$", (ROOT / "docs/SERVE.md").read_text(), re.M | re.S)
    for word, other in (
        ("listen 443 ssl", f"listen 127.0.0.1:{port} ssl"),
        ("/etc/ssl/paris", f"{folder}/paris"),
        ("http://127.0.0.1:8600", f"http://127.0.0.1:{behind}"),
    ):
        assert word in block
        block = block.replace(word, other)
    paths = "".join(
        f"{kind}_temp_path {folder}/{kind};" for kind in ("client_body", "proxy", "fastcgi", "uwsgi", "scgi")
    )
    head = (
        f"daemon off; pid {folder}/pid; error_log {folder}/errors; events {{}} http {{ access_log {folder}/log; {paths}"
    )
    file = folder / "nginx.conf"
    file.write_text(f"{head}\n{block}}}\n")
    return file


@contextmanager
def proxy(folder: Path, port: int, behind: int) -> Iterator[None]:
    """nginx at a port, before a server at another one."""
    certificate(folder)
    with subprocess.Popen([NGINX, "-p", folder, "-c", configured(folder, port, behind)]) as process:
        try:
            until = time.monotonic() + PATIENCE
            while not (folder / "pid").exists() and time.monotonic() < until:
                time.sleep(0.05)
            yield
        finally:
            process.terminate()
            process.wait(PATIENCE)


class ToHere(aiohttp.abc.AbstractResolver):
    """Finds every name on this machine."""

    async def resolve(self, host: str, port: int = 0, family: int = socket.AF_INET) -> list[dict[str, object]]:
        found = {"hostname": host, "host": "127.0.0.1", "port": port, "family": family, "proto": 0, "flags": 0}
        return [found]

    async def close(self) -> None:
        """Nothing is held."""


def test_a_class_works_behind_nginx_with_tls(tmp_path: Path) -> None:
    port, behind = free_port(), free_port()
    origin = f"https://{NAME}:{port}"
    words = ("--class", "2", EXERCISE, "--port", behind, "--origin", origin)
    with served(*map(str, words), cwd=tmp_path) as server, proxy(tmp_path, port, behind):
        assert server.base == origin
        asyncio.run(lesson(server, tmp_path, behind))
    # No token is in a log of the proxy.
    log = (tmp_path / "log").read_text()
    assert '"GET /seat HTTP/1.1" 101' in log and server.teacher not in log


def session_of(folder: Path) -> aiohttp.ClientSession:
    """A session that trusts the certificate, within a loop."""
    context = ssl.create_default_context(cafile=str(folder / "paris.pem"))
    return aiohttp.ClientSession(connector=aiohttp.TCPConnector(ssl=context, resolver=ToHere(), use_dns_cache=False))


async def lesson(server: Server, folder: Path, behind: int) -> None:
    """A student works, and who teaches sees it; who comes past the proxy is refused."""
    async with session_of(folder) as session:
        people = People(server, session)
        teacher, ann = await people.sit(server.teacher), await people.join("Ann")
        assert "n" in await ann.insert(EMPTY, *ROWS)
        await ann.look()
        await ann.until(lambda: ann.sees(LOOK + len(ROWS)) == ["9 2 7 50"])
        await teacher.until(lambda: [sign for sign, _ in teacher.states["board1"]["checks"]] == ["✓"])
        async with session.get(f"{server.base}/") as response:
            assert response.status == 200 and "seats.js" in await response.text()
        async with session.get(f"http://127.0.0.1:{behind}/") as response:
            assert response.status == 403
        for client in people.clients:
            await client.close()
