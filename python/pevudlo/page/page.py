"""A script as one HTML file that needs no network: the client of the live page, with its data in the file.

Each number on it is from a reply of the program.
"""

from __future__ import annotations

import base64
import hashlib
import json
import re
from collections.abc import Iterable
from dataclasses import dataclass
from urllib.parse import quote

from pevudlo.draw.visible import visible
from pevudlo.client.files import MODULES, PLACE, client_file
from pevudlo.client.news import News, grammar
from pevudlo.page.moments import MOST_NUMBERS, Moments
from pevudlo.progress import PROGRESS, Progress
from pevudlo.wire.peers import Peer

STYLE = '<link rel="stylesheet" href="client.css">'
SCRIPT = '<script type="module" src="main.js"></script>'
LIVE = ("text",)
"""What a page without a server has no use for."""

PREFIX = "pevudlo/"
SAFE = " !$&'()*+,/:;=?@[]^`{|}~\\"
"""What stands in such an address as it is."""


@dataclass
class Page:
    """A page: its title and the moments of its script."""

    title: str
    moments: Moments

    def data(self) -> News:
        """What the page shows."""
        first = {**self.moments.moments[0]}
        values = {"block": base64.b64encode(bytes(self.moments.block)).decode("ascii")}
        hello: News = {"hello": self.title, "grammar": grammar(), **self.moments.board_news}
        state: News = {"version": 1, "edits": 0, "line": "", "on": False, "out": 0, "text": 0}
        begun = {name: first[name] for name in ("order", "texts", "un", "given", "faults")}
        told: News = {"intro": self.moments.intro, "left": self._left_out()}
        return {"hello": {**hello, **state, **begun}, "moments": self.moments.moments, **told, **values}

    def _left_out(self) -> str:
        """What isn't shown of a large program, and how it would be."""
        count, numbers = self.moments.left_out, self.moments.numbers
        if not count:
            return ""
        runs = "1 run of a row is" if count == 1 else f"{count:,} runs of rows are"
        more = f"`--draw {max(1000, numbers * 10)}` draws more"
        return f"{runs} not drawn: the page draws {numbers:,} numbers at most, and {more}."

    def html(self) -> str:
        """The whole page."""
        data = json.dumps(self.data(), separators=(",", ":")).replace("<", "\\u003c")
        modules = [name for name in MODULES if name not in LIVE]
        names = json.dumps({"imports": {f"{PREFIX}{name}.js": module_address(name) for name in modules}})
        begin = f'import "{PREFIX}main.js";'
        scripts = f'<script type="importmap">{names}</script><script type="application/json" id="data">{data}</script>'
        page = (
            text_of("")
            .replace(PLACE, "")
            .replace(STYLE, f"{policy((names, begin))}<style>{text_of('client.css')}</style>")
        )
        return page.replace(SCRIPT, f'{scripts}<script type="module">{begin}</script>')


def text_of(name: str) -> str:
    """A file of the client."""
    data = client_file(name)
    assert data is not None
    return data.decode()


def module_address(name: str) -> str:
    """A module as an address that has it all, without its comments. It takes others by names, since such an address
    has no folder."""
    text = re.sub(r"^\s*(/\*\*.*?\*/|//[^\n]*)\n", "", text_of(f"{name}.js"), flags=re.S | re.M)
    text = re.sub(r'(from |import\()"\./(\w+\.js)"', rf'\1"{PREFIX}\2"', text)
    return "data:text/javascript;charset=utf-8," + quote(text, SAFE)


def policy(scripts: Iterable[str]) -> str:
    """What the page may do, as a browser is told: it loads nothing, and runs its own scripts alone."""
    sums = (base64.b64encode(hashlib.sha256(script.encode()).digest()).decode("ascii") for script in scripts)
    allowed = " ".join(f"'sha256-{each}'" for each in sums)
    text = "default-src 'none'; img-src data:; style-src 'unsafe-inline'; base-uri 'none'; form-action 'none'; "
    return f'<meta http-equiv="Content-Security-Policy" content="{text}script-src data: {allowed}">'


def page_of(
    title: str, lines: Iterable[str], peer: Peer, told: Progress = PROGRESS, numbers: int = MOST_NUMBERS
) -> Page:
    """The page of a script that is run by this peer, with so many numbers at most."""
    moments = Moments(peer, told, numbers)
    moments.run(lines)
    return Page(visible(title), moments)
