"""The client's own files, which a server gives out by their names. It draws a program from what it is told."""

from __future__ import annotations

from functools import cache
from importlib import resources

MODULES = tuple("main view model link draw values list rows map panel edit keys text".split())
NAMES = frozenset({"", "client.css", *(f"{name}.js" for name in MODULES)})
KINDS = {
    "": "text/html; charset=utf-8",
    "js": "text/javascript; charset=utf-8",
    "css": "text/css; charset=utf-8",
}
POLICY = (
    "default-src 'none'; script-src 'self'; style-src 'self'; connect-src 'self'; img-src data:; base-uri 'none'; "
    "form-action 'none'"
)
"""What the page may do: it loads nothing but its own files, and runs nothing that is written in it."""


PLACE = "<!-- text -->"
TEXT = """<section id="file" aria-label="The file"><h2>The file <small id="ran"></small></h2>
<div class="sheets">
<textarea id="text" wrap="off" spellcheck="false" autocomplete="off" aria-label="The text of the file"></textarea>
<div id="beside" aria-label="What each line gives"></div></div><div id="text-answer" role="alert"></div></section>"""


@cache
def client_file(name: str, is_followed: bool = False) -> bytes | None:
    """A file of the client, the page itself where no name is said. None where it has none of this name.

    The page of a file that is followed has the file's text.
    """
    if name not in NAMES:
        return None
    data = (resources.files("pevudlo") / "static" / (name or "client.html")).read_text("utf-8")
    return data.replace(PLACE, TEXT if is_followed else "").encode()
