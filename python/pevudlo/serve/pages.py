"""The files of the pages, which are given out by their names, and what a page may do."""

from __future__ import annotations

from functools import cache
from importlib import resources

MODULES = ("seats", "seat_link", "sheet", "board", "entries", "shown")
NAMES = frozenset({"", "seats.css", *(f"{name}.js" for name in MODULES)})
KINDS = {"": "text/html", "js": "text/javascript", "css": "text/css"}
POLICY = (
    "default-src 'none'; script-src 'self'; style-src 'self'; connect-src 'self'; img-src data:; base-uri 'none'; "
    "form-action 'none'; frame-ancestors 'none'"
)
"""A page loads nothing but its own files, runs nothing that is written in it, and stands in no other page."""

HEADERS = {
    "Cache-Control": "no-store",
    "Content-Security-Policy": POLICY,
    "X-Content-Type-Options": "nosniff",
    "X-Frame-Options": "DENY",
    "Referrer-Policy": "no-referrer",
    "Cross-Origin-Resource-Policy": "same-origin",
    "Cross-Origin-Opener-Policy": "same-origin",
}


@cache
def page_file(name: str) -> tuple[bytes, str] | None:
    """A file of the pages with its kind, the page itself where no name is said. None where there is none."""
    if name not in NAMES:
        return None
    data = (resources.files("pevudlo") / "static" / (name or "seats.html")).read_bytes()
    return data, KINDS[name.rpartition(".")[2] if name else ""]
