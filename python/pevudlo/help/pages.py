"""The pages that come with the project: where they are, and their parts."""

from __future__ import annotations

import re
from dataclasses import dataclass
from pathlib import Path

from pevudlo.reference.page_text import HEADING
from pevudlo.wire.program import PACKAGE, ROOT

# Where an installed package has them, laid out as in the repository.
CARRIED = PACKAGE / "pages"


@dataclass(frozen=True)
class Part:
    """A heading with all below it, up to the next one that is as high."""

    heading: str
    text: str


@dataclass(frozen=True)
class Page:
    """A page by the name under which it is asked for, in small letters."""

    name: str
    path: Path

    @property
    def text(self) -> str:
        return self.path.read_text(encoding="utf-8")

    @property
    def title(self) -> str:
        return self.text.partition("\n")[0].removeprefix("# ")

    def parts(self) -> list[Part]:
        """The parts below its title, in their order. A part of a part stands in both."""
        lines = self.text.splitlines()
        found: list[tuple[int, int, str]] = []
        is_code = False
        for place, line in enumerate(lines):
            is_code ^= line.startswith("```")
            heading = None if is_code else HEADING.match(line)
            if heading:
                found.append((place, len(heading[1]), heading[2]))
        ends = [
            next((begin for begin, high, _ in found[number + 1 :] if high <= depth), len(lines))
            for number, (_, depth, _) in enumerate(found)
        ]
        return [
            Part(plain_words(name), "\n".join(lines[begin:end]))
            for (begin, _, name), end in list(zip(found, ends, strict=True))[1:]
        ]

    def parts_named(self, words: str) -> list[Part]:
        """Those with some words in their headings. One whose heading is just these comes alone."""
        asked = words.lower()
        named = [part for part in self.parts() if asked in part.heading.lower()]
        return [part for part in named if part.heading.lower() == asked][:1] or named


def plain_words(text: str) -> str:
    """A line without the signs of a link, of code and of strong words."""
    return re.sub(r"\[([^\]]*)\]\([^)]*\)", r"\1", text).replace("`", "").replace("**", "")


def folder() -> Path | None:
    """The folder that has README and `docs/`: an installed package's own, or the repository's. None where none is."""
    if (CARRIED / "docs").is_dir():
        return CARRIED
    return ROOT if (ROOT / "docs").is_dir() and (ROOT / "dist" / "sums").is_file() else None


def pages() -> dict[str, Page]:
    """The pages by their names, README first and `examples` last. Empty where this package stands alone in a folder."""
    top = folder()
    if top is None:
        return {}
    files = [top / "README.md", *sorted((top / "docs").glob("*.md"))]
    found = {file.stem.lower(): Page(file.stem.lower(), file) for file in files if file.is_file()}
    examples = top / "examples" / "README.md"
    return found | ({"examples": Page("examples", examples)} if examples.is_file() else {})
