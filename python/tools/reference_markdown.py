"""The reference as a document: docs/INSTRUCTIONS.md, which python/tools/make-docs writes."""

from __future__ import annotations

from collections.abc import Iterator

from pevudlo.reference.entry import Entry, Kind
from pevudlo.reference.table import FAMILIES, LETTERS, WORDS
from pevudlo.reference.text import script_lines

HEAD = (
    "# Instructions, each with an example",
    "",
    "<!-- Made by python/tools/make-docs: don't edit. -->",
    "",
    "An example of each instruction to paste: into a file for `./paris FILE`, or into `./paris prompt`. Examples of "
    "each command and of each fault are here too. Behind a line stands as a comment what is answered to it, where "
    "that is more than `ok`, the id of a row, or how many rows were settled. [MACHINE.md](MACHINE.md) says what all "
    "of it means, and [SCRIPTS.md](SCRIPTS.md) how it is written. In `./paris prompt`, `help u-add-3-1L` has the same "
    "text, and in Python `help(paris.u_add)`.",
    "",
    "In most examples a processor isn't selected: its context is 0, and it keeps what it has. The results were "
    "computed from the definitions by a model in Python, and the tests in `python/tests` compare the program's "
    "replies with them.",
)


def link(entry: Entry) -> str:
    """A link to an entry's heading."""
    return f"[`{entry.name}`](#{entry.name.lower()})"


def contents() -> Iterator[str]:
    """A table of the families, with links."""
    yield from ("", "| family | entries |", "|---|---|")
    for family in FAMILIES:
        yield f"| {family.title} | {' '.join(link(entry) for entry in family.entries)} |"


def meanings(title: str, words: dict[str, str]) -> Iterator[str]:
    """A table of the letters or words of spellings."""
    yield from ("", f"| {title} | stands for |", "|---|---|")
    for word, meaning in words.items():
        yield f"| {word} | {meaning} |"


def entry_lines(entry: Entry) -> Iterator[str]:
    """An entry with its example."""
    spellings = ", ".join(f"`{spelling}`" for spelling in entry.spelling.split(", "))
    shown = f"Fault {entry.number}: {spellings}" if entry.kind is Kind.FAULT else spellings
    yield from ("", f"### {entry.name}", "", f"{shown}. {entry.does}")
    if entry.flags:
        yield from ("", f"Flags: {entry.flags}.")
    if entry.example is None:
        yield from ("", "No script shows it.")
        return
    yield from ("", "```", *script_lines(entry.example), "```")


def document() -> str:
    """The whole document."""
    lines = [*HEAD, *contents(), *meanings("letter", LETTERS), *meanings("word", WORDS)]
    for family in FAMILIES:
        lines += ["", f"## {family.title}"]
        for entry in family.entries:
            lines += entry_lines(entry)
    return "\n".join(lines) + "\n"
