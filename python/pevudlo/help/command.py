"""`paris help [TOPIC ..]`: shows a page or a part of it, or what there is to say of a word, in the terminal."""

from __future__ import annotations

import argparse
import pydoc
import shutil
import sys

from pevudlo.draw.visible import visible
from pevudlo.help.pages import Page, pages
from pevudlo.hints.words import nearest
from pevudlo.prompt.help import OWN, help_for, known_help, known_words
from pevudlo.reference.page_text import shown

DOES = (
    "Shows a page: `paris help lesson`. Behind its name, words of a heading show that part alone: `paris help machine "
    "cut-off`. Of another word it says what there is: a command, an instruction, a fault, or what serves for it."
)
MOST_WIDTH = 100


def arguments() -> argparse.ArgumentParser:
    """The reader of the command's words."""
    usage = "paris help [-h] [TOPIC ..]"
    parser = argparse.ArgumentParser(prog="paris help", usage=usage, description=DOES, allow_abbrev=False)
    parser.add_argument("topic", nargs="*", metavar="TOPIC", help="a page, and words of a heading; or a word")
    return parser


def overview(known: dict[str, Page], width: int) -> list[str]:
    """What there is: pages, and what words may be asked for."""
    wide = max((len(name) for name in known), default=0)
    lines = ["Pages, by `paris help PAGE`:"] if known else ["No pages were installed with this package."]
    lines += [f"  {name.ljust(wide)}  {page.title}" for name, page in known.items()]
    lines += ["", "Commands, instructions, faults and idioms, by `paris help WORD`:"]
    return [*lines, *known_words(width)]


def of_page(page: Page, words: str, width: int) -> list[str] | None:
    """A page, or the parts of it with some words in their headings; None where none has them."""
    if not words:
        return shown(page.text, width)
    found = page.parts_named(words)
    return [line for part in found for line in shown(part.text, width)] or None


def mentions(known: dict[str, Page], words: str) -> list[str]:
    """Which parts of pages have some words in their headings, as one asks for them."""
    found = [(page.name, part.heading) for page in known.values() for part in page.parts_named(words)]
    return [f"  paris help {name} {heading}" for name, heading in dict.fromkeys(found)]


def of_word(known: dict[str, Page], words: str, width: int) -> tuple[list[str], bool]:
    """What there is to say of a word that is no page, and whether there was anything."""
    said = ["In the prompt:", *help_for(words, width)] if words in OWN else known_help(words, width)
    parts = mentions(known, words)
    if parts:
        said += ["", "In the pages:", *parts] if said else ["In the pages:", *parts]
    if said:
        return said, True
    near = nearest(words, [*known])
    more = f"did you mean `{near}`?" if near else "`paris help` alone lists what there is"
    return [f"there is no help for `{visible(words)}`: {more}"], False


def answer(topic: list[str], width: int) -> tuple[list[str], bool]:
    """The lines to show, and whether the topic is known."""
    known = pages()
    if not topic:
        return overview(known, width), True
    page = known.get(topic[0].lower())
    lines = of_page(page, " ".join(topic[1:]), width) if page else None
    return (lines, True) if lines is not None else of_word(known, " ".join(topic), width)


def main(words: list[str]) -> int:
    """Shows the topic, page by page on a terminal. The exit status is 1 where there is no help for it."""
    topic = arguments().parse_args(words).topic
    width = min(shutil.get_terminal_size().columns, MOST_WIDTH)
    lines, is_there = answer(topic, width)
    text = "\n".join([*lines, ""])
    if not is_there:
        print(text, end="", file=sys.stderr)
        return 1
    if sys.stdout.isatty():
        pydoc.pager(text)
    else:
        print(text, end="")
    return 0
