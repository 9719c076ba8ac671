"""The prompt's help: its own words, and every command, instruction and fault from the reference."""

from __future__ import annotations

from collections.abc import Iterable
from dataclasses import dataclass

from pevudlo.draw.visible import visible
from pevudlo.hints.meanings import Where, begun_with, meaning_of
from pevudlo.hints.mnemonics import instruction_meant
from pevudlo.hints.terms import MEANT
from pevudlo.hints.words import nearest
from pevudlo.lang.grammar import COMMANDS
from pevudlo.reference import idioms
from pevudlo.reference.table import ENTRIES, FAMILIES, find
from pevudlo.reference.page_text import shown
from pevudlo.reference.text import WIDTH, help_lines, wrapped


@dataclass(frozen=True)
class OwnWord:
    """A word that the prompt itself answers, and the program isn't told."""

    name: str
    spelling: str
    does: str


def way(name: str, words: str) -> OwnWord:
    """A way to show values."""
    return OwnWord(
        name,
        f"{name} [KEY [start | after ROW | end]]",
        f"Shows values {words}. With a key it shows that one so, once: at the end, or where is said.",
    )


OWN_WORDS = (
    OwnWord(
        "help",
        "help [WORD]",
        "Says what there is; or all of a command, an instruction or a fault, with an example: `help show`, "
        "`help u-add-3-1L`, `help BadLength`, `help 12`. A part of a name lists the names that have it: `help scan`. "
        "Words of other languages go by their meaning, and idioms by their titles: `help if`, `help reverse`.",
    ),
    way("grid", "in the shape of their set, axis 0 across and axis 1 down"),
    way("line", "in the line of the reply"),
    way("unsigned", "as the program answers them, unsigned"),
    way("signed", "as signed numbers, in two's complement of the key's width"),
    way("hex", "in hex"),
    way("bits", "as bits"),
    OwnWord(
        "load",
        "load FILE",
        "Tells the lines of a script as if they were typed. Refused lines are explained, and the others go on.",
    ),
    OwnWord(
        "save",
        "save FILE",
        "Saves the accepted commands as a script that gives the same state. What the file held before stays as FILE~.",
    ),
    OwnWord("new", "new", "Begins anew, with nothing declared."),
    OwnWord("undo", "undo", "Takes the last edit back, with the results that were there before it."),
    OwnWord("redo", "redo", "Makes the edit again that was taken back last."),
    OwnWord(
        "start",
        "start",
        "Rows run by themselves from now on, while lines are typed. The terminal's foot says how many are settled.",
    ),
    OwnWord("stop", "stop", "Rows run by themselves no more. Those that run now are waited for, and kept."),
    OwnWord(
        "again",
        "again",
        "Starts the program again and tells it the accepted commands: after it has ended, or was interrupted by "
        "Ctrl-C.",
    ),
    OwnWord("quit", "quit", "Ends the prompt, as Ctrl-D does. Where commands aren't saved, it asks for a second one."),
)
OWN = {word.name: word for word in OWN_WORDS}


def overview(width: int) -> list[str]:
    """What there is."""
    lines = ["Lines are told to the program, but for these words:"]
    wide = max(len(word.name) for word in OWN_WORDS)
    for word in OWN_WORDS:
        lines.append(f"  {word.name.ljust(wide)}  {word.does.split('. ')[0].split(': ')[0].rstrip('.;')}")
    return [*lines, *known_words(width), "`help WORD` says more of each. The key Tab completes words."]


def known_words(width: int) -> list[str]:
    """The names of all entries of the reference, by their families, and the titles of all idioms, in lines."""
    lines = []
    for family in FAMILIES:
        names = " ".join(entry.name for entry in family.entries)
        lines += [f"{family.title}:", *(f"  {line}" for line in wrapped(names, width=width))]
    return [*lines, "Idioms:", *(f"  {line}" for line in wrapped("; ".join(idioms.TITLES), width=width))]


def known_names() -> list[str]:
    """All that `help` knows by name."""
    return [*OWN, *(entry.name for entry in ENTRIES)]


def named(names: Iterable[str], width: int) -> list[str]:
    """Names in lines."""
    return [f"  {line}" for line in wrapped(" ".join(names), width=width)]


def help_for(word: str, width: int = WIDTH) -> list[str]:
    """What there is to say of a word, in lines. Texts are wrapped at `width`, and stand in by two."""
    if not word:
        return overview(width)
    if word in OWN:
        return [OWN[word].spelling, *(f"  {line}" for line in wrapped(OWN[word].does, width=width))]
    if lines := known_help(word, width):
        return lines
    near = nearest(word, known_names())
    more = f"did you mean `{near}`?" if near else "`help` alone lists what there is"
    return [f"there is no help for `{visible(word)}`: {more}"]


def known_help(word: str, width: int = WIDTH) -> list[str]:
    """What there is to say of a word that isn't the prompt's own, in lines. Empty where there is nothing."""
    found = find(word)
    if found:
        return [line for entry in found for line in help_lines(entry, width)]
    if lines := [*meaning_lines(word, width), *names_with(word, width)]:
        return lines
    said = meaning_of(word) or begun_with(word, Where.PROMPT)
    return said_lines(word, said, width) if said else []


def meaning_lines(word: str, width: int) -> list[str]:
    """What a word of other languages means here, in lines, with the idioms that show it; the idiom of a title; or the
    instruction that a name means. Empty where it is nothing of these.
    """
    if term := MEANT.get(word.lower()):
        shown = [line for idiom in term.idioms for line in idiom_lines(idiom.value, width)]
        return [*said_lines(word, term.said, width), *shown]
    if title := idioms.find(word):
        return idiom_lines(title, width)
    if name := instruction_meant(word):
        return [f"`{visible(word)}` is `{name}`:", *(line for entry in find(name) for line in help_lines(entry, width))]
    return []


def said_lines(word: str, said: str, width: int) -> list[str]:
    """What is said of a word, in lines."""
    return wrapped(f"{visible(word)}: {said}", "  ", width)


def idiom_lines(title: str, width: int) -> list[str]:
    """An idiom in lines: its title, and its section where the page is at hand."""
    return [title, *shown(idioms.sections().get(title, ""), width)]


def names_with(word: str, width: int) -> list[str]:
    """The names that have a word in them, in lines."""
    meant = instruction_meant(word)
    parts = [name for name in known_names() if word.lower() in name.lower() and name != meant]
    return [f"these have `{visible(word)}` in their names:", *named(parts, width)] if parts else []


def own_word_for(word: str) -> str | None:
    """The word of the prompt's own that was perhaps meant by one that begins no command, or None."""
    near = nearest(word, [*COMMANDS, *OWN])
    return near if near in OWN else None
