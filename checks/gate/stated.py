"""What a crate's proofs may rest on in the crates below it, as pieces of their text.

Definitions and lemmas are cited by their names, which a `use` of the file brings from the file that declares them. Of the code below a crate
sees types, their methods and public functions, with their contracts, and no private function. So its proofs rest on the pieces that its own
files cite, on what these cite, and so on. A word in code may name a type in the same crate, or in one that its line in crates.txt names, and
in a body a function or a method too: it brings all of that name there. A contract calls none. Of a private field its type counts, and what
that has in turn: threads may share a type or not by what it is made of.
"""

import re
from collections.abc import Iterable, Iterator
from dataclasses import dataclass, field
from functools import cache

WORD = re.compile(r"[^\W\d][\w']*(?:-\w[\w']*)*")
# What begins at a line of Rust: the blanks and words before, the kind, and the rest.
ITEM = re.compile(r"^( *)((?:pub(?:\(\w+\))? |unsafe |async |const |ghost |extern )*)(use|mod|struct|enum|trait|impl|const|static|type|fn)\b(.*)$")
# The types and traits that only their own crate sees.
OWN = re.compile(r"^(?:pub\(\w+\) )?(?:struct|enum|trait) (\w+)", re.M)
# What a type or a trait says of itself in a proof.
GHOST = re.compile(r"^( +)(ghost )(?!use )(\w+)(.*)$")
# Of these what speaks of private fields.
INSIDE = ("view", "invariant")
# What a paragraph of definitions declares: names before a colon, and the first word of an equation.
DECLARED = re.compile(r"^ *(?:(?:abbrev|unfoldable|opaque|record|data|pub) )*([^\s:(){}=]+)(?: [^:=\n]*)? :(?!=)|^([^\s:(){}=]+)[^\n:]* =", re.M)
# A `use` of names: of definitions, or of code.
USED = re.compile(r"\buse (?:Rattle\.)?([\w.:]+?)(?:\.|::)(?:\{([^}]*)\}|(\w+)(?= *(?:;|$| as )))", re.M)
# A field of a struct that only its own crate sees.
PRIVATE = re.compile(r" +(?!pub )(?:pub\(\w+\) )?(?:ghost )?\w+:")
# Words of an item's first line that name nothing.
KEYWORDS = frozenset({"impl", "for", "where", "unsafe", "const", "dyn", "mut"})
# A definition or a lemma by its whole name, as in a tactic of a function.
WHOLE = re.compile(r"(\w+(?:\.|::)(?:specs|proofs)(?:\.|::)[\w.:]*\w)(?:\.|::)([^\W\d][\w'-]*)")
CODE, CALLS, FIELDS = "code", "calls", "fields"


@dataclass(frozen=True)
class Piece:
    """A text, and the names by which it is cited. One without names goes with each of its module. What says how a type has a trait of the
    same crate is cited by the trait."""

    names: frozenset[str]
    text: str
    trait: str = ""
    is_called: bool = False
    is_impl: bool = False
    # Whether it is the types of private fields.
    is_made_of: bool = False


@dataclass
class Source:
    """A file of definitions, of lemmas or of code, by the name under which others cite it: `crate.specs.File`, or `crate.code`."""

    crate: str
    module: str
    text: str
    uses: dict[str, set[str]] = field(default_factory=dict)
    pieces: list[Piece] = field(default_factory=list)

    def __post_init__(self) -> None:
        for path, names, name in USED.findall(self.text):
            for word in (names or name).split(","):
                self.uses.setdefault(word.strip(), set()).add(path)
        self.pieces = [*(of_code if self.module.endswith(CODE) else of_definitions)(self.text)]


@cache
def words_of(text: str) -> frozenset[str]:
    """The words of a text, with the parts of those that have hyphens, and with its operators."""
    found = frozenset(part for word in WORD.findall(text) for part in (word, *word.split("-")))
    return found | {word for word in text.split() if not word.isalnum()}


def names_of(declared: Iterable[str]) -> frozenset[str]:
    """Names as they stand where they are used: of an operator its signs."""
    return frozenset(part for name in declared for part in name.split("◌") if part)


def of_definitions(text: str) -> Iterator[Piece]:
    """The pieces of a file of definitions or lemmas: each begins at a line that no blank begins."""
    begun: list[str] = []
    for line in [*text.split("\n"), "end"]:
        if line[:1] not in (" ", "", "}", ")", "]") and not line.startswith("--"):
            part, begun = "\n".join(begun), []
            if part and not re.match(r"(pub )?(use|mod) ", part):
                yield Piece(names_of(one or other for one, other in DECLARED.findall(part)), part)
        if line.strip() and not line.lstrip().startswith("--"):
            begun.append(line)


def of_code(text: str) -> Iterator[Piece]:
    """The pieces of a file of Rust whose functions have no bodies, without its private functions."""
    head, outer, begun, before = "", "", [""], list[str]()
    for line in [*text.split("\n"), "mod end"]:
        found = ITEM.match(line) or (GHOST.match(line) if "impl" in outer or "trait " in outer else None)
        if found:
            yield from of_item(head, outer, "\n".join(begun))
            head, begun, before = line, before, []
            outer = line if not found[1] else outer
        (before if line.lstrip().startswith("#[") else begun).append(line)


def of_item(head: str, outer: str, text: str) -> Iterator[Piece]:
    """The piece of an item, by its first line and by that of the item in which it lies."""
    found = ITEM.match(head) or GHOST.match(head)
    _, before, kind, rest = found.groups() if found else ("", "", "use", "")
    has = re.match(r"(?:unsafe )?impl\b.*?(\w+) for (.*)", without_arguments(outer))
    own = re.match(r"(?:pub(?:\(\w+\))? )?(?:unsafe )?trait (\w+)", outer)
    if kind == "use":
        names = (it.strip() for path, some, one in USED.findall(text) for it in (some or one).split(",") if before.startswith("pub "))
        yield from (Piece(frozenset({name}), f"use {path} {name}") for path, _, _ in USED.findall(text) for name in names)
    elif has and kind not in INSIDE:
        yield Piece(frozenset(WORD.findall(has[2])) - KEYWORDS, text, has[1], is_impl=True)
    elif own:
        yield Piece(frozenset({own[1]}), text)
    elif kind == "impl":
        yield Piece(frozenset(WORD.findall(without_arguments(rest))) - KEYWORDS, text, is_impl=True)
    elif before.startswith("pub ") and kind != "mod":
        yield Piece(frozenset(WORD.findall(rest)[:1]), without_private_fields(text) if kind == "struct" else text, is_called=kind == "fn")
    if kind in ("struct", "enum"):
        yield Piece(frozenset(WORD.findall(rest)[:1]), types_of_private_fields(text), is_made_of=True)


def without_arguments(text: str) -> str:
    """A type's name, or an `impl`, without what stands between angle brackets."""
    shorter = re.sub(r"<[^<>]*>", "", text)
    return shorter if shorter == text else without_arguments(shorter)


def without_private_fields(text: str) -> str:
    """A struct without the fields that only its own crate sees."""
    return "\n".join(line for line in text.split("\n") if not PRIVATE.match(line))


def types_of_private_fields(text: str) -> str:
    """The types of these fields, and of an enum that only its own crate sees what it has: whether threads may share it goes by them."""
    if re.search(r"^(?!pub )(pub\(\w+\) )?enum ", text, re.M):
        return text
    return "\n".join(sorted({line.partition(":")[2].strip() for line in text.split("\n") if PRIVATE.match(line)}))


def handed_on(direct: dict[str, list[str]], crate: str, sources: list[Source]) -> list[str]:
    """The crates that a crate names, and those of which these hand names on by `pub use`."""
    named, wanted = list[str](), [*direct[crate]]
    while wanted:
        named.append(wanted.pop())
        text = "\n".join(source.text for source in sources if source.crate == named[-1] and source.module.endswith(CODE))
        wanted += {it for it in re.findall(r"^pub use (\w+)::", text, re.M) if it in direct} - {*named, *wanted}
    return named


class Stated:
    """What the crates state, by the names under which it is cited."""

    def __init__(self, direct: dict[str, list[str]], sources: Iterable[Source]) -> None:
        sources = [*sources]
        self.direct = {crate: handed_on(direct, crate, sources) for crate in direct}
        self.found: dict[str, dict[str, list[tuple[Source, Piece]]]] = {}
        traits = {(source.crate, trait) for source in sources for trait in re.findall(r"\btrait (\w+)", source.text)}
        own = {(source.crate, name) for source in sources for name in OWN.findall(source.text)}
        for source in sources:
            for piece in source.pieces:
                if piece.is_impl and any((source.crate, name) in own for name in piece.names):
                    continue
                part = CALLS if piece.is_called else FIELDS if piece.is_made_of else ""
                module = f"{source.crate}.{part}" if part else source.module
                for name in {piece.trait} if (source.crate, piece.trait) in traits else piece.names or {""}:
                    self.found.setdefault(module, {}).setdefault(name, []).append((source, piece))

    def cites(self, source: Source, text: str, more: Iterable[str] = ()) -> Iterator[tuple[str, str]]:
        """The modules and names that the words of a text in a file may stand for, and some words more."""
        words = words_of(text).union(more)
        yield from ((source.module, word) for word in ("", *words))
        whole = [(path.replace("::", "."), word) for path, word in WHOLE.findall(text)]
        for path, word in (*whole, *((path, word) for word in words for path in source.uses.get(word, ()))):
            crate, _, declared = path.partition(".specs.declared.")
            yield from ((f"{crate}.{CODE}", part) for part in (*declared.split("."), word)) if declared else [(path, word)]
        if source.module.endswith(CODE):
            yield from ((f"{crate}.{CODE}", word) for crate in self.direct[source.crate] for word in words)

    def made_of(self, source: Source, names: Iterable[str]) -> Iterator[tuple[str, str]]:
        """The private fields of the types of some names, in a file's crate and in those that this one cites."""
        crates = (source.crate, *self.direct[source.crate])
        return ((f"{crate}.{FIELDS}", name) for crate in crates for name in names)

    def calls(self, source: Source, text: str) -> Iterator[tuple[str, str]]:
        """The functions and methods that a text of code with bodies may call."""
        crates = self.direct[source.crate] if source.module.endswith(CODE) else []
        return ((f"{crate}.{CALLS}", word) for crate in (source.crate, *crates) for word in words_of(text))

    def from_piece(self, source: Source, piece: Piece) -> Iterator[tuple[str, str]]:
        """What a piece cites in turn."""
        if piece.is_made_of:
            yield from self.made_of(source, WORD.findall(piece.text))
            return
        yield from self.cites(source, piece.text)
        yield from self.made_of(source, piece.names)
        if "const fn" in piece.text or "⟦" in piece.text:
            yield from self.calls(source, piece.text)

    def cited(self, crate: str, own: Iterable[Source]) -> list[str]:
        """The texts that a crate of these files may rest on, in the crates below."""
        own = [*own]
        wanted = {cite for source in own for cite in (*self.cites(source, source.text, source.uses), *self.calls(source, source.text))}
        seen, texts = set[tuple[str, str]](), set[str]()
        while wanted:
            module, name = wanted.pop()
            seen.add((module, name))
            for source, piece in self.found.get(module, {}).get(name, ()):
                if source.crate != crate:
                    text = f"{module} {piece.text}"
                    wanted |= set() if text in texts else {*self.from_piece(source, piece)} - seen
                    texts.add(text)
        return sorted(texts)
