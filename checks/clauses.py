"""The public functions of a crate with the labels of their clauses, from the text of its sources."""

import re
from collections.abc import Iterator
from dataclasses import dataclass
from functools import cache
from pathlib import Path

OWNER = re.compile(r"^(?:unsafe )?impl\b(?P<impl>.*)|^(?:pub(?:\(\w+\))? )?(?:unsafe )?trait (?P<trait>\w+)")
FUNCTION = re.compile(r'^( *)(pub(?:\(\w+\))? )?(?:const |unsafe |extern "C" )*fn (\w+)')
CLAUSE = re.compile(r"^ *ensures\*?(?: (\w+))? \{")
# What a trait asks of its types.
LAW = re.compile(r"^ +ghost (\w+): \{")
# What the root of a crate hands out by name.
HANDED_OUT = re.compile(r"^pub use [\w:]+::(?:\{([^}]*)\}|(\w+))", re.M)


@dataclass
class Contract:
    """A function or a method, the type or trait that it is of, whether it may be public, and the labels of its clauses ("" without one). What
    a trait asks of its types is a contract of the trait's name."""

    owner: str
    name: str
    is_public: bool
    labels: set[str]


def owner_of(header: str) -> str:
    """The name of the type behind an `impl`."""
    shorter = re.sub(r"<[^<>]*>", "", header)
    if shorter != header:
        return owner_of(shorter)
    words = re.findall(r"\w+", header.split(" where ")[0].rpartition(" for ")[2])
    return words[0] if words else ""


def contracts_in(text: str) -> Iterator[Contract]:
    owner, last = "", None
    for line in text.splitlines():
        head, function, clause, law = (it.match(line) for it in (OWNER, FUNCTION, CLAUSE, LAW))
        if head:
            owner = head["trait"] or owner_of(head["impl"])
        elif line.startswith("}"):
            owner = ""
        elif function:
            last = Contract(owner if function[1] else "", function[3], function[2] == "pub ", set())
            yield last
        elif clause and last:
            last.labels.add(clause[1] or "")
        elif law and owner:
            yield Contract(owner, owner, False, {law[1]})


@cache
def contracts(root: Path, crate: str) -> list[Contract]:
    files = sorted((root / "crates" / crate / "src").rglob("*.rt"))
    return [it for file in files for it in contracts_in(file.read_text())]


def handed_out(root: Path, crate: str) -> list[Contract]:
    """The functions that the root of a crate hands out, and the public methods of the types that it does, where they have clauses."""
    text = (root / "crates" / crate / "src" / "lib.rt").read_text()
    names = {name.strip() for some, one in HANDED_OUT.findall(text) for name in (some or one).split(",")}
    return [it for it in contracts(root, crate) if it.is_public and it.labels and (it.owner or it.name) in names]
