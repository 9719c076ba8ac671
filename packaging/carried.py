"""What the built program and the library carry of the toolchain's crates: names, ports, and licences."""

from __future__ import annotations

import re
import shutil
import subprocess
from dataclasses import dataclass
from functools import cache
from pathlib import Path
from typing import Iterable

ROOT = Path(__file__).resolve().parent.parent
# The crates that make what dist/ holds: the program and the library for C.
MADE = ("paris_front", "paris_c")
PORT = re.compile(
    r"Rust crate `(?P<name>[a-z_-]+)`(?: (?P<version>\d[\d.]*\d))?"
    r"(?: \((?P<licence>[A-Za-z0-9.-]+ or (?:Apache 2\.0|[A-Za-z0-9.-]+)))?"
)
# Words that the text of a licence has, by its name in SPDX.
WORDS = {"MIT": "Permission is hereby granted", "Apache-2.0": "Apache License"}


@dataclass(frozen=True)
class Carried:
    """A crate of the toolchain whose code may be in what is built."""

    name: str
    # The crate that it is a port of, and that one's version where its page says so. Neither where it is no port.
    port: str | None
    version: str | None
    # Its licence, as SPDX writes it, or None where no text stands beside its sources.
    licence: str | None
    # File names and texts of the licences that stand beside its sources.
    licences: tuple[tuple[str, str], ...]


@cache
def kit() -> Path:
    """The toolchain's folder. Raises FileNotFoundError where there is none."""
    rt = shutil.which("rt")
    if rt is None:
        raise FileNotFoundError("there is no toolchain: `rt` isn't on the PATH")
    return Path(rt).resolve().parent.parent


def kit_line() -> str:
    """The toolchain's line, as `rt version` says it."""
    ran = subprocess.run(["rt", "version"], stdout=subprocess.PIPE, stdin=subprocess.DEVNULL, text=True, check=True)
    return ran.stdout.splitlines()[0]


def lines_of_crates() -> dict[str, list[str]]:
    """Of each crate in crates.txt the names behind its colon."""
    found = {}
    for line in (ROOT / "crates.txt").read_text().splitlines():
        head, colon, uses = line.partition("#")[0].partition(":")
        if colon:
            found[head.split()[0]] = uses.replace(",", " ").split()
    return found


def foreign() -> set[str]:
    """The toolchain's crates that those which make dist/ stand on, and the crates below these."""
    lines, waiting, seen, found = lines_of_crates(), list(MADE), set(MADE), {"std"}
    while waiting:
        for name in lines[waiting.pop()]:
            if name not in lines:
                found.add(name)
            elif name not in seen:
                seen.add(name)
                waiting.append(name)
    return found.union(*(names_below(name) for name in found))


def names_below(name: str) -> set[str]:
    """The crates of the toolchain that one of it stands on."""
    folder = kit() / "rlibs" / f"{name}.rlib" / "below"
    return {it.name.removesuffix(".rlib") for it in folder.iterdir()} if folder.is_dir() else set()


def carried(name: str) -> Carried:
    """What stands beside the sources of one of the toolchain's crates."""
    folder = kit() / "rattle" / name
    page = folder / "README.md"
    found = PORT.search(page.read_text()) if page.is_file() else None
    port, version, said = found.groups() if found else (None, None, None)
    files = sorted(folder.glob("LICENSE*"))
    texts = tuple((it.name, it.read_text(errors="replace").strip("\n")) for it in files)
    return Carried(name, port, version, licence_of(said, texts), texts)


def licence_of(said: str | None, texts: Iterable[tuple[str, str]]) -> str | None:
    """The licence that a page says, or else that of the texts, as SPDX writes it."""
    if said is not None:
        return " OR ".join(sorted(said.replace("Apache 2.0", "Apache-2.0").split(" or "), reverse=True))
    return " OR ".join(name for name, words in WORDS.items() if any(words in text for _, text in texts)) or None


def all_carried() -> list[Carried]:
    """All of them, by their names."""
    return [carried(name) for name in sorted(foreign())]
