"""What decides the try of a must-fail edit, and the proof of a crate's tests, as a checksum.

A function is proved from its own body and proof files, and from what is stated: of its crate and of those below it the declarations,
contracts, definitions and lemmas, and no other body. So the key of an edit is the checksum of the toolchain's logic, HANDLES and the edit;
of the files in src/ that it changes, and of that of the function that it names, whole, with the proof files of their modules; of what is
stated in the crate: specs/, the lemmas of proofs/, and src/ without the bodies of functions; and of what the crate cites of that in those
below (stated.py). The key of a crate's tests is that of the logic, HANDLES, all sources of the crate, and what they cite.
"""

import hashlib
import re
from dataclasses import dataclass
from functools import cache, cached_property
from pathlib import Path
from typing import Any

from kit import ROOT
from stated import CODE, Source, Stated

EDITS = ROOT / "checks" / "gate" / "edits"
# The words before the braces of a clause, which stands before a function's body.
CLAUSE = re.compile(rb"\b(?:requires|ensures)(?:\s*\*)?(?:\s+\w+)?\s*$|\bghost\s+\w+\s*:\s*$")
FUNCTION = re.compile(rb"\b(const\s+)?fn\s+\w+")
# Lines that decide no proof: comments, and what says how code is laid out.
UNPROVED = re.compile(rb"^\s*(?://[^\n]*|#\[inline(?:\(\w+\))?\]|#\[cold\])\n", re.M)
# The line of an edit that names the function which isn't proved with it. (rt passes over it.)
NAMED = re.compile(r"^# function: (\S+)\n", re.M)


@dataclass(frozen=True)
class Edit:
    """A must-fail edit."""

    crate: str
    path: Path

    @property
    def name(self) -> str:
        return f"{self.crate}/{self.path.stem}"

    @property
    def function(self) -> str:
        """The function that isn't proved with it, with the module before it, or nothing where the edit names none."""
        found = NAMED.search(self.path.read_text())
        return found[1] if found else ""

    def name_function(self, function: str) -> None:
        """Writes into the edit which function isn't proved with it, or that none is known."""
        line = f"# function: {function}\n" if function else ""
        self.path.write_text(line + NAMED.sub("", self.path.read_text()))

    def files(self) -> list[str]:
        """The files that it changes, by their paths in the crate."""
        return re.findall(r"^file: *(\S+)", self.path.read_text(), re.M)


def sum_of(*parts: object) -> str:
    return hashlib.sha256(repr(parts).encode()).hexdigest()


def group_end(code: bytes, at: int) -> int:
    """The place behind the brace that closes the one at a place."""
    depth = 0
    for brace in re.compile(rb"[{}]").finditer(code, at):
        depth += 1 if brace[0] == b"{" else -1
        if not depth:
            return brace.end()
    return len(code)


def body_of(code: bytes, at: int) -> tuple[int, int] | None:
    """Where the body of the function lies whose name ends at a place, in code without comments and literals; None where it has none."""
    start = at
    while found := re.compile(rb"[{;]").search(code, at):
        if found[0] == b";" and code.count(b"[", start, found.start()) == code.count(b"]", start, found.start()):
            return None
        at = found.end()
        if found[0] == b"{":
            end = group_end(code, found.start())
            if not CLAUSE.search(code[start : found.start()]):
                return found.start(), end
            start = at = end
    return None


def without_bodies(text: bytes, code: bytes) -> bytes:
    """A file of src/ without the bodies of its functions, but for those that the compiler may run, and without lines that decide no proof.
    The code is the text with blanks for comments and literals."""
    kept, done, at = b"", 0, 0
    while found := FUNCTION.search(code, at):
        body = body_of(code, found.end())
        at = body[1] if body else found.end()
        if body and not found[1]:
            kept += text[done : body[0]]
            done = at
    return UNPROVED.sub(b"", kept + text[done:])


def source_of(crate: str, path: str, text: str) -> Source:
    """A file of a crate, by its path there."""
    module = CODE if path.startswith("src/") else path.rpartition(".")[0].replace("/", ".")
    return Source(crate, f"{crate}.{module}", text)


class Keys:
    """The keys of all edits and of all crates' tests, from the text of the sources alone."""

    def __init__(self, gate: Any, crates: list[Any]) -> None:
        self.rtlib, self.crates = gate.rtlib, {crate.name: crate for crate in crates}
        lines = (line.partition("#")[0].strip() for line in (ROOT / "crates.txt").read_text().splitlines())
        self.lines = {line.partition(":")[0].split()[0]: line for line in lines if ":" in line}
        # (the kit's line is `KIT logic SUM`; what the kit has beside the logic decides no proof)
        self.logic = (Path(gate.KIT) / "KIT-ID").read_text().partition("logic ")[2].strip()
        self.handles = (ROOT / "HANDLES").read_text()
        self.cited: dict[str, str] = {}

    @cache
    def statements(self, name: str) -> list[tuple[str, bytes]]:
        """What a crate states, by the paths of the files."""
        folder = ROOT / "crates" / name
        parts = [(str(file.relative_to(folder)), file.read_bytes()) for file in sorted((folder / "specs").rglob("*.antt"))]
        parts += [(str(file.relative_to(folder)), file.read_bytes()) for file in sorted((folder / "proofs").glob("*.antt"))]
        for file, code in sorted(self.rtlib.blanked(str(folder)).items()):
            if file.endswith(".rt"):
                text = Path(file).read_bytes()
                assert len(text) == len(code.encode()), f"{file} is read as another text"
                parts.append((str(Path(file).relative_to(folder)), without_bodies(text, code.encode())))
        return parts

    @cached_property
    def below(self) -> Stated:
        """What all crates state, by the names under which it is cited."""
        sources = [source_of(name, path, text.decode()) for name in self.crates for path, text in self.statements(name)]
        return Stated({name: [it.name for it in crate.deps] for name, crate in self.crates.items()}, sources)

    def of_cited(self, name: str) -> str:
        """The checksum of what a crate cites of the crates below it."""
        if name not in self.cited:
            folder = ROOT / "crates" / name
            files = sorted(file for part in ("src", "specs", "proofs") for file in (folder / part).rglob("*") if file.suffix in (".rt", ".antt"))
            own = [source_of(name, str(file.relative_to(folder)), file.read_text()) for file in files]
            self.cited[name] = sum_of(self.below.cited(name, own))
        return self.cited[name]

    def bodies(self, edit: Edit) -> list[tuple[str, bytes]]:
        """The files of the crate that count whole: those that the edit changes, that of its function, and their modules' proofs."""
        folder = ROOT / "crates" / edit.crate
        modules = {str(file.relative_to(folder / "src").with_suffix("")) for file in (folder / "src").rglob("*.rt")}
        own = {file.removeprefix("src/").removesuffix(".rt") for file in edit.files() if file.startswith("src/")}
        words = edit.function.split("::")
        named = {"/".join(words[:count]) for count in range(1, len(words))} & modules
        own |= named or ({"lib"} if edit.function else set())
        others = {it.partition("/")[0] for it in modules - own} - {it.partition("/")[0] for it in own}
        files = [folder / "src" / f"{it}.rt" for it in sorted(own)]
        files += [it for it in sorted((folder / "proofs").glob("*/**/*.antt")) if it.relative_to(folder / "proofs").parts[0] not in others]
        return [(str(file.relative_to(folder)), file.read_bytes()) for file in files]

    def of_edit(self, edit: Edit) -> str:
        """What decides the try of an edit."""
        own = self.lines[edit.crate], self.statements(edit.crate), self.bodies(edit)
        return sum_of("edit", self.logic, self.handles, own, self.of_cited(edit.crate), edit.path.read_bytes())[:32]

    def of_tests(self, name: str) -> str:
        """What decides the proof of a crate's tests."""
        folder = ROOT / "crates" / name
        files = [file for part in ("src", "specs", "proofs") for file in sorted((folder / part).rglob("*")) if file.is_file()]
        own = [(str(file.relative_to(folder)), file.read_bytes()) for file in files]
        return sum_of("tests", self.logic, self.handles, self.lines[name], own, self.of_cited(name))[:32]

    def edits(self, names: list[str]) -> list[Edit]:
        """All edits, or those of some crates and of some names."""
        every = [Edit(path.parent.name, path) for path in sorted(EDITS.glob("*/*.edit"))]
        unknown = {*names} - {edit.crate for edit in every} - {edit.name for edit in every}
        assert not unknown, f"there is no crate with edits, and no edit, of the name {', '.join(sorted(unknown))}"
        return [edit for edit in every if not names or edit.crate in names or edit.name in names]
