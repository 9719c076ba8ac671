"""Many must-fail edits of a crate in one check: each as a copy of its function, beside it, under another name.

A function is proved from its own body, its proof files, and what is stated, by no body of another. So a copy that has the wrong body is refused
where the function with that body would be. The check reads the crate and what is below it once, and proves the copies alone. For each function
there is a copy with its own body too. Where that one isn't proved, the name is to blame, and nothing is told by the others. No copy is made of an
edit of a definition, of a trait's method, of several functions, or of one for another's sake: it is tried by itself.
"""

import os
import re
import shutil
import subprocess
import tempfile
from collections.abc import Callable, Iterator
from dataclasses import dataclass
from pathlib import Path
from typing import Any

from keys import FUNCTION, Edit, body_of

# The attributes before a function, which its copy has too.
ATTRIBUTES = re.compile(rb"(?:^ *#\[[^\n]*\]\n)*\Z", re.M)
# The head of what a method stands in.
OWNER = re.compile(rb"^(?:pub(?:\([a-z]+\))? )?(?:unsafe )?(impl|trait)\b([^{]*)", re.M)
# What the prover says of a place, and of a function behind that; a place in a proof file where only a name is gone.
PLACE = re.compile(r"^(?:note: )?\S+:\d+:\d+: .*", re.M)
BY_NAME = re.compile(r"^(?:note: )?(?:\./)?proofs/.*(?:has no field|is not in scope|has no `|was not admitted)")
# A function for whose goals nothing was found, and one that is proved.
FOUND_NONE = re.compile(r"^no proof\b.*`search` did not prove")
PROVED = re.compile(r"^proved\b")


@dataclass(frozen=True)
class Span:
    """A function in a file: the places where its text begins and ends, and its name."""

    file: str
    begin: int
    end: int
    name: str


@dataclass(frozen=True)
class Copy:
    """A copy of a function: of an edit where it has a wrong body, of none where it has the function's own."""

    edit: Edit | None
    span: Span
    function: str
    text: bytes

    def name(self, number: int) -> str:
        return f"{self.span.name}_copy{number}"


@dataclass(frozen=True)
class Said:
    """What the prover said of a copy: its verdict, and the lines about places that stand before it."""

    verdict: str
    before: str

    @property
    def is_proved(self) -> bool:
        return bool(PROVED.match(self.verdict))

    @property
    def refusal(self) -> str:
        """The goal at which it isn't proved, or a place; nothing where it is proved, or where only a name is gone."""
        if FOUND_NONE.match(self.verdict):
            return self.verdict.partition("; ")[2]
        places = [it for it in PLACE.findall(self.before) if not BY_NAME.match(it)]
        return places[0] if places and self.verdict.startswith("not proved") else ""


def span_at(file: str, text: bytes, code: bytes, first: int, last: int) -> Span | None:
    """The function in which some places of a file lie; None where there is none, or where it is a trait's. The code is the text with blanks for
    comments and literals."""
    for found in FUNCTION.finditer(code):
        body, line = body_of(code, found.end()), text.rfind(b"\n", 0, found.start()) + 1
        if not body or not line <= first <= last <= body[1]:
            continue
        owners = [it for it in OWNER.finditer(code, 0, line)]
        is_method = text[line : line + 1] == b" "
        if is_method and (not owners or owners[-1][1] == b"trait" or b" for " in owners[-1][2]):
            return None
        before = ATTRIBUTES.search(text[:line])
        return Span(file, before.start() if before else line, body[1], found[0].decode().split()[-1])
    return None


def changed_range(old: bytes, new: bytes) -> tuple[int, int]:
    """The places of a text between which another one differs from it."""
    first = len(os.path.commonprefix([old, new]))
    last = len(os.path.commonprefix([old[first:][::-1], new[first:][::-1]]))
    return first, len(old) - last


class Copies:
    """The edits of a crate as copies of their functions."""

    def __init__(self, gate: Any, crate: Any) -> None:
        self.gate, self.crate, self.folder = gate, crate, Path(crate.folder)
        self.code = {str(Path(file).relative_to(crate.folder)): code.encode() for file, code in gate.rtlib.blanked(crate.folder).items()}

    def of_edit(self, edit: Edit, function: str) -> Copy | None:
        """The copy with an edit's body, where one can be made: of the function that isn't proved with it."""
        texts, _ = self.gate.read_edit(str(edit.path), self.crate.folder)
        if not texts or len(texts) != 1 or not function:
            return None
        file, new = next((file, new.encode()) for file, new in texts.items())
        old = (self.folder / file).read_bytes()
        span = span_at(file, old, self.code[file], *changed_range(old, new)) if file.startswith("src/") else None
        if span is None or span.name != function.rpartition("::")[2]:
            return None
        return Copy(edit, span, function, new[span.begin : len(new) - (len(old) - span.end)])

    def own(self, copy: Copy) -> Copy:
        """The copy of the same function with its own body."""
        return Copy(None, copy.span, copy.function, (self.folder / copy.span.file).read_bytes()[copy.span.begin : copy.span.end])

    def put(self, room: Path, copies: list[Copy]) -> Iterator[str]:
        """Puts copies into a copy of the crate, with the proof files of their functions. Yields what the prover calls each."""
        for number, copy in sorted(enumerate(copies), key=lambda it: -it[1].span.end):
            name, path = copy.name(number), room / copy.span.file
            text = re.sub(rf"\bfn {copy.span.name}\b".encode(), f"fn {name}".encode(), copy.text, count=1)
            whole = path.read_bytes()
            path.write_bytes(whole[: copy.span.end] + b"\n\n" + text + whole[copy.span.end :])
        for number, copy in enumerate(copies):
            name, words = copy.name(number), copy.function.split("::")
            proofs = room / "proofs" / "/".join(words)
            if proofs.is_dir():
                shutil.copytree(proofs, proofs.parent / name)
                for file in (proofs.parent / name).rglob("*.antt"):
                    file.write_text(file.read_text().replace(f".{copy.span.name}.", f".{name}."))
            yield "::".join([*words[:-1], name])

    def said(self, copies: list[Copy], jobs: int) -> dict[Copy, Said]:
        """What the prover says of each copy, in one check."""
        with tempfile.TemporaryDirectory(prefix="copies-") as folder:
            room = Path(folder)
            for part in self.gate.rtlib.PARTS:
                if (self.folder / part).is_dir():
                    shutil.copytree(self.folder / part, room / part)
            names = [*self.put(room, copies)]
            flags = ["--jobs", str(jobs), *(word for name in names for word in ("--only", name))]
            words = [*self.gate.rtlib.guarded(), self.gate.rtlib.RATTLE, "check", *self.crate.words(flags, keeps=False)]
            how = {"stdin": subprocess.DEVNULL, "stdout": subprocess.PIPE, "stderr": subprocess.STDOUT, "text": True, "errors": "replace"}
            told = subprocess.run(words, cwd=room, check=False, **how).stdout
        parts = re.split(rf"^fn {self.crate.name}::(\S+): (.*)$", told, flags=re.M)
        # (what is wrong in a proof file is said before all verdicts)
        files = {name: "\n".join(it for it in PLACE.findall(told) if f"/{name.rpartition('::')[2]}/" in it) for name in names}
        by_name = {name: Said(verdict, before) for before, name, verdict in zip(parts[::3], parts[1::3], parts[2::3])}
        by_name = {name: Said(it.verdict, f"{files.get(name, '')}\n{it.before}") for name, it in by_name.items()}
        return {copy: by_name.get(name, Said("", told)) for copy, name in zip(copies, names)}

    def refused(self, edits: list[Edit], function: Callable[[Edit], str], jobs: int) -> dict[Edit, str]:
        """Those edits that are refused as copies, and at what."""
        copies = [copy for edit in edits for copy in [self.of_edit(edit, function(edit))] if copy]
        own = {copy.span: self.own(copy) for copy in copies}
        said = self.said([*own.values(), *copies], jobs) if copies else {}
        if len(copies) > 1 and not any(it.verdict for it in said.values()):
            # (one of them isn't read or compiled, or the prover was ended)
            halves = edits[: len(edits) // 2], edits[len(edits) // 2 :]
            return {edit: why for half in halves for edit, why in self.refused(half, function, jobs).items()}
        judged = [copy for copy in copies if said[own[copy.span]].is_proved and said[copy].refusal]
        return {copy.edit: said[copy].refusal for copy in judged if copy.edit}
