"""Which crates' tests a run proves, and which it only runs, by the record (seen.py).

A crate of tests has no code but tests, and what its proof says is that they end and that they call as contracts ask. While the record has a
line with the present key of such a crate (keys.py), a proof would say the same again, whatever bodies below have changed, and
`rt try --test` runs the tests: it compiles them with what they call from the sources, proves
nothing, and stops at an index out of bounds and an overflow. Most of what that costs is to compile what they call, so the tests of all
crates are one crate there, in which each is a module.
"""

import re
import subprocess
import sys
import tempfile
from dataclasses import dataclass
from pathlib import Path
from typing import Any

from keys import Keys, sum_of
from kit import ROOT
from seen import add_seen, read_seen

sys.path.insert(0, str(ROOT / "checks" / "unproved"))
from compiled import crate_line, make_kit, put_crates  # noqa: E402

# Crates whose tests run for an hour where each access of memory is looked at.
LONG = {"paris_plane_tests", "paris_desk_run_tests", "paris_scan_tests", "paris_mail_tests"}
# The crate that has the tests of others as its modules.
TRIED = "tried_tests"
# Seconds that the tests may take in a try.
LIMIT = 1800


@dataclass(frozen=True)
class Ran:
    """How tests ran: what was said, how many there were, and how many of them failed. One failed where they came to no end."""

    said: str
    count: int
    failed: int


def with_tests(crates: list[Any]) -> list[Any]:
    return [crate for crate in crates if crate.has_tests()]


def holds(keys: Keys, crate: Any) -> bool:
    """Whether the tests of a crate were seen proved, from these sources and over these statements."""
    return keys.of_tests(crate.name) in read_seen()


def add(keys: Keys, crates: list[Any]) -> None:
    """Writes a line for each of some crates, whose tests were just proved and have passed."""
    add_seen(keys.of_tests(crate.name) for crate in crates)


def to_try(keys: Keys, crates: list[Any], draw: str) -> list[Any]:
    """Those whose tests a run of the gate only runs: their lines hold, but for one of them that the run's draw picks."""
    held = [crate for crate in with_tests(crates) if holds(keys, crate)]
    return sorted(held, key=lambda crate: sum_of(draw, crate.name))[1:]


def put_tests(room: Path, crates: list[Any]) -> Path:
    """Puts the sources of all crates into a folder, and one crate more, whose modules are crates of tests. Returns that one's folder."""
    folder = put_crates(room) / TRIED
    (folder / "src").mkdir(parents=True)
    root = "//! The tests of several crates.\n#![tactic(auto)]\n"
    for crate in crates:
        root += f"\n#[cfg(test)]\nmod {crate.name};\n"
        for file in sorted((ROOT / "crates" / crate.name / "src").glob("*.rt")):
            place = folder / "src" / (f"{crate.name}.rt" if file.name == "lib.rt" else f"{crate.name}/{file.name}")
            place.parent.mkdir(exist_ok=True)
            text = re.sub(r"^#!\[.*\]\n", "", file.read_text(), flags=re.M)
            place.write_text(re.sub(r"\bcrate::", f"crate::{crate.name}::", text))
    (folder / "src" / "lib.rt").write_text(root)
    cited = {it.name for crate in crates for it in crate.deps}
    line = crate_line(f"{TRIED} tests_may=Threads+Wait", *cited)
    (room / "crates.txt").write_text(f"{(ROOT / 'crates.txt').read_text()}{line}\n")
    return folder


def run_by_try(crates: list[Any], looks_at_memory: bool = False) -> Ran:
    """Runs the tests of some crates by one rt try, over a copy of the sources. It may stop at an access of memory that isn't one's own too,
    which takes many times as long."""
    with tempfile.TemporaryDirectory(prefix="tried-") as name:
        room = Path(name).resolve()
        folder = put_tests(room, crates)
        rt, steps = ("rt", list[str]()) if looks_at_memory else (str(make_kit(room / "kit", "-O1")), ["--steps", "1"])
        how = {"stdin": subprocess.DEVNULL, "stdout": subprocess.PIPE, "stderr": subprocess.STDOUT, "errors": "replace"}
        ran = subprocess.run([rt, "try", "--test", *steps, "--seconds", str(LIMIT)], cwd=folder, check=False, **how)
    passed, failed = (sum(map(int, re.findall(rf"^test result: .*\b(\d+) {word};", ran.stdout, re.M))) for word in ("passed", "failed"))
    went_well = not ran.returncode and passed
    return Ran(ran.stdout, passed + failed, failed if went_well else max(failed, 1))
