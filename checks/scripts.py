"""Scripts with what is expected of them, and how the program is run on them, for the checks that do so."""
import sys
from pathlib import Path

CHECKS = Path(__file__).resolve().parent
ROOT = CHECKS.parent
PROGRAM = ROOT / "crates/paris_front/out/paris_front"
EXAMPLES = ROOT / "examples"
DESK = CHECKS / "desk"
ROWS = CHECKS / "rows"
SEATS = 16


class Script:
    """A script with what is written for it. Its exit status is 1 where a command is refused.

    Lines that say exactly `session` cut a script into parts, whose sessions share a desk.
    """

    def __init__(self, name, text, expected):
        self.name, self.text, self.expected = name, text, expected
        self.status = int(any(line.startswith(b"refused") for line in expected.split(b"\n")))
        self.cuts = text.split(b"\n").count(b"session")

    def call(self, program, workers):
        """The words of a call of the program on it."""
        return [program, "--workers", str(workers), *(["--desk"] if self.cuts else [])]

    def most_workers(self):
        """How many workers there may be: at a desk those that find seats beside all parts but the last."""
        return SEATS - self.cuts


def read_script(path):
    """The script of a file NAME.paris, with what stands in NAME.expected beside it."""
    return Script(path.stem, path.read_bytes(), path.with_suffix(".expected").read_bytes())


def path_of(name, *folders):
    """The file of a script by its name: of one in these folders, of a script in parts, of an example, or of a worked row."""
    tried = (folder / f"{name}.paris" for folder in (*folders, DESK, EXAMPLES, *sorted(ROWS.iterdir())))
    return next((path for path in tried if path.exists()), None) or sys.exit(f"{sys.argv[0]}: there is no script {name}")
