"""The release of this package, and the build that runs here."""

from pevudlo.wire.builds import Build, allowed
from pevudlo.wire.program import NAME, NATIVE, PACKAGE, ROOT, is_program


def release() -> str:
    """The number of the release, as `0.1.0`, or `unknown` where the package stands alone in a folder.

    An installed package has a copy of the repository's file.
    """
    for file in (PACKAGE / "VERSION", ROOT / "VERSION"):
        if file.is_file() and (file.parent == PACKAGE or (ROOT / "dist" / "sums").is_file()):
            return file.read_text(encoding="ascii").strip()
    return "unknown"


def build() -> Build | None:
    """The build that runs here, of those that this package or its repository has. Where neither has one there is none.

    Raises ValueError where PEVUDLO_CPU is wrong.
    """
    kept = [
        it for it in allowed() if is_program(it.below(NATIVE) / NAME) or (it.below(ROOT / "dist") / "SUMS").is_file()
    ]
    return kept[0] if kept else None
