"""Scripts that are read and written, and the history of the prompt's lines."""

from __future__ import annotations

import errno
import os
import shutil
import stat
import tempfile
from collections.abc import Iterator
from contextlib import contextmanager
from pathlib import Path

MOST_HISTORY = 1000
MOST_FOLLOWED = 1 << 28
"""A longer file isn't followed."""

SPECIAL = {
    stat.S_IFDIR: "a folder",
    stat.S_IFIFO: "a fifo",
    stat.S_IFSOCK: "a socket",
    stat.S_IFCHR: "a device",
    stat.S_IFBLK: "a device",
}
"""What may stand in the place of a file that holds text, by the kind that its mode says."""


def path_of(name: str) -> Path:
    """The path of a file by the name that a user types, `~` for the home folder."""
    return Path(os.path.expanduser(name))


def lines_in(data: bytes) -> list[str]:
    """The lines of a script, cut at line feeds alone. A last one without one is a line too.

    Bytes that aren't UTF-8 are surrogates.
    """
    return lines_of_text(data.decode("utf-8", "surrogateescape"))


def lines_of_text(text: str) -> list[str]:
    """The lines of a text, cut as those of a script."""
    lines = text.split("\n")
    return lines[:-1] if lines[-1] == "" else lines


def read_lines(path: Path) -> list[str]:
    """The lines of a script in a file. Raises OSError, or ValueError where no file can have such a name."""
    return lines_in(path.read_bytes())


class NoFile(OSError):
    """What stands at a place is no regular file. `kind` says what it is, in words."""

    def __init__(self, mode: int) -> None:
        self.kind = SPECIAL.get(stat.S_IFMT(mode), "something else")
        super().__init__(errno.EINVAL, f"{self.kind} stands there, and no file")


def check_regular(mode: int) -> None:
    """Raises NoFile where a mode isn't that of a regular file."""
    if not stat.S_ISREG(mode):
        raise NoFile(mode)


def check_length(length: int) -> None:
    """Raises OSError where a file of a length is longer than what is followed."""
    if length > MOST_FOLLOWED:
        raise OSError(errno.EFBIG, os.strerror(errno.EFBIG))


@contextmanager
def opened_regular(path: Path) -> Iterator[int]:
    """A descriptor of a regular file, which is opened so that nothing waits.

    Raises NoFile, and other OSErrors, also where it is longer than what is followed.
    """
    # A device may do something when it is opened.
    check_regular(os.stat(path).st_mode)
    file = os.open(path, os.O_RDONLY | os.O_NONBLOCK | os.O_NOCTTY | os.O_CLOEXEC)
    try:
        at = os.fstat(file)
        check_regular(at.st_mode)
        check_length(at.st_size)
        yield file
    finally:
        os.close(file)


def read_opened(file: int) -> bytes:
    """What is in an open file. Raises OSError, also where it is longer than what is followed."""
    parts: list[bytes] = []
    left = MOST_FOLLOWED + 1
    while left and (part := os.read(file, min(left, 1 << 20))):
        parts.append(part)
        left -= len(part)
    check_length(MOST_FOLLOWED + 1 - left)
    return b"".join(parts)


def read_regular(path: Path) -> bytes:
    """What is in a regular file. Nothing waits where something else stands there. Raises NoFile, and other OSErrors."""
    with opened_regular(path) as file:
        return read_opened(file)


def write_lines(path: Path, lines: list[str]) -> None:
    """Writes a script. What a file of this name held stays beside it, with `~` behind its name.

    The file has its name only when it is whole. Raises OSError, or ValueError where no file can have such a name.
    """
    write_text(path, "".join(f"{line}\n" for line in lines), is_kept=True)


def write_text(path: Path, text: str, is_kept: bool = False) -> None:
    """Writes a text as `write_lines` does. `is_kept` says whether what the file held stays beside it."""
    if path.exists() and not path.is_file():
        path.write_bytes(text.encode("utf-8", "surrogateescape"))
    else:
        put_text(path, text, is_kept)


def put_text(path: Path, text: str, is_kept: bool = False) -> None:
    """Puts a text into the place of a regular file, or where nothing stands, whole.

    Nothing waits where something else stands there. Raises NoFile, and other OSErrors.
    """
    if path.exists():
        check_regular(os.stat(path).st_mode)
    data, target = text.encode("utf-8", "surrogateescape"), Path(os.path.realpath(path))
    handle, name = tempfile.mkstemp(dir=target.parent, prefix=f".{target.name}.")
    try:
        with os.fdopen(handle, "wb") as file:
            file.write(data)
        os.chmod(name, target.stat().st_mode & 0o777 if target.is_file() else 0o666 & ~umask())
        if is_kept and target.is_file():
            shutil.copy2(target, target.with_name(f"{target.name}~"))
        os.replace(name, target)
    except BaseException:
        Path(name).unlink(missing_ok=True)
        raise


def umask() -> int:
    """The bits that new files don't get."""
    mask = os.umask(0)
    os.umask(mask)
    return mask


def why(error: OSError | ValueError) -> str:
    """Why a file can't be read or written, in a few words."""
    return error.strerror if isinstance(error, OSError) and error.strerror else str(error)


def history_path() -> Path:
    """Where the history is kept from one prompt to the next."""
    state = os.environ.get("XDG_STATE_HOME") or os.path.expanduser("~/.local/state")
    return Path(state) / "pevudlo" / "history"
