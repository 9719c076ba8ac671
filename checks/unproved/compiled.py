"""Compiles the program that makes calls of the crates for checks, or the library for C, without a proof, and keeps what is compiled.
Also makes the kit that runs long tests without a proof.

The program's texts are those in src/ beside this file and in the src/ of the checks that use it. It is one program for all of them, since
most of what it costs to compile is the crates.

`rt try` compiles a program from its sources and those of all that it cites, runs it under a sanitizer and keeps nothing. Here it runs from
a kit of symbolic links, whose compiler leaves the sanitizer out, and whose linker keeps what it has linked. The sanitizer has an allocator
of its own, which no-memory/refuse.c can't refuse, and schedules are many. All else is as `rt try` does it: the program stops at an index
out of bounds and at an overflow.

A try compiles programs alone. So the library is the object of a program that reaches its calls (library/main.rt.text), of which those get
their names back.
"""

import os
import re
import shutil
import subprocess
from collections.abc import Sequence
from dataclasses import dataclass
from pathlib import Path

ROOT = Path(__file__).resolve().parents[2]
CRATES = ROOT / "crates"
CHECKS = ROOT / "checks"
TEXTS = tuple(CHECKS / it for it in ("unproved/src", "no-memory/calls/src", "schedules/src", "whole/src"))
ENDING = ".text"
NAME = "unproved_calls"
LIBRARY = "paris_c"
HANDLES = ("handle", "order_handle", "desk_handle", "seat_handle")
REACHES = CHECKS / "unproved/library/main.rt.text"
# What a program's own run in the try may take: it is run with nothing on standard input.
SECONDS = "60"

COMPILER = """#!/bin/sh
for word do
    shift
    case $word in -fsanitize=address) ;; -O0) set -- "$@" {effort} ;; *) set -- "$@" "$word" ;; esac
done
exec {clang} "$@"
"""

# (the sanitizer is the one archive that is linked whole)
LINKER = """#!/bin/sh
whole=
for word do
    shift
    case $word in
        --whole-archive) whole=1 ;;
        --no-whole-archive) whole= ;;
        *) test -n "$whole" || set -- "$@" "$word" ;;
    esac
done
{linker} "$@"{after}
"""


@dataclass(frozen=True)
class Made:
    """What of a try is kept: a file that its linker reads or writes, compiled with some effort."""

    file: str
    effort: str


PROGRAM = Made("program", "-O1")
# (with more effort a call that is reached once is a part of its caller)
OBJECT = Made("input-0", "-O0")


def write_program(path: Path, text: str) -> None:
    path.unlink(missing_ok=True)
    path.write_text(text)
    path.chmod(0o755)


def link_all(source: Path, target: Path) -> None:
    """Makes a folder with a symbolic link to each file of another one."""
    target.mkdir()
    for file in source.iterdir():
        (target / file.name).symlink_to(file)


def kit_folder() -> Path:
    found = shutil.which("rt")
    assert found, "there is no rt on the PATH"
    return Path(found).resolve().parent.parent


def make_kit(folder: Path, effort: str, after: str = "") -> Path:
    """A kit whose try compiles with some effort and no sanitizer, and does more after it has linked. Returns its rt."""
    kit = kit_folder()
    link_all(kit, folder)
    for name in ("bin", "toolchain"):
        (folder / name).unlink()
    link_all(kit / "bin", folder / "bin")
    # (a script finds its kit by where it stands)
    for script in (kit / "bin").glob("rt*"):
        (folder / "bin" / script.name).unlink()
        shutil.copy2(script, folder / "bin" / script.name)
    # (what is only a hint beside a try reads all sources once more)
    write_program(folder / "bin" / "rattle", "#!/bin/sh\n")
    link_all(kit / "toolchain", folder / "toolchain")
    tools = folder / "toolchain" / "bin"
    tools.unlink()
    link_all(kit / "toolchain" / "bin", tools)
    write_program(tools / "clang", COMPILER.format(clang=kit / "toolchain/bin/clang", effort=effort))
    write_program(tools / "ld.lld", LINKER.format(linker=kit / "toolchain/bin/ld.lld", after=after))
    return folder / "bin" / "rt"


def crate_names() -> list[str]:
    lines = (
        line.partition("#")[0].partition(":")[0].split() for line in (ROOT / "crates.txt").read_text().splitlines()
    )
    return [words[0] for words in lines if words]


def crate_line(crate: str, *cited: str) -> str:
    return " ".join([f"{crate}:", *(it for it in crate_names() if it in cited)])


def put_crates(room: Path) -> Path:
    """Puts the sources of all crates into a folder. Returns the folder of the crates."""
    for crate in crate_names():
        shutil.copytree(CRATES / crate / "src", room / "crates" / crate / "src")
    shutil.copy2(ROOT / "HANDLES", room)
    return room / "crates"


def put_program(room: Path) -> Path:
    """Puts the crates into a folder, and the program as one crate more. Returns the crate's folder."""
    folder, cited = put_crates(room) / NAME, set[str]()
    for text in (text for texts in TEXTS for text in sorted(texts.glob(f"*.rt{ENDING}"))):
        target = folder / "src" / text.stem
        target.parent.mkdir(parents=True, exist_ok=True)
        shutil.copy2(text, target)
        cited.update(re.findall(r"^use (\w+)", text.read_text(), re.M))
    (room / "crates.txt").write_text((ROOT / "crates.txt").read_text() + crate_line(NAME, *cited) + "\n")
    return folder


def put_library(room: Path) -> Path:
    """Puts the crates into a folder, and the library's crate as a program that reaches its calls. Returns the crate's folder."""
    folder = put_crates(room) / LIBRARY
    root = folder / "src/lib.rt"
    (folder / "src/main.rt").write_text(root.read_text() + REACHES.read_text())
    root.unlink()
    lines = (ROOT / "crates.txt").read_text()
    (room / "crates.txt").write_text(lines.replace(f"{LIBRARY} staticlib:", f"{LIBRARY}:"))
    return folder


Edit = tuple[str, str, str]


def read_edit(crate: str, name: str) -> list[Edit]:
    """A must-fail edit, whose texts are a line each: the files, what stands there, and what stands for it. Comments are left out."""
    edits, file, old = list[Edit](), "", ""
    for line in (CHECKS / "gate/edits" / crate / f"{name}.edit").read_text().splitlines():
        word, _, text = line.partition(": ")
        if word.startswith("#"):
            continue
        if word == "file":
            file = f"{crate}/{text}"
        elif word == "old":
            old = text
        else:
            assert word == "new" and file and old, f"{crate}/{name} has a line {line}"
            edits.append((file, old, text))
    return edits


def plant(room: Path, edits: Sequence[Edit]) -> None:
    """Makes edits in the crates of a room: in a file, a text that stands there once becomes another one."""
    for file, old, new in edits:
        path = room / "crates" / file
        text = path.read_text()
        assert text.count(old) == 1, f"{file} has {text.count(old)} times: {old}"
        path.write_text(text.replace(old, new))


def make(room: Path, folder: Path, made: Made, edits: Sequence[Edit]) -> Path:
    """Compiles the program of a folder of a room, whose crates get some edits, and returns what of it is kept."""
    kept = room / "kept"
    rt = make_kit(room / "kit", made.effort, f" && cp {made.file} {kept}")
    plant(room, edits)
    environment = {word: value for word, value in os.environ.items() if word != "RT_BACKEND"}
    ran = subprocess.run(
        [rt, "try", "--steps", "1", "--seconds", SECONDS],
        cwd=folder,
        env=environment,
        stdin=subprocess.DEVNULL,
        stdout=subprocess.PIPE,
        stderr=subprocess.STDOUT,
        text=True,
        errors="replace",
        check=False,
    )
    if not kept.exists():
        raise SystemExit(f"{folder.name} isn't compiled:\n{ran.stdout}")
    return kept


def compile_program(room: Path, edits: Sequence[Edit] = ()) -> Path:
    """Compiles the program, in a room of its own, and returns it. The crates have some edits."""
    return make(room, put_program(room), PROGRAM, edits)


def compile_library(room: Path, edits: Sequence[Edit] = ()) -> list[Path]:
    """Compiles the library for C, in a room of its own, and returns what a program is linked with. The crates have some edits."""
    folder = put_library(room)
    # (main is in no module of the handles)
    closed = [(f"{LIBRARY}/src/{it}.rt", "    fn closed(", "    pub(crate) fn closed(") for it in HANDLES]
    kept = make(room, folder, OBJECT, [*closed, *edits])
    said = subprocess.run(["nm", kept], check=True, stdout=subprocess.PIPE, text=True).stdout
    words = ["--localize-symbol=main"]
    for symbol, call in re.findall(rf" ({LIBRARY}::\w+::(paris_\w+))$", said, re.M):
        words += [f"--redefine-sym={symbol}={call}", f"--globalize-symbol={call}"]
    library = room / "library.o"
    subprocess.run(["objcopy", *words, kept, library], check=True)
    return [library, kit_folder() / "c/liblibc_c.a"]
