"""A copy of what ./paris reads, in which no toolchain is found, for tests that change it."""

from __future__ import annotations

import gzip
import os
import shutil
import subprocess
from pathlib import Path

REPOSITORY = Path(__file__).resolve().parents[2]
# What both builds are called: the programs and the libraries for each of these processors.
BUILDS = ("x86-64-v2", "x86-64-v3")
# What the ABI of x86-64 adds from v2 to v3 (AVX, AVX2, BMI1, BMI2, F16C, FMA, LZCNT, MOVBE), as Linux calls it.
ADDED = ("avx", "avx2", "bmi1", "bmi2", "f16c", "fma", "abm", "movbe")
# What Linux says of a processor of x86-64-v3, shortened.
FLAGS = "fpu sse4_2 fma movbe popcnt xsave avx f16c lahf_lm abm bmi1 avx2 bmi2"


def cpuinfo(flags: str) -> str:
    """What /proc/cpuinfo says of two processors with these flags."""
    name = "model name\t: a processor (avx2 bmi2 fma)"
    lines = "processor\t: {0}\n{1}\nflags\t\t: {2}\nvmx flags\t: vnmi\nbugs\t\t: none\n\n"
    return "".join(lines.format(number, name, flags) for number in (0, 1))


def kept_program() -> bytes:
    """The program of dist/ for x86-64-v2."""
    return gzip.decompress((REPOSITORY / "dist/paris_front.gz").read_bytes())


def write_programs(folder: Path) -> tuple[Path, Path]:
    """The program of dist/, and one that does the same and has other bytes, which stands for the other build."""
    first, second, note = folder / "first", folder / "second", folder / "note"
    first.write_bytes(kept_program())
    note.write_text("another build")
    subprocess.run(["objcopy", f"--add-section=.build={note}", first, second], check=True)
    return first, second


class Tree:
    """Such a copy. Its program is the build for x86-64-v2 where nothing else is asked for."""

    def __init__(self, root: Path) -> None:
        self.root, self.stamp = root, root / "dist/out/stamp-x86-64-v2"
        (root / "bin").mkdir(parents=True)
        (root / "bin/rt").write_text("#!/bin/sh\nexit 1\n")
        (root / "bin/rt").chmod(0o755)
        for name in ("paris", "crates.txt", "VERSION"):
            shutil.copy2(REPOSITORY / name, root / name)
        shutil.copytree(REPOSITORY / "dist", root / "dist", ignore=shutil.ignore_patterns("out", BUILDS[1]))
        shutil.copytree(
            REPOSITORY / "crates", root / "crates", ignore=shutil.ignore_patterns("out", "tests", "must-fail")
        )

    def run(
        self, *words: str | Path, cpu: str = BUILDS[0], flags: Path | None = None
    ) -> subprocess.CompletedProcess[str]:
        """A run of ./paris, where PEVUDLO_CPU says this, and the processor's flags are those of a file."""
        environment = {**os.environ, "PATH": f"{self.root}/bin:{os.environ['PATH']}", "PEVUDLO_CPU": cpu}
        if flags:
            environment["PEVUDLO_CPUINFO"] = str(flags)
        return subprocess.run(
            [self.root / "paris", *words], capture_output=True, text=True, timeout=60, env=environment
        )

    def add_second_build(self) -> None:
        """Puts both builds into dist/, as dist/refresh does."""
        programs = write_programs(self.root)
        # (no toolchain is on this PATH)
        how = {"PATH": "/usr/bin:/bin"}
        subprocess.run([self.root / "dist/refresh", *programs], check=True, capture_output=True, env=how)

    def turn_a_byte(self, name: str) -> None:
        """Changes a byte of a file. Its size and the time of its last write are those of before."""
        path = self.root / name
        before, content = path.stat(), bytearray(path.read_bytes())
        content[-2] ^= 1
        path.write_bytes(content)
        os.utime(path, ns=(before.st_atime_ns, before.st_mtime_ns))
        assert path.stat().st_size == before.st_size and path.stat().st_mtime_ns == before.st_mtime_ns
