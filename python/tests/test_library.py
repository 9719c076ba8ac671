"""The library in the place of the program: the same replies to all lines, the same values, and the same refusals."""

from __future__ import annotations

import _ctypes
import ctypes
import gc
import re
import signal
import subprocess
import sys
from concurrent.futures import ThreadPoolExecutor
from pathlib import Path
from random import Random
from typing import Any, Callable

import numpy
import pytest
from random_lines import RandomLines

from pevudlo import END, START, Ended, Library, Machine, NotFound, Pending, Pipe, after, find, find_library
from pevudlo.values.arrays import ValueArray
from pevudlo.wire import library_places
from pevudlo.wire.library_calls import CALLS, Outcome, place_number
from pevudlo.wire.program import ROOT

HEADER = ROOT / "bindings/c/paris.h"
FRONT = ROOT / "crates/paris_front"
SCRIPTS = sorted([*ROOT.glob("examples/*.paris"), *ROOT.glob("checks/rows/*/*.paris")])


# The header


def test_the_outcomes_are_those_of_the_header() -> None:
    statuses = HEADER.read_text().partition("enum paris_status {")[2].partition("};")[0]
    listed = re.findall(r"^  PARIS_([A-Z_]+) = (\d+)", statuses, re.M)
    assert {outcome.name: outcome.value for outcome in Outcome} == {name: int(number) for name, number in listed}


def test_the_calls_are_declared_as_the_header_declares_them() -> None:
    kinds = {"size_t": ctypes.c_size_t, "uint64_t": ctypes.c_uint64, "uint32_t": ctypes.c_uint32}
    declared = dict(re.findall(r"^uint32_t (paris_\w+)\(([^)]*)\);", HEADER.read_text(), re.M))
    assert set(CALLS) <= set(declared)
    for name, taken in CALLS.items():
        words = [word.strip().rpartition(" ") for word in declared[name].split(",")]
        for (kind, _, argument), ours in zip(words, taken, strict=True):
            is_pointer = kind.endswith("*") or argument.startswith("*")
            assert ours in ((ctypes.c_void_p, ctypes.c_char_p) if is_pointer else (kinds[kind],)), (name, argument)
            # Only what the library may not write is passed as bytes.
            assert ours is not ctypes.c_char_p or kind.startswith("const uint8_t"), (name, argument)


# Where it is


@pytest.fixture
def lost(tmp_path: Path, monkeypatch: pytest.MonkeyPatch) -> Path:
    """No variable, and a folder that is no repository."""
    monkeypatch.delenv(library_places.LIBRARY_VARIABLE, raising=False)
    monkeypatch.setattr(library_places, "ROOT", tmp_path)
    return tmp_path


def test_by_argument(lost: Path) -> None:
    (lost / "one").touch()
    assert find_library(lost / "one") == find_library(str(lost / "one")) == lost / "one"
    with pytest.raises(NotFound, match="libparis.so was not found: .*two is no file"):
        find_library(lost / "two")


def test_by_variable(lost: Path, monkeypatch: pytest.MonkeyPatch) -> None:
    (lost / "one").touch()
    monkeypatch.setenv(library_places.LIBRARY_VARIABLE, str(lost / "one"))
    assert find_library() == lost / "one"
    monkeypatch.setenv(library_places.LIBRARY_VARIABLE, str(lost / "two"))
    with pytest.raises(NotFound, match="PARIS_LIBRARY names .*two"):
        find_library()


def unpacks(folder: Path, body: str) -> Path:
    """A repository's bindings/c/unpack that does this, and the place of the library there."""
    made = folder / "bindings/c/out/libparis.so"
    made.parent.mkdir(parents=True)
    unpack = folder / "bindings/c/unpack"
    unpack.write_text(f"#!/bin/sh\n{body}\n")
    unpack.chmod(0o755)
    return made


def test_in_the_repository(lost: Path) -> None:
    made = unpacks(lost, 'echo once >>"$(dirname "$0")/out/libparis.so"')
    assert find_library() == find_library() == made
    assert made.read_text() == "once\n"


def test_what_was_built_here_where_nothing_is_unpacked(lost: Path) -> None:
    made = unpacks(lost, "echo other sources >&2; exit 1")
    with pytest.raises(NotFound, match="other sources"):
        find_library()
    made.touch()
    assert find_library() == made


def test_nowhere(lost: Path) -> None:
    with pytest.raises(NotFound) as error:
        find_library()
    for place in ("PARIS_LIBRARY", "no repository"):
        assert place in str(error.value)


def test_a_file_of_the_current_folder(libparis: Path, monkeypatch: pytest.MonkeyPatch) -> None:
    monkeypatch.chdir(libparis.parent)
    with Machine(library=libparis.name) as machine:
        assert machine.rows() == ()


def test_a_file_that_is_no_library(tmp_path: Path) -> None:
    (tmp_path / "text").write_text("no library")
    with pytest.raises(NotFound, match="libparis.so was not found: .*text can't be loaded"):
        Machine(library=tmp_path / "text")
    with pytest.raises(NotFound, match="can't be loaded: .*paris_open"):
        Machine(library=_ctypes.__file__)


# Lines


@pytest.mark.parametrize("path", SCRIPTS, ids=lambda path: str(path.relative_to(ROOT)))
def test_each_script_gives_its_transcript(libparis: Path, path: Path) -> None:
    with Library(libparis) as library:
        replies = [line for asked in path.read_text().split("\n") for line in library.ask(asked)]
        status = library.close()
    written = path.with_suffix(".expected").read_text()
    assert "".join(f"{line}\n" for line in replies) == written
    assert status == any(line.startswith("refused") for line in written.split("\n"))


def test_the_stored_run(libparis: Path) -> None:
    lines = (FRONT / "stdin").read_bytes().decode("utf-8", "surrogateescape").split("\n")
    with Library(libparis) as library:
        replies = [line for asked in lines for line in library.ask(asked)]
    written = "".join(f"{line}\n" for line in replies).encode("utf-8", "surrogateescape")
    assert written == (FRONT / "stdout").read_bytes()


@pytest.mark.parametrize("seed", [1, 2])
def test_random_lines_and_bytes_are_answered_as_by_the_program(libparis: Path, seed: int) -> None:
    chance = Random(seed)
    lines = RandomLines(seed).lines(10_000)
    for _ in range(2_000):
        noise = chance.randbytes(chance.randrange(40)).replace(b"\n", b"")
        lines.insert(chance.randrange(len(lines)), noise.decode("utf-8", "surrogateescape"))
    lines = ["paris 2", *lines, "paris 2"] if seed == 2 else ["paris 3", *lines]
    with Library(libparis) as library, Pipe(find()) as pipe:
        for line in lines:
            assert library.ask(line) == pipe.ask(line), line
        assert library.close() == pipe.close() == 1


def test_a_line_above_the_limit(libparis: Path) -> None:
    with Library(libparis) as library:
        assert library.ask("x" * 1_000_000) == ["refused 20 65537"]
        assert library.ask("#" * 1_000_000) == library.ask("") == []
        with pytest.raises(ValueError, match="one line"):
            library.ask("list\nlist")
        with pytest.raises(UnicodeEncodeError):
            library.ask("set S \ud800")
        assert library.ask("settle") == ["settled 0"]


# Values


WIDE = {1: 64, 2: 100}
"""The width of the field w by the profile."""


def both(profile: int) -> tuple[Machine, Machine]:
    """A machine over the program and one over the library, with the same declarations."""
    machines = Machine(profile=profile), Machine(library=True, profile=profile)
    for machine in machines:
        machine.set("S", 4, 2)
        machine.set("T", 8)
        for name, width in (("a", 8), ("b", 8), ("c", 8), ("w", WIDE[profile]), ("f", 1)):
            machine.field(name, "S", width)
        machine.field("t", "T", 8)
        machine.insert("u-add-3-1L c a b 8")
    return machines


def outcome(machine: Machine, work: Callable[[Machine], object]) -> object:
    """What a work gives with a machine, or what it raises, in words."""
    try:
        given = work(machine)
    except Exception as error:
        return type(error), str(error)
    return (given.shape, given.ravel().tolist()) if isinstance(given, ValueArray) else given


def given(key: Any, values: Any) -> Callable[[Machine], object]:
    def give(machine: Machine) -> None:
        machine[key] = values

    return give


ODD: list[Callable[[Machine], object]] = [
    given("a", range(8)),
    given("a", numpy.arange(8, dtype=numpy.int8).reshape(2, 4)),
    given("a", numpy.arange(8, dtype=">u2")),
    given("a", numpy.arange(16, dtype=numpy.uint64)[::2]),
    given("a", numpy.array([2**64, 1, 2, 3, 4, 5, 6, 7], dtype=object)),
    given("a", numpy.array([1, 2, 3, -4, 5, 6, 7, 8])),
    given("a", [numpy.array([1, 2, 3, -4]), numpy.array([5, 6, 7, 8])]),
    given("a", [True, False] * 4),
    given("a", [1, 2, 3, 256, 5, 6, 7, 300]),
    given("a", [2**64] * 8),
    given("a", [2**128] * 8),
    given("w", [2**64 - 1] * 8),
    given("w", [2**64 - 1] * 7 + [2**64]),
    given("w", numpy.array([2**99, 2**64, 1, 2, 3, 4, 5, 6], dtype=object)),
    given("w", numpy.arange(8, dtype=numpy.uint64)),
    given("w", [1] * 7 + [2**100]),
    given(("w", slice(6, None)), [2**70, 2**71]),
    lambda machine: machine["w", 6],
    lambda machine: machine.raw("paris 2"),
    lambda machine: machine.raw("field x S 128"),
    lambda machine: machine.profile,
    given("f", [0, 1, 1, 0, 1, 0, 0, 2]),
    given("S.context", numpy.array([True, False] * 4)),
    given("S.carry", [2] * 8),
    given("S.contxt", [1] * 8),
    given("zz", [1] * 8),
    given("a b", [1] * 8),
    given("ä", [1] * 8),
    given("a\n", [1] * 8),
    given("\ud800", [1] * 8),
    given("S", [1] * 8),
    given(("a", slice(6, None)), [1, 2, 3]),
    given(("a", slice(8, None)), [1]),
    given(("a", 2**64 - 1), 1),
    given(("a", 2**64), 1),
    given(("a", 2**70), 1),
    given(("a", slice(numpy.int64(2), None)), [9, 8]),
    given(("a", 3), 255),
    given(("a", 3), 256),
    given(("a", 3), 2**200),
    given(("a", -1), 7),
    given(("a", -9), 7),
    given(("zz", 3), 7),
    given("a", []),
    given("a", numpy.zeros(0, dtype=int)),
    given("a", numpy.zeros(8)),
    lambda machine: machine["a"],
    lambda machine: machine["c"],
    lambda machine: machine["w"],
    lambda machine: machine["f"],
    lambda machine: machine["t"],
    lambda machine: machine["S.context"],
    lambda machine: machine["S.overflow"],
    lambda machine: machine["zz"],
    lambda machine: machine["S.contxt"],
    lambda machine: machine["a b"],
    lambda machine: machine["ä"],
    lambda machine: machine["\ud800"],
    lambda machine: machine.show("c", START),
    lambda machine: machine.show("c", after(1)),
    lambda machine: machine.show("c", after(0)),
    lambda machine: machine.show("c", after(7)),
    lambda machine: machine.show("c", after(-1)),
    lambda machine: machine.show("c", after(2**64 - 1)),
    lambda machine: machine.show("c", after(2**64)),
    lambda machine: machine.show("zz", after(7)),
    lambda machine: machine.settle(),
    lambda machine: machine["c"],
    lambda machine: machine.show("c", after(numpy.int64(1))),  # type: ignore[arg-type]
    lambda machine: machine.rows(),
    lambda machine: machine.close(),
    lambda machine: machine.close(),
]


@pytest.mark.parametrize("profile", WIDE)
def test_odd_calls_give_and_raise_the_same(libparis: Path, profile: int) -> None:
    program, library = both(profile)
    for number, work in enumerate(ODD):
        wanted = outcome(program, work)
        assert outcome(library, work) == wanted, number
    for machine in (program, library):
        with pytest.raises(Ended) as ended:
            machine["a"] = range(8)
        assert ended.value.status == 1
        with pytest.raises(Ended):
            machine["a"]


@pytest.mark.parametrize("profile", WIDE)
def test_random_arrays_rows_and_looks_are_the_same(libparis: Path, profile: int) -> None:
    chance, pending = Random(5), set[int]()
    places = [START, END, END, END, *map(after, (1, 2, 3, 4, 9))]
    for _ in range(30):
        machines = both(profile)
        for _ in range(60):
            key = chance.choice([*"aabbccccwft", "S.context", "S.test", "T.carry"])
            width = {"w": WIDE[profile], "f": 1}.get(key, 1 if "." in key else 8)
            values = [chance.getrandbits(width) for _ in range(8)]
            if chance.random() < 0.1:
                values[chance.randrange(8)] = 1 << width
            first, place = chance.choice([0, 0, 0, 3, 8]), chance.choice(places)
            sums = [f"u-add-3-1L {' '.join(chance.choices('abc', k=3))} 8", "u-lt-1L a b 8", "load-test f"]
            text = chance.choice([*sums, RandomLines(chance.randrange(10**6)).instruction()])
            work: Callable[[Machine], object] = chance.choice(
                [
                    given(key, numpy.array(values, dtype=numpy.uint64))
                    if max(values) < 2**64
                    else given(key, values),
                    given((key, slice(first, None)), values[first:] or [1]),
                    lambda machine: machine.insert(text, place),
                    lambda machine: machine.show(key, place),
                    lambda machine: machine.show(key, place),
                    lambda machine: machine.show(key, place),
                    lambda machine: machine.settle(),
                    lambda machine: machine.take(),
                    lambda machine: machine.bring(1),
                    lambda machine: machine.rows(),
                ]
            )
            one, two = (outcome(machine, work) for machine in machines)
            assert one == two
            pending |= {one.row} if isinstance(one, Pending) else set()
        assert machines[0].close() == machines[1].close()
    assert len(pending) >= 5


def test_an_array_is_one_edit(libparis: Path) -> None:
    values = numpy.arange(65_536, dtype=numpy.uint64)
    editions = []
    for over in (False, True):
        with Machine(library=over) as machine:
            machine.set("S", 65_536)
            machine.field("a", "S", 64)
            machine["a"] = values
            machine.insert("u-move-1L a a 64")
            editions.append(machine.rows()[0].edition)
            machine.settle()
            assert numpy.array_equal(numpy.asarray(machine["a"]), values)
    assert editions[1] == 4 < editions[0]


def test_a_look_is_of_its_time(libparis: Path) -> None:
    with Machine(library=True) as machine:
        machine.set("S", 4)
        machine.field("a", "S", 8)
        machine["a"] = [1, 2, 3, 4]
        before = machine["a"]
        machine["a"] = before
        machine["a"] = [5, 6, 7, 8]
        assert not isinstance(before, Pending) and before.tolist() == [1, 2, 3, 4]
        html = before._repr_html_()
        assert html is not None and ">4<" in html
    assert before.tolist() == [1, 2, 3, 4]


@pytest.mark.parametrize(
    "text, number",
    [
        ("start", 0),
        ("end", 2**64 - 1),
        ("after 1", 1),
        (f"after {2**64 - 2}", 2**64 - 2),
        (f"after {2**64 - 1}", None),
        ("after 0", None),
        ("after 01", None),
        ("after ²", None),
        ("after -1", None),
        ("after ", None),
        ("1", None),
    ],
)
def test_places_as_numbers(text: str, number: int | None) -> None:
    assert place_number(text) == number


# Sessions


def test_workers_are_1_to_16(libparis: Path) -> None:
    for workers in (0, 17):
        with pytest.raises(ValueError, match=f"workers are 1 to 16, and not {workers}"):
            Machine(library=True, workers=workers)
    for workers in (1, 16):
        Machine(library=True, workers=workers).close()
    with pytest.raises(ValueError, match="over a program or over the library"):
        Machine(find(), library=True)


def test_a_machine_says_what_it_is_over(libparis: Path) -> None:
    with Machine(library=True) as machine:
        assert (machine.program, machine.library) == (None, libparis)
        with pytest.raises(AttributeError, match="no child process"):
            machine.process
    with Machine(library=libparis) as machine:
        assert machine.library == libparis
    with Machine() as machine:
        assert (machine.program, machine.library) == (find(), None)


@pytest.mark.parametrize("seed", range(4))
def test_touched_rows_are_those_of_a_later_edition(libparis: Path, seed: int) -> None:
    """Beside the list of all rows, since each count of edits: more rows than there is room for at first."""
    chance = Random(seed)
    with Library(libparis) as library:
        for line in ("set S 4", "field a S 8", "field b S 8"):
            library.ask(line)
        for count in range(4, 104):
            library.ask(f"insert {chance.choice(['start', 'end'])} u-move-1L {chance.choice(['a b', 'b a', 'a a'])} 8")
            assert library.touched(0)[1] == count
        for _ in range(200):
            row = chance.choice(library.ask("list")[1:]).split(" ")[0]
            edits = [
                "input a 0 {}",
                "input b 2 {}",
                f"replace {row} u-move-constant-1L b {{}} 8",
                f"delete {row}",
                "settle",
            ]
            library.ask(chance.choice(edits).format(chance.randrange(256)))
            rows = [line.split(" ")[:3:2] for line in library.ask("list")[1:]]
            since = chance.randrange(library.touched(0)[1] + 2)
            assert library.touched(since)[0] == [int(row) for row, edition in rows if int(edition) > since]


def test_closing_twice(libparis: Path) -> None:
    for line, status in (("set S 4", 0), ("set S 3", 1)):
        library = Library(libparis)
        library.ask(line)
        assert library.close() == library.close() == status
        with pytest.raises(Ended, match=f"the session is closed .exit status {status}.") as ended:
            library.ask("list")
        assert (ended.value.status, ended.value.line) == (status, "")


def test_threads_share_a_session(libparis: Path) -> None:
    with Machine(library=True) as machine, ThreadPoolExecutor(4) as threads:
        machine.set("S", 4)
        machine.field("a", "S", 8)
        made = [threads.submit(machine.insert, "u-add-3-1L a a a 8") for _ in range(200)]
        ids = [each.result(timeout=20) for each in made]
        assert sorted(ids) == list(range(1, 201))
        assert [row.row for row in machine.rows()] == machine._board.rows
        assert threads.submit(machine.settle).result(timeout=20) == 200
        assert threads.submit(machine.close).result(timeout=20) == 0
        with pytest.raises(Ended):
            machine.rows()


def test_a_call_within_a_call_is_refused(libparis: Path) -> None:
    with Library(libparis) as library:
        library._is_in_call = True
        with pytest.raises(RuntimeError, match="one call at a time"):
            library.ask("list")
        library._is_in_call = False
        assert library.ask("list") == ["rows 0"]


def test_ctrl_c_in_a_settle_keeps_what_is_settled(libparis: Path) -> None:
    def interrupt(number: int, frame: object) -> None:
        raise KeyboardInterrupt

    with Library(libparis) as library, Library(libparis) as other:
        for line in ("set S 65536", "field a S 64", *["insert end u-truncate-3-1L a a a 64"] * 2000):
            library.ask(line)
            other.ask(line)
        before = signal.signal(signal.SIGALRM, interrupt)
        try:
            signal.setitimer(signal.ITIMER_REAL, 0.1)
            with pytest.raises(KeyboardInterrupt):
                library.ask("settle")
        finally:
            signal.setitimer(signal.ITIMER_REAL, 0)
            signal.signal(signal.SIGALRM, before)
        (settled,) = library.ask("settle")
        assert 0 < int(settled.removeprefix("settled ")) < 2000
        assert other.ask("settle") == ["settled 2000"]
        assert library.ask("list") == other.ask("list")


def memory() -> int:
    """The bytes of this process that are in memory."""
    pages = int(Path("/proc/self/statm").read_text().split()[1])
    return pages * 4096


def test_machines_that_nobody_holds_are_closed(libparis: Path) -> None:
    values = numpy.full(65_536, 2**64 - 1, dtype=numpy.uint64)
    before = memory()
    for _ in range(200):
        machine = Machine(library=True)
        machine.set("S", 65_536)
        machine.field("a", "S", 64)
        machine["a"] = values
        del machine
    gc.collect()
    # They would take 100 MB.
    assert memory() - before < 50_000_000


def test_without_memory_a_call_changes_nothing(libparis: Path) -> None:
    """Rows that double mixed numbers are put in and settled until memory is refused, and again once there is some."""
    script = """
import numpy, resource, sys
sys.path.insert(0, sys.argv[1])
from pevudlo import Machine
ones = numpy.random.default_rng(1).integers(1, 1 << 62, 65536, dtype=numpy.uint64)
twos = ones * numpy.uint64(2)
def limit(more):
    pages = int(open("/proc/self/statm").read().split()[0])
    resource.setrlimit(resource.RLIMIT_AS, (pages * 4096 + more, resource.RLIM_INFINITY))
machine = Machine(library=True)
machine.set("S", 65536)
machine.field("a", "S", 64)
machine["a"] = ones
machine["a"]
limit(2_000_000)
try:
    for _ in range(60):
        machine.insert("u-add-3-1L a a a 64")
        machine.settle()
except MemoryError as error:
    print(error)
start = 1
try:
    machine["a"] = twos
    start = 2
except MemoryError as error:
    assert str(error).endswith("nothing has changed")
limit(500_000_000)
machine.settle()
values = machine["a"]
doubled = ones * numpy.uint64(start * 2 ** len(machine.rows()) % 2**64)
print((values == doubled).all(), 0 < len(machine.rows()) < 60, machine.close())
"""
    words = [sys.executable, "-c", script, str(ROOT / "python")]
    ran = subprocess.run(words, capture_output=True, text=True, timeout=60)
    refused, last = ran.stdout.splitlines()
    assert refused.startswith("there is no memory left")
    assert (last, ran.stderr) == ("True True 0", "")


def test_many_lines_are_answered_as_one_after_another(libparis: Path) -> None:
    lines = [
        "set S 4",
        "",
        "# A comment.",
        "field a S 8",
        "insert end u-add-3-1L a a a 8",
        "list",
        "show b end",
        "settle",
    ]
    with Library(libparis) as library, Library(libparis) as other:
        assert library.ask_all(lines) == [other.ask(line) for line in lines]
        with pytest.raises(ValueError):
            library.ask_all(["settle", "set T\n4"])
        assert library.ask("list") == other.ask("list")
    assert library.close() == 1
