"""The toolchain's own module, and the libraries that stand built of the sources here: for what tries, measures and works over them."""

import importlib.machinery
import importlib.util
import json
import os
import shutil
import sys
import tempfile
from collections.abc import Callable, Iterator
from concurrent.futures import FIRST_COMPLETED, Future, ThreadPoolExecutor, wait
from contextlib import contextmanager
from pathlib import Path
from types import ModuleType
from typing import Any

ROOT = Path(__file__).resolve().parent.parent.parent
# In a library's folder: the sum of all that it was proved and built from, by the gate or by what stands beside this file.
MARK = "proved"
# The crates that are compiled for two processors, and the second of these. rt compiles for the first, x86-64-v2, of itself.
COMPILED_TWICE = ("paris_front", "paris_c")
BETTER = "x86-64-v3"
# Words of the prover's call with a value that a call which proves nothing doesn't take.
PROVING = ("--logic-built", "--jobs")
# What the last run of the gate took, crate by crate.
COSTS = ROOT / "checks" / "gate" / "out" / "costs.json"
# What each crate may take.
BUDGETS = ROOT / "checks" / "gate" / "budgets"
# A proof gains little from more jobs.
MOST_JOBS = 4
# How much of the longest chain's weight a chain has that isn't to wait for processors.
NEAR = 0.95


def load_rt() -> ModuleType:
    """Returns rt's module as it is."""
    sys.dont_write_bytecode = True
    found = shutil.which("rt")
    assert found, "there is no rt on the PATH"
    loader = importlib.machinery.SourceFileLoader("rt", os.path.realpath(found))
    spec = importlib.util.spec_from_loader("rt", loader)
    assert spec
    rt = importlib.util.module_from_spec(spec)
    loader.exec_module(rt)
    return rt


def load_gate() -> ModuleType:
    """Returns rt's module, set up as rt ci sets it up. The repository's top has to be the current folder."""
    gate = load_rt()
    for word in (gate.rtlib.ALLOW_C, gate.rtlib.BACKEND, "RT_SECONDS"):
        os.environ.pop(word, None)
    gate.rtlib.guarded()
    gate.rtlib.Crate = gate.Crate
    # The crates above a library load its statements and not its proofs, as in the gate.
    gate.Crate.cuts_libraries = True
    gate.Crate.allowed = gate.handles_of(os.getcwd())
    # (rt makes the sum of a crate's sources anew along each path that leads down to it, and there are thousands)
    gate.Crate.stamp = remembered(gate.Crate.stamp)
    return gate


def keep_checked(gate: ModuleType, *more: str) -> None:
    """Has the proofs of the program and of the library for C keep what they checked, so that compile_checked compiles just that. The prover
    takes what was checked for one processor for no other, so either crate is checked once more for each that is named."""
    plain = gate.Crate.ci

    def prove(crate: Any, flags: list[str], tests: bool) -> Any:
        if tests or crate.name not in COMPILED_TWICE:
            return plain(crate, flags, tests)
        status = check(crate, flags, None) if crate.is_static else plain(crate, flags, tests)
        for cpu in more:
            status = status or check(crate, flags, cpu)
        return status

    gate.Crate.ci = prove


def check(crate: Any, flags: list[str], cpu: str | None) -> Any:
    """Proves a crate from nothing, for a processor or for rt's own, and keeps what was checked."""
    stamp, mark = crate.stamp(), mark_of_checked(crate, cpu)
    mark.unlink(missing_ok=True)
    status = crate.prove(["check", *crate.words(flags, keeps=False), *words_of(cpu), "-o", checked(cpu)])
    if not status:
        mark.write_text(stamp)
    return status


def compile_checked(gate: ModuleType, crate: Any, cpu: str | None, made: str) -> Any:
    """Compiles a program's object file, or a library for C, of what its proof kept. Where that isn't of the present sources, the crate
    itself is proved, by the prover's own call, once for all processors. What is below it is taken as it stands."""
    words = [*crate.words(["--jobs", "2"], keeps=False), *words_of(cpu)]
    if is_checked(crate, cpu):
        for flag in PROVING:
            at = words.index(flag)
            words = [*words[:at], *words[at + 2 :]]
        words += ["--crate-checked", checked(cpu)]
    else:
        words += gate.rtlib.KEPT
    os.makedirs(Path(crate.folder, made).parent, exist_ok=True)
    words += ["--toolchain", f"{gate.KIT}/toolchain", "--backend", "llvm"]
    return crate.call(gate.rtlib.RATTLE, "build", *words, "-o", made)


def words_of(cpu: str | None) -> list[str]:
    return ["--cpu", cpu] if cpu else []


def checked(cpu: str | None) -> str:
    """What a check for a processor keeps, in the crate's folder."""
    return f"out/checked-{cpu}" if cpu else "out/checked"


def mark_of_checked(crate: Any, cpu: str | None) -> Path:
    return Path(crate.folder, f"{checked(cpu)}.{MARK}")


def remembered(stamp: Callable[[Any], str]) -> Callable[[Any], str]:
    """A crate's stamp, made once for each crate of a process: no source changes while it is judged."""
    sums: dict[str, str] = {}

    def stamp_once(crate: Any) -> str:
        if crate.folder not in sums:
            sums[crate.folder] = stamp(crate)
        return sums[crate.folder]

    return stamp_once


def crates_here(gate: ModuleType) -> list[Any]:
    """The crates of the current folder as rt sees them, each behind those that it stands on."""
    return sorted(gate.rtlib.crates_below(os.getcwd()), key=lambda crate: len(crate.below()))


def is_checked(crate: Any, cpu: str | None) -> bool:
    """Whether what a check for a processor keeps stands, of the sources as they are."""
    mark = mark_of_checked(crate, cpu)
    return mark.is_file() and mark.read_text() == crate.stamp()


def crate_to_compile(gate: ModuleType, name: str) -> Any:
    """A crate of the current folder, to be compiled over the libraries that stand built. Where one of them is missing, the process ends."""
    crate = next(it for it in gate.rtlib.crates_below(os.getcwd()) if it.name == name)
    missing = [it.name for it in crate.below() if not os.path.isdir(it.rlib)]
    if missing:
        sys.exit(f"{sys.argv[0]}: {', '.join(missing)} isn't built: run the gate, or `rt lib` in crates/{name}")
    crate.out = sys.stdout
    return crate


def mark_of(crate: Any) -> Path:
    return Path(crate.rlib).parent / MARK


def stands(crate: Any) -> bool:
    """Whether the crate's library stands built of the sources as they are."""
    return os.path.isdir(crate.rlib) and (crate.is_built() or mark_of(crate).is_file() and mark_of(crate).read_text() == crate.stamp())


def adopt(crates: list[Any]) -> None:
    """Marks the libraries that rt ci has left as built of these sources. It has to have ended well, on them."""
    for crate in crates:
        if crate.makes_rlib() and os.path.isdir(crate.rlib) and not crate.is_built():
            mark_of(crate).write_text(crate.stamp())


def drop(crates: list[Any]) -> None:
    """Removes marked libraries, which rt ci would otherwise put back over those that it makes."""
    for crate in crates:
        if mark_of(crate).is_file():
            shutil.rmtree(Path(crate.rlib).parent)


Task = tuple[list[Any], int, int, int, Callable[[int], bool]]


def in_lanes(tasks: dict[Any, Task], lanes: int, memory: int) -> dict[Any, bool]:
    """Runs tasks side by side and says of each whether it went well. A task is: those that it waits for, its weight, its bytes of memory,
    how many jobs it can use, and a call that gets how many it may use. Those with no weight are called at once, since nothing is left to do
    in them. Of the others first come those with the most weight behind them. One for which the longest chain waits gets as many jobs as it
    can use, beside those that run already, and counts for half of the idle lanes at least. One that waits for a task that didn't go well
    isn't run."""
    behind = {key: 0 for key in tasks}
    for key in reversed([*tasks]):
        behind[key] += tasks[key][1]
        for below in tasks[key][0]:
            behind[below] = max(behind[below], behind[key])
    ended = {key: call(1) for key, (_, weight, _, _, call) in tasks.items() if not weight}
    left = sorted((key for key in tasks if key not in ended), key=lambda key: -behind[key])
    running: dict[Future[bool], tuple[Any, int, int]] = {}
    with ThreadPoolExecutor(lanes) as pool:
        while left or running:
            for key in [it for it in left if any(ended.get(below) is False for below in tasks[it][0])]:
                left.remove(key)
                ended[key] = False
            ready = [it for it in left if all(below in ended for below in tasks[it][0])]
            longest = max((behind[it] for it in left), default=0)
            for place, key in enumerate(ready):
                idle = lanes - sum(jobs for _, _, jobs in running.values())
                room = memory - sum(needs for _, needs, _ in running.values())
                needs, most = tasks[key][2:4]
                if idle > 0 and (needs <= room or not running):
                    share = max(idle // (len(ready) - place), 0 if place else (idle + 1) // 2)
                    wanted = most if behind[key] >= NEAR * longest else share
                    jobs = max(1, min(most, wanted, 1 + int((room / needs - 1) / 0.6)))
                    left.remove(key)
                    running[pool.submit(tasks[key][4], jobs)] = key, int(needs * (1 + 0.6 * (jobs - 1))), max(1, min(jobs, share))
            for done in wait(running, return_when=FIRST_COMPLETED).done if running else ():
                ended[running.pop(done)[0]] = done.result()
    return ended


def budgets() -> dict[str, float]:
    """The processor seconds that each crate's proof and tests may take together."""
    lines = (line.partition("#")[0].split() for line in BUDGETS.read_text().splitlines())
    return {line[0]: float(line[1]) for line in lines if line}


def longest_chains(crates: list[Any], most: float) -> set[str]:
    """The crates for whose proofs all others wait: those on a chain, each crate of which stands on the one before it, whose budgets come to
    at least so much of the longest chain's. The crates stand in the order in which they can be proved."""
    seconds = budgets()
    own = {crate.name: seconds.get(crate.name, 0.0) for crate in crates}
    up_to, after = dict[str, float](), {crate.name: 0.0 for crate in crates}
    for crate in crates:
        up_to[crate.name] = own[crate.name] + max((up_to[it.name] for it in crate.below()), default=0.0)
    for crate in reversed(crates):
        for it in crate.below():
            after[it.name] = max(after[it.name], own[crate.name] + after[crate.name])
    longest = max(up_to.values(), default=0.0)
    return {name for name in own if up_to[name] + after[name] >= most * longest}


def sums(log: str) -> dict[str, dict[str, Any]]:
    """The seconds, by crate, of its proof, of its tests and of its must-fail edits, and the megabytes of the largest call."""
    found: dict[str, dict[str, Any]] = {}
    for call in map(json.loads, Path(log).read_text(encoding="utf-8").splitlines()):
        words = call["words"]
        if "--crate-name" in words:
            crate = found.setdefault(words[words.index("--crate-name") + 1], {"proof": 0, "tests": 0, "edits": 0, "megabytes": 0})
            is_own = call["folder"].startswith(f"{ROOT}/")
            part = "edits" if not is_own else "tests" if "--test" in words else "proof"
            crate[part] = round(crate[part] + call["seconds"], 1)
            crate["megabytes"] = max(crate["megabytes"], call["megabytes"])
    return found


@contextmanager
def measured(gate: ModuleType) -> Iterator[None]:
    """Measures each call of the prover, and leaves what the crates took in COSTS, where checks/gate/costs reads it."""
    with tempfile.TemporaryDirectory(prefix="costs-") as room:
        os.environ["TIMED_PROGRAM"], os.environ["TIMED_LOG"] = gate.rtlib.RATTLE, f"{room}/log"
        Path(room, "log").touch()
        gate.rtlib.RATTLE = str(Path(__file__).resolve().parent / "timed")
        try:
            yield
        finally:
            gate.rtlib.RATTLE = os.environ["TIMED_PROGRAM"]
            COSTS.parent.mkdir(exist_ok=True)
            COSTS.write_text(json.dumps(sums(f"{room}/log"), indent=1) + "\n")
