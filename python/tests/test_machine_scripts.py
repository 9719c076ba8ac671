"""The worked rows and the gallery by Machine's calls: what they give is the transcript."""

from __future__ import annotations

from pathlib import Path

import pytest

from pevudlo import END, START, Machine, Pending, Place, Refusal, after
from pevudlo.values.arrays import ValueArray

REPOSITORY = Path(__file__).resolve().parents[2]
SCRIPTS = sorted(REPOSITORY.glob("examples/*.paris")) + sorted(REPOSITORY.glob("checks/rows/*/*.paris"))


def numbers(values: object) -> list[int]:
    assert isinstance(values, ValueArray)
    return [int(number) for number in values.ravel().tolist()]


def place_of(words: list[str]) -> tuple[Place, list[str]]:
    if words[0] == "after":
        return after(int(words[1])), words[2:]
    return {"start": START, "end": END}[words[0]], words[1:]


def edited(machine: Machine, words: list[str]) -> str:
    """The reply to an edit, made by Machine's calls."""
    match words:
        case ["set", name, axes]:
            machine.set(name, *map(int, axes.split("x")))
        case ["field", name, of, width]:
            machine.field(name, of, int(width))
        case ["input", key, first, *values]:
            machine[key, int(first) :] = [int(value) for value in values]
        case ["insert", *rest]:
            place, text = place_of(rest)
            return f"row {machine.insert(' '.join(text), place)}"
        case ["delete", row]:
            machine.delete(int(row))
        case ["replace", row, *text]:
            machine.replace(int(row), " ".join(text))
        case _:
            return looked(machine, words)
    return "ok"


def looked(machine: Machine, words: list[str]) -> str:
    """The reply to a command that is no edit, made by Machine's calls."""
    match words:
        case ["take"]:
            order = machine.take()
            return f"order {order.order} row {order.row} edition {order.edition}" if order else "nothing"
        case ["bring", order_number]:
            verdict = machine.bring(int(order_number))
            return verdict.word.value if verdict.edition is None else f"{verdict.word.value} {verdict.edition}"
        case ["release"]:
            machine.release()
            return "ok"
        case ["show", key, *rest]:
            values = machine.show(key, place_of(rest)[0])
            if isinstance(values, Pending):
                return f"pending {values.row}"
            return "values " + " ".join(map(str, numbers(values)))
        case ["list"]:
            rows = machine.rows()
            return "\n".join(
                [f"rows {len(rows)}"] + [f"{r.row} edition {r.edition} {r.status.value} {r.text}" for r in rows]
            )
        case ["faults"]:
            faults = machine.faults()
            return "\n".join([f"faults {len(faults)}"] + [f"{f.row} {f.cause.value} {f.processor}" for f in faults])
        case ["settle"]:
            return f"settled {machine.settle()}"
    raise AssertionError(words)


@pytest.mark.parametrize("path", SCRIPTS, ids=lambda path: str(path.relative_to(REPOSITORY)))
def test_each_script_gives_its_transcript(library: bool, path: Path) -> None:
    written = []
    with Machine(library=library) as machine:
        for line in path.read_text().split("\n"):
            if not line or line.startswith("#"):
                continue
            replies = machine.raw(line) if is_no_call(line) else None
            if replies is None:
                try:
                    replies = [edited(machine, line.split(" "))]
                except Refusal as refusal:
                    detail = refusal.explanation.detail
                    replies = [f"refused {refusal.number}" + (f" {detail}" if detail is not None else "")]
                    assert refusal.line == line and refusal.hint
            written += replies
        status = machine.close()
    transcript = path.with_suffix(".expected").read_text()
    assert "\n".join([*written, ""] if written else [""]) == transcript
    assert status == any(line.startswith("refused") for line in transcript.split("\n"))


def is_no_call(line: str) -> bool:
    """Whether no call writes such a line: it leaves the grammar before an instruction."""
    words = line.split(" ")
    if words[0] == "insert":
        return words[1] not in ("start", "end", "after") or (words[1] == "after" and not words[2].isdigit())
    sizes = {
        "set": 3,
        "field": 4,
        "delete": 2,
        "bring": 2,
        "take": 1,
        "release": 1,
        "list": 1,
        "faults": 1,
        "settle": 1,
    }
    if words[0] in sizes:
        return len(words) != sizes[words[0]] or not all(word[0:1].isalnum() for word in words)
    if words[0] == "show":
        return not (words[2:] in (["start"], ["end"]) or (words[2:3] == ["after"] and len(words) == 4))
    return words[0] not in ("input", "replace") or not all(word.isdigit() for word in words[2:3])


def test_most_scripts_are_made_by_calls() -> None:
    lines = [line for path in SCRIPTS for line in path.read_text().split("\n") if line and not line.startswith("#")]
    assert sum(map(is_no_call, lines)) < 30 < 1_000 < len(lines)
