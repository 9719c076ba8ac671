"""The package's parts: each imports those that are named here alone, and no module imports itself by way of others."""

from __future__ import annotations

import ast
from collections.abc import Iterator
from graphlib import TopologicalSorter
from pathlib import Path

import pytest

from pevudlo.wire.program import ROOT

TOP = ROOT / "python"
MODULES = sorted((TOP / "pevudlo").rglob("*.py"))
LOW = {
    "lang": "",
    "paris": "hints lang reference",
    "draw": "",
    "values": "draw lang",
    "wire": "interrupts lang values",
    "hints": "draw lang reference",
    "record": "draw hints lang progress values wire",
    "reference": "lang",
}
TALKING = " ".join(LOW) + " machine data talk explain files arguments progress"
STANDS_ON = {
    **LOW,
    "files": "",
    "script": "arguments draw files wire",
    "interrupts": "",
    "running": "interrupts lang wire",
    "progress": "",
    "relay": "progress wire",
    "arguments": "draw",
    "version": "wire",
    "talk": "hints interrupts lang",
    "data": "hints interrupts lang talk values wire",
    "summary": "lang",
    "editing": "data draw lang talk values",
    "machine": "data editing lang running summary talk values wire",
    "desk": "data draw editing hints lang machine running talk values wire",
    "explain": "arguments draw hints lang progress talk wire",
    "client": "draw hints lang values",
    "page": TALKING + " client",
    "prompt": TALKING + " running",
    "live": TALKING + " client document running",
    "document": TALKING,
    "lsp": TALKING + " document version",
    "exercise": "arguments document draw files wire",
    "serve": "arguments document draw exercise files lang running wire",
    "join": "document lsp progress serve wire",
    "editor": "arguments join lsp wire",
    "notebook": TALKING + " document",
    "follow": "document draw interrupts lang values wire",
    "algorithms": "",
    "help": "draw hints prompt reference wire",
    "cli": "draw hints script version",
    "__main__": "cli",
    "": "algorithms desk follow hints lang machine paris running values version wire",
}
"""Of each package, and of each module that is in none, what it imports of the others; `""` is `pevudlo/__init__.py`."""


def module_of(path: Path) -> str:
    """A module's name with dots."""
    parts = path.relative_to(TOP).with_suffix("").parts
    return ".".join(parts[:-1] if parts[-1] == "__init__" else parts)


NAMES = {module_of(path) for path in MODULES}


def part_of(module: str) -> str:
    """The part of the package in which a module is."""
    return (module.split(".") + [""])[1]


def named_by(node: ast.AST) -> Iterator[str]:
    """The package's modules that a statement imports."""
    if isinstance(node, ast.Import):
        yield from (each.name for each in node.names if each.name in NAMES)
    assert not isinstance(node, ast.ImportFrom) or node.level == 0, "modules are imported by their whole names"
    if isinstance(node, ast.ImportFrom) and node.module in NAMES:
        modules = {f"{node.module}.{each.name}" for each in node.names}
        yield from (modules & NAMES) or {node.module}


@pytest.mark.parametrize("path", MODULES, ids=module_of)
def test_a_part_stands_on_those_below_it(path: Path) -> None:
    part = part_of(module_of(path))
    imported = {part_of(name) for node in ast.walk(ast.parse(path.read_text())) for name in named_by(node)}
    assert imported - {part} <= set(STANDS_ON[part].split())


def test_the_order_of_the_parts_has_no_cycle() -> None:
    order = list(TopologicalSorter({part: words.split() for part, words in STANDS_ON.items()}).static_order())
    assert set(order) == {part_of(name) for name in NAMES}


def test_no_module_imports_itself_by_way_of_others() -> None:
    """Of what is imported when a module is; an import in a function is made when the function runs."""
    imports = {
        module_of(path): {name for node in ast.parse(path.read_text()).body for name in named_by(node)}
        for path in MODULES
    }
    assert len(list(TopologicalSorter(imports).static_order())) == len(MODULES)
