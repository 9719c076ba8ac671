"""What a client can do, as it says, and what it is told that the server can."""

from __future__ import annotations

from dataclasses import dataclass
from typing import Any

from pevudlo.lsp import diagnostics, outline

INCREMENTAL = 2


@dataclass(frozen=True)
class Client:
    """What a client can do."""

    has_markdown: bool = False
    draws_pale: bool = False
    refreshes_hints: bool = False
    shows_progress: bool = False


def client_of(capabilities: Any) -> Client:
    """What a client says that it can do. It can't what it says in another shape than the protocol's."""
    return Client(
        "markdown" in listed_in(capabilities, "textDocument", "hover", "contentFormat"),
        diagnostics.UNNECESSARY
        in listed_in(capabilities, "textDocument", "publishDiagnostics", "tagSupport", "valueSet"),
        found_in(capabilities, "workspace", "inlayHint", "refreshSupport") is True,
        found_in(capabilities, "window", "workDoneProgress") is True,
    )


def listed_in(value: Any, *path: str) -> list[Any]:
    """The list that stands in objects in objects under these names; an empty one where none does."""
    found = found_in(value, *path)
    return found if isinstance(found, list) else []


def found_in(value: Any, *path: str) -> Any:
    """What stands in objects in objects under these names, or None."""
    for name in path:
        value = value.get(name) if isinstance(value, dict) else None
    return value


CAPABILITIES: dict[str, Any] = {
    "positionEncoding": "utf-16",
    "textDocumentSync": {"openClose": True, "change": INCREMENTAL, "save": True},
    "inlayHintProvider": True,
    "hoverProvider": True,
    "definitionProvider": True,
    "declarationProvider": True,
    "completionProvider": {"triggerCharacters": [" ", "-", "."]},
    "referencesProvider": True,
    "documentHighlightProvider": True,
    "renameProvider": {"prepareProvider": True},
    "codeActionProvider": {"codeActionKinds": ["quickfix"]},
    "documentSymbolProvider": True,
    "foldingRangeProvider": True,
    "semanticTokensProvider": {
        "legend": {"tokenTypes": list(outline.TOKENS), "tokenModifiers": []},
        "full": True,
        "range": True,
    },
}
