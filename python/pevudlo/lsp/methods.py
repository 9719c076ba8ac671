"""The methods that are known, each with the shape of its parameters; how it is answered where it is about a file."""

from __future__ import annotations

from collections.abc import Callable
from dataclasses import dataclass
from enum import Enum
from typing import Any

from pevudlo.lsp import completion, diagnostics, names, outline, values
from pevudlo.lsp.client import Client
from pevudlo.lsp.opened import Opened
from pevudlo.lsp.shapes import GREATEST, Anything, Either, Flag, ListOf, Nothing, Number, Record, Shape, Text

IDENTITY = Either((Number(-GREATEST - 1), Text()))
"""The number of a request, which may be a text."""

VERSION = Number(-GREATEST - 1)
FILE = Record({"uri": Text()})
POSITION = Record({"line": Number(), "character": Number()})
RANGE = Record({"start": POSITION, "end": POSITION})

OF_FILE = Record({"textDocument": FILE})
OF_PLACE = Record({"textDocument": FILE, "position": POSITION})
OF_RANGE = Record({"textDocument": FILE, "range": RANGE})

OPENED = Record({"uri": Text(), "text": Text()}, {"version": VERSION, "languageId": Text()})
CHANGED = Record({"uri": Text()}, {"version": Either((VERSION, Nothing()))})
CHANGE = Record({"text": Text()}, {"range": RANGE})


class Role(Enum):
    """What a message of a method is."""

    REQUEST = "it is answered"
    NOTICE = "it is told, and not answered"


Answer = Callable[[Opened, dict[str, Any], Client], Any]


@dataclass(frozen=True)
class Method:
    """A method. `answer` gives the result of a request about an open file."""

    role: Role
    params: Shape
    answer: Answer | None = None


def notice(params: Shape) -> Method:
    """A notice."""
    return Method(Role.NOTICE, params)


def request(params: Shape, answer: Answer | None = None) -> Method:
    """A request."""
    return Method(Role.REQUEST, params, answer)


METHODS: dict[str, Method] = {
    "initialize": request(Record({}, {"capabilities": Anything()})),
    "initialized": notice(Anything()),
    "shutdown": request(Anything()),
    "exit": notice(Anything()),
    "$/cancelRequest": notice(Record({"id": IDENTITY})),
    "textDocument/didOpen": notice(Record({"textDocument": OPENED})),
    "textDocument/didChange": notice(Record({"textDocument": CHANGED, "contentChanges": ListOf(CHANGE)})),
    "textDocument/didSave": notice(OF_FILE),
    "textDocument/didClose": notice(OF_FILE),
    "$/paris/caret": notice(OF_PLACE),
    "textDocument/inlayHint": request(OF_RANGE, lambda file, params, client: values.hints(file, params)),
    "textDocument/hover": request(
        OF_PLACE, lambda file, params, client: values.hover(file, params, client.has_markdown)
    ),
    "textDocument/definition": request(OF_PLACE, lambda file, params, client: names.definition(file, params)),
    "textDocument/declaration": request(OF_PLACE, lambda file, params, client: names.declaration(file, params)),
    "textDocument/completion": request(OF_PLACE, lambda file, params, client: completion.completion(file, params)),
    "textDocument/references": request(
        Record(OF_PLACE.parts, {"context": Record({}, {"includeDeclaration": Flag()})}),
        lambda file, params, client: names.references(file, params),
    ),
    "textDocument/documentHighlight": request(OF_PLACE, lambda file, params, client: names.highlights(file, params)),
    "textDocument/prepareRename": request(OF_PLACE, lambda file, params, client: names.prepare_rename(file, params)),
    "textDocument/rename": request(
        Record({**OF_PLACE.parts, "newName": Text()}), lambda file, params, client: names.rename(file, params)
    ),
    "textDocument/codeAction": request(
        Record({**OF_RANGE.parts, "context": Record({"diagnostics": ListOf(Record({"range": RANGE}))})}),
        lambda file, params, client: diagnostics.actions(file, params),
    ),
    "textDocument/documentSymbol": request(OF_FILE, lambda file, params, client: outline.symbols(file)),
    "textDocument/foldingRange": request(OF_FILE, lambda file, params, client: outline.folds(file)),
    "textDocument/semanticTokens/full": request(OF_FILE, lambda file, params, client: outline.tokens(file)),
    "textDocument/semanticTokens/range": request(
        OF_RANGE, lambda file, params, client: outline.tokens(file, params["range"])
    ),
}
