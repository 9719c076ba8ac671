"use strict";
// Plays VS Code to the extension of editors/vscode: opens a script, asks, types, and writes what came as one line of JSON.
// Usage: node vscode.js EXTENSION SCRIPT COMMAND..

const Module = require("module");
const [extension, text, ...command] = process.argv.slice(2);

class Holds {
  constructor(...parts) {
    this.parts = parts;
  }
}
class Position {
  constructor(line, character) {
    Object.assign(this, { line, character });
  }
}
class Range {
  constructor(start, end) {
    Object.assign(this, { start, end });
  }
}
class Diagnostic {
  constructor(range, message, severity) {
    Object.assign(this, { range, message, severity });
  }
}
class Emitter {
  constructor() {
    this.heard = [];
    this.event = (call) => this.heard.push(call);
  }
  fire(value) {
    this.heard.forEach((call) => call(value));
  }
}
class WorkspaceEdit {
  constructor() {
    this.parts = [];
  }
  replace(uri, range, text) {
    this.parts.push({ uri: String(uri), range, text });
  }
}
class Uri {
  constructor(text) {
    this.toString = () => text;
  }
  static parse(text) {
    return new Uri(text);
  }
}

const events = { Open: new Emitter(), Change: new Emitter(), Save: new Emitter(), Close: new Emitter() };
const providers = {};
const commands = {};
const errors = [];
const status = { text: "", show() {} };
const told = new Emitter();
const document = { uri: new Uri("file:///sum.paris"), languageId: "paris", version: 1, getText: () => text };
const other = { ...document, uri: new Uri("file:///notes.txt"), languageId: "plaintext" };

const vscode = {
  Position,
  Range,
  Diagnostic,
  WorkspaceEdit,
  Uri,
  EventEmitter: Emitter,
  CodeActionKind: { QuickFix: "quickfix" },
  StatusBarAlignment: { Left: 1 },
  window: { createStatusBarItem: () => status, showErrorMessage: (words) => errors.push(words) },
  commands: { registerCommand: (name, call) => (commands[name] = call) },
  workspace: {
    getConfiguration: () => ({ get: () => command }),
    textDocuments: [document, other],
    onDidOpenTextDocument: events.Open.event,
    onDidChangeTextDocument: events.Change.event,
    onDidSaveTextDocument: events.Save.event,
    onDidCloseTextDocument: events.Close.event,
  },
  languages: new Proxy(
    {
      createDiagnosticCollection: () => ({
        set: (uri, found) => told.fire(found),
        clear() {},
      }),
    },
    {
      get: (own, name) =>
        own[name] || ((selector, provider) => (providers[/register(\w+)Provider/.exec(name)[1]] = provider)),
    }
  ),
};
for (const name of ["Location", "Hover", "MarkdownString", "CompletionItem", "DocumentSymbol", "InlayHint", "CodeAction"]) {
  vscode[name] = class extends Holds {};
}
for (const name of ["DocumentHighlight", "FoldingRange", "SemanticTokens", "SemanticTokensLegend"]) {
  vscode[name] = class extends Holds {};
}

const load = Module._load;
Module._load = (name, ...rest) => (name === "vscode" ? vscode : load(name, ...rest));

const next = () => new Promise((resolve) => (told.heard = [resolve]));
const all = new Range(new Position(0, 0), new Position(99, 0));

async function play() {
  const paris = require(extension);
  const first = next();
  await paris.activate({ subscriptions: [] });
  const found = { wrong: await first };
  const ask = (name, method, ...words) => providers[name][method](document, ...words);
  const sum = new Position(5, 11);
  found.hover = await ask("Hover", "provideHover", sum);
  found.hints = await ask("InlayHints", "provideInlayHints", all);
  found.definition = await ask("Definition", "provideDefinition", new Position(6, 13));
  found.declaration = await ask("Declaration", "provideDeclaration", sum);
  found.references = await ask("Reference", "provideReferences", sum, { includeDeclaration: false });
  found.highlights = await ask("DocumentHighlight", "provideDocumentHighlights", sum);
  found.named = await ask("Rename", "prepareRename", sum);
  found.renamed = (await ask("Rename", "provideRenameEdits", sum, "sum")).parts;
  found.refused = await ask("Rename", "provideRenameEdits", sum, "1").catch((error) => error.message);
  found.actions = await ask("CodeActions", "provideCodeActions", all, { diagnostics: found.wrong });
  found.items = await ask("CompletionItem", "provideCompletionItems", new Position(5, 11));
  found.symbols = await ask("DocumentSymbol", "provideDocumentSymbols");
  found.folds = await ask("FoldingRange", "provideFoldingRanges", {});
  found.tokens = (await ask("DocumentSemanticTokens", "provideDocumentSemanticTokens")).parts[0].length;
  const behind = next();
  const refreshed = new Promise((resolve) => providers.InlayHints.onDidChangeInlayHints(resolve));
  const line = new Range(new Position(8, 0), new Position(9, 0));
  const number = new Range(new Position(4, 16), new Position(4, 17));
  const changes = [{ range: line, text: "" }, { range: number, text: "5" }];
  events.Change.fire({ document, contentChanges: changes });
  events.Change.fire({ document: other, contentChanges: changes });
  found.mended = await behind;
  await refreshed;
  found.again = (await ask("InlayHints", "provideInlayHints", all)).map((hint) => hint.parts[1]);
  found.status = status.text;
  events.Save.fire(document);
  const restarted = next();
  await commands["paris.restart"]();
  found.restarted = (await restarted).length;
  events.Close.fire(document);
  found.closed = await ask("Hover", "provideHover", sum);
  await paris.deactivate();
  console.log(JSON.stringify({ ...found, errors }));
}

play().catch((error) => {
  console.error(error, errors);
  process.exit(1);
});
