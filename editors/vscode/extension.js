"use strict";
// Starts `paris lsp` for scripts, and hands over what it says. It shows nothing of its own.

const vscode = require("vscode");
const { Client } = require("./client");

const SELECTOR = { language: "paris" };
const CAPABILITIES = {
  textDocument: {
    hover: { contentFormat: ["markdown"] },
    publishDiagnostics: { tagSupport: { valueSet: [1] } },
  },
  workspace: { inlayHint: { refreshSupport: true } },
};

let server;

const place = ({ line, character }) => new vscode.Position(line, character);
const range = ({ start, end }) => new vscode.Range(place(start), place(end));
const spot = (at) => new vscode.Location(vscode.Uri.parse(at.uri), range(at.range));
const plain = ({ line, character }) => ({ line, character });
const span = ({ start, end }) => ({ start: plain(start), end: plain(end) });
const about = (document) => ({ textDocument: { uri: document.uri.toString() } });
const at = (document, position) => ({ ...about(document), position: plain(position) });

class Server {
  constructor(context) {
    this.found = vscode.languages.createDiagnosticCollection("paris");
    this.status = vscode.window.createStatusBarItem(vscode.StatusBarAlignment.Left);
    this.changed = new vscode.EventEmitter();
    context.subscriptions.push(this.found, this.status, this.changed);
  }

  async start() {
    const command = vscode.workspace.getConfiguration("paris").get("command");
    const client = new Client(
      command,
      (method, params) => this.hear(method, params),
      (why) => vscode.window.showErrorMessage(`${command.join(" ")}: ${why}`)
    );
    this.client = client;
    const began = await client.ask("initialize", { processId: process.pid, rootUri: null, capabilities: CAPABILITIES });
    client.tell("initialized", {});
    this.isBegun = true;
    vscode.workspace.textDocuments.forEach((document) => this.open(document));
    return began;
  }

  async stop() {
    this.isBegun = false;
    this.found.clear();
    await this.client.close();
  }

  hear(method, params) {
    if (method === "textDocument/publishDiagnostics") {
      this.found.set(vscode.Uri.parse(params.uri), params.diagnostics.map(diagnostic));
    } else if (method === "$/paris/ran") {
      this.status.text = params.text;
      this.status.show();
    } else if (method === "workspace/inlayHint/refresh") {
      this.changed.fire();
    }
  }

  open(document) {
    if (!this.isBegun || document.languageId !== "paris") return;
    const item = { uri: document.uri.toString(), languageId: "paris", version: document.version, text: document.getText() };
    this.client.tell("textDocument/didOpen", { textDocument: item });
  }

  change({ document, contentChanges }) {
    if (!this.isBegun || document.languageId !== "paris" || !contentChanges.length) return;
    const changes = contentChanges.map((change) => ({ range: span(change.range), text: change.text }));
    const textDocument = { uri: document.uri.toString(), version: document.version };
    this.client.tell("textDocument/didChange", { textDocument, contentChanges: changes });
  }

  tell(method, document) {
    if (this.isBegun && document.languageId === "paris") this.client.tell(method, about(document));
  }

  // The result of a request, or nothing where it has none: VS Code asks again.
  async ask(method, params, token) {
    try {
      return await this.client.ask(`textDocument/${method}`, params, token);
    } catch {
      return null;
    }
  }
}

function diagnostic(each) {
  const made = new vscode.Diagnostic(range(each.range), each.message, each.severity - 1);
  Object.assign(made, { source: each.source, code: each.code, tags: each.tags });
  return made;
}

// Of a diagnostic what the server wants of it: where it is.
const told = (each) => ({ range: span(each.range), message: each.message });

function action(document, each, diagnostics) {
  const made = new vscode.CodeAction(each.title, vscode.CodeActionKind.QuickFix);
  made.edit = edits(each.edit);
  made.isPreferred = each.isPreferred;
  const lines = each.diagnostics.map((one) => one.range.start.line);
  made.diagnostics = diagnostics.filter((one) => lines.includes(one.range.start.line));
  return made;
}

function edits(edit) {
  const made = new vscode.WorkspaceEdit();
  for (const [uri, parts] of Object.entries(edit.changes)) {
    for (const part of parts) made.replace(vscode.Uri.parse(uri), range(part.range), part.newText);
  }
  return made;
}

function item(each) {
  const made = new vscode.CompletionItem(each.label, each.kind - 1);
  made.detail = each.detail;
  made.range = range(each.textEdit.range);
  made.insertText = each.textEdit.newText;
  return made;
}

const symbol = (each) =>
  new vscode.DocumentSymbol(each.name, each.detail, each.kind - 1, range(each.range), range(each.selectionRange));

function hint(each) {
  const made = new vscode.InlayHint(place(each.position), each.label);
  made.paddingLeft = each.paddingLeft;
  return made;
}

const listed = (made) => (found) => (found || []).map(made);

// What VS Code asks of a script, by way of the server.
function providers(server, legend) {
  const tokens = (found) => found && new vscode.SemanticTokens(Uint32Array.from(found.data));
  const { languages } = vscode;
  const spots = (method) => (document, position, token) =>
    server.ask(method, at(document, position), token).then(listed(spot));
  return [
    languages.registerHoverProvider(SELECTOR, {
      provideHover: async (document, position, token) => {
        const found = await server.ask("hover", at(document, position), token);
        return found && new vscode.Hover(new vscode.MarkdownString(found.contents.value), range(found.range));
      },
    }),
    languages.registerDefinitionProvider(SELECTOR, { provideDefinition: spots("definition") }),
    languages.registerDeclarationProvider(SELECTOR, { provideDeclaration: spots("declaration") }),
    languages.registerReferenceProvider(SELECTOR, {
      provideReferences: (document, position, context, token) =>
        server.ask("references", { ...at(document, position), context }, token).then(listed(spot)),
    }),
    languages.registerDocumentHighlightProvider(SELECTOR, {
      provideDocumentHighlights: (document, position, token) =>
        server
          .ask("documentHighlight", at(document, position), token)
          .then(listed((each) => new vscode.DocumentHighlight(range(each.range), each.kind - 1))),
    }),
    languages.registerRenameProvider(SELECTOR, {
      prepareRename: async (document, position) => {
        const found = await server.ask("prepareRename", at(document, position));
        if (!found) throw new Error("no declared name stands here");
        return { range: range(found.range), placeholder: found.placeholder };
      },
      provideRenameEdits: async (document, position, newName) =>
        edits(await server.client.ask("textDocument/rename", { ...at(document, position), newName })),
    }),
    languages.registerCodeActionsProvider(SELECTOR, {
      provideCodeActions: async (document, where, context, token) => {
        const diagnostics = context.diagnostics.map(told);
        const params = { ...about(document), range: span(where), context: { diagnostics } };
        const found = (await server.ask("codeAction", params, token)) || [];
        return found.map((each) => action(document, each, context.diagnostics));
      },
    }),
    languages.registerCompletionItemProvider(
      SELECTOR,
      {
        provideCompletionItems: async (document, position, token) => {
          const found = await server.ask("completion", at(document, position), token);
          return found && found.items.map(item);
        },
      },
      " ",
      "-",
      "."
    ),
    languages.registerDocumentSymbolProvider(SELECTOR, {
      provideDocumentSymbols: (document, token) =>
        server.ask("documentSymbol", about(document), token).then(listed(symbol)),
    }),
    languages.registerFoldingRangeProvider(SELECTOR, {
      provideFoldingRanges: (document, context, token) =>
        server
          .ask("foldingRange", about(document), token)
          .then(listed((each) => new vscode.FoldingRange(each.startLine, each.endLine))),
    }),
    languages.registerDocumentSemanticTokensProvider(
      SELECTOR,
      {
        provideDocumentSemanticTokens: (document, token) =>
          server.ask("semanticTokens/full", about(document), token).then(tokens),
      },
      legend
    ),
    languages.registerInlayHintsProvider(SELECTOR, {
      onDidChangeInlayHints: server.changed.event,
      provideInlayHints: (document, where, token) =>
        server.ask("inlayHint", { ...about(document), range: span(where) }, token).then(listed(hint)),
    }),
  ];
}

async function activate(context) {
  server = new Server(context);
  const { workspace } = vscode;
  context.subscriptions.push(
    vscode.commands.registerCommand("paris.restart", async () => {
      await server.stop();
      await server.start();
    }),
    workspace.onDidOpenTextDocument((document) => server.open(document)),
    workspace.onDidChangeTextDocument((event) => server.change(event)),
    workspace.onDidSaveTextDocument((document) => server.tell("textDocument/didSave", document)),
    workspace.onDidCloseTextDocument((document) => server.tell("textDocument/didClose", document))
  );
  const { capabilities } = await server.start();
  const { tokenTypes, tokenModifiers } = capabilities.semanticTokensProvider.legend;
  context.subscriptions.push(...providers(server, new vscode.SemanticTokensLegend(tokenTypes, tokenModifiers)));
}

const deactivate = () => server && server.stop();

module.exports = { activate, deactivate };
