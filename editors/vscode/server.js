// A client of the language server `m2 lsp` for VS Code, with no package but VS Code's own. It starts the server, sends it the texts
// as they change, and answers VS Code's questions by it.
const { spawn } = require("node:child_process");
const vscode = require("vscode");

const LANGUAGE = "modula2";
const HEAD_END = "\r\n\r\n";
/** A server that ended is started again, but not more often than this. */
const MOST_STARTS = 5;

const positionOf = (it) => new vscode.Position(it.line, it.character);
const rangeOf = (it) => new vscode.Range(positionOf(it.start), positionOf(it.end));
const locationOf = (it) => new vscode.Location(vscode.Uri.parse(it.uri), rangeOf(it.range));
const listOf = (it) => (Array.isArray(it) ? it : it ? [it] : []);
const textEditOf = (it) => vscode.TextEdit.replace(rangeOf(it.range), it.newText);
const plain = (it) => ({ line: it.line, character: it.character });
const plainRange = (it) => ({ start: plain(it.start), end: plain(it.end) });

/** A workspace edit of VS Code. */
function workspaceEditOf(edit) {
  const all = new vscode.WorkspaceEdit();
  const several = edit.changes ? Object.entries(edit.changes) : edit.documentChanges.map((it) => [it.textDocument.uri, it.edits]);
  for (const [uri, edits] of several) {
    all.set(vscode.Uri.parse(uri), edits.map(textEditOf));
  }
  return all;
}

/** The number of a refusal, with a link to its explanation if the server knows one. */
const codeOf = (it) => (it.codeDescription ? { value: it.code, target: vscode.Uri.parse(it.codeDescription.href) } : it.code);

/** A diagnostic of VS Code. The protocol counts severities from 1. */
function diagnosticOf(it) {
  const diagnostic = new vscode.Diagnostic(rangeOf(it.range), it.message, (it.severity ?? 1) - 1);
  diagnostic.source = it.source;
  diagnostic.code = codeOf(it);
  return diagnostic;
}

function symbolOf(it) {
  const symbol = new vscode.DocumentSymbol(it.name, it.detail ?? "", it.kind - 1, rangeOf(it.range), rangeOf(it.selectionRange));
  symbol.children = (it.children ?? []).map(symbolOf);
  return symbol;
}

function completionOf(it) {
  const item = new vscode.CompletionItem(it.label, it.kind ? it.kind - 1 : undefined);
  item.detail = it.detail;
  item.documentation = typeof it.documentation === "string" ? it.documentation : it.documentation?.value;
  item.insertText = it.insertTextFormat === 2 ? new vscode.SnippetString(it.insertText) : it.insertText;
  return item;
}

function signatureHelpOf(it) {
  const help = new vscode.SignatureHelp();
  help.signatures = it.signatures.map((one) => {
    const signature = new vscode.SignatureInformation(one.label);
    signature.parameters = (one.parameters ?? []).map((part) => new vscode.ParameterInformation(part.label));
    return signature;
  });
  help.activeSignature = it.activeSignature ?? 0;
  help.activeParameter = it.activeParameter ?? it.signatures[0]?.activeParameter ?? 0;
  return help;
}

/** The server, what it was asked, and what it published. */
class Server {
  constructor(settings, folder) {
    this.settings = settings;
    this.folder = folder;
    this.collection = vscode.languages.createDiagnosticCollection("m2");
    this.waiting = new Map();
    this.number = 0;
    this.starts = 0;
    this.isEnding = false;
  }

  start() {
    const { program, words, options, explanations } = this.settings();
    this.buffer = Buffer.alloc(0);
    this.starts += 1;
    this.process = spawn(program, [...words, "lsp", ...options], { cwd: this.folder, stdio: ["pipe", "pipe", "ignore"] });
    this.process.on("error", (error) => vscode.window.showErrorMessage(`m2 cannot be called: ${error.message}. The setting m2.program says how.`));
    this.process.on("exit", () => this.restart());
    this.process.stdin.on("error", () => undefined);
    this.process.stdout.on("data", (bytes) => this.take(bytes));
    const capabilities = {
      general: { positionEncodings: ["utf-16"] },
      textDocument: { publishDiagnostics: { codeDescriptionSupport: true } },
      workspace: { workspaceEdit: { documentChanges: true } },
    };
    const initializationOptions = explanations ? { explanations } : {};
    this.ready = this.ask("initialize", { processId: process.pid, rootUri: this.folder ? vscode.Uri.file(this.folder).toString() : null, capabilities, initializationOptions }).then((found) => {
      this.capabilities = found.capabilities;
      this.notify("initialized", {});
      vscode.workspace.textDocuments.forEach((it) => this.open(it));
      return found;
    });
    return this.ready;
  }

  /** What waits for a server that ended gets nothing. */
  restart() {
    this.waiting.forEach(({ reject }) => reject(new Error("the server ended")));
    this.waiting.clear();
    if (!this.isEnding && this.starts < MOST_STARTS) {
      this.start().catch(() => undefined);
    }
  }

  send(message) {
    const body = Buffer.from(JSON.stringify({ jsonrpc: "2.0", ...message }), "utf8");
    this.process.stdin.write(Buffer.concat([Buffer.from(`Content-Length: ${body.length}${HEAD_END}`), body]));
  }

  notify(method, params) {
    this.send({ method, params });
  }

  ask(method, params, token) {
    const id = (this.number += 1);
    token?.onCancellationRequested(() => this.notify("$/cancelRequest", { id }));
    return new Promise((resolve, reject) => {
      this.waiting.set(id, { resolve, reject });
      this.send({ id, method, params });
    });
  }

  /** Bytes that the server wrote: each message that is whole is handled. */
  take(bytes) {
    this.buffer = Buffer.concat([this.buffer, bytes]);
    for (;;) {
      const end = this.buffer.indexOf(HEAD_END);
      const length = Number(/content-length: *(\d+)/i.exec(this.buffer.subarray(0, Math.max(end, 0)).toString())?.[1]);
      const begin = end + HEAD_END.length;
      if (end < 0 || this.buffer.length < begin + length) {
        return;
      }
      const message = JSON.parse(this.buffer.subarray(begin, begin + length).toString("utf8"));
      this.buffer = this.buffer.subarray(begin + length);
      this.handle(message);
    }
  }

  handle(message) {
    if (message.method === "textDocument/publishDiagnostics") {
      this.collection.set(vscode.Uri.parse(message.params.uri), message.params.diagnostics.map(diagnosticOf));
    } else if (message.id !== undefined && this.waiting.has(message.id)) {
      const { resolve, reject } = this.waiting.get(message.id);
      this.waiting.delete(message.id);
      message.error ? reject(new Error(message.error.message)) : resolve(message.result);
    }
  }

  isOurs(document) {
    return document.languageId === LANGUAGE && document.uri.scheme === "file";
  }

  open(document) {
    if (this.isOurs(document)) {
      const { uri, languageId, version } = document;
      this.notify("textDocument/didOpen", { textDocument: { uri: uri.toString(), languageId, version, text: document.getText() } });
    }
  }

  change({ document, contentChanges }) {
    if (this.isOurs(document) && contentChanges.length > 0) {
      const changes = contentChanges.map((it) => ({ range: plainRange(it.range), text: it.text }));
      this.notify("textDocument/didChange", { textDocument: { uri: document.uri.toString(), version: document.version }, contentChanges: changes });
    }
  }

  close(document) {
    if (this.isOurs(document)) {
      this.notify("textDocument/didClose", { textDocument: { uri: document.uri.toString() } });
    }
  }

  /** A question about a place of a document. */
  async at(method, document, position, token, more = {}) {
    await this.ready;
    return this.ask(`textDocument/${method}`, { textDocument: { uri: document.uri.toString() }, position: plain(position), ...more }, token);
  }

  /** A question about a document. */
  async of(method, document, token, more = {}) {
    await this.ready;
    return this.ask(`textDocument/${method}`, { textDocument: { uri: document.uri.toString() }, ...more }, token);
  }

  /** What answers VS Code's questions. */
  providers() {
    const places = (method, more) => async (document, position, token) => listOf(await this.at(method, document, position, token, more)).map(locationOf);
    const { languages } = vscode;
    const completion = { provideCompletionItems: async (document, position, token) => {
      const found = await this.at("completion", document, position, token);
      return listOf(found?.items ?? found).map(completionOf);
    } };
    const hover = { provideHover: async (document, position, token) => {
      const found = await this.at("hover", document, position, token);
      return found && new vscode.Hover(new vscode.MarkdownString(found.contents.value ?? found.contents), found.range && rangeOf(found.range));
    } };
    const rename = {
      prepareRename: async (document, position, token) => {
        const found = await this.at("prepareRename", document, position, token);
        return found && rangeOf(found.range ?? found);
      },
      provideRenameEdits: async (document, position, newName, token) => workspaceEditOf(await this.at("rename", document, position, token, { newName })),
    };
    const actions = { provideCodeActions: async (document, range, context, token) => {
      const diagnostics = context.diagnostics.map((it) => ({ range: plainRange(it.range), message: it.message, code: it.code, source: it.source }));
      const found = await this.of("codeAction", document, token, { range: plainRange(range), context: { diagnostics } });
      return listOf(found).map((it) => Object.assign(new vscode.CodeAction(it.title, vscode.CodeActionKind.QuickFix), { edit: it.edit && workspaceEditOf(it.edit) }));
    } };
    const signature = { provideSignatureHelp: async (document, position, token) => {
      const found = await this.at("signatureHelp", document, position, token);
      return found && signatureHelpOf(found);
    } };
    const symbols = { provideWorkspaceSymbols: async (query, token) => {
      const found = await this.ready.then(() => this.ask("workspace/symbol", { query }, token));
      return listOf(found).map((it) => new vscode.SymbolInformation(it.name, it.kind - 1, it.containerName ?? "", locationOf(it.location)));
    } };
    const highlights = async (document, position, token) => listOf(await this.at("documentHighlight", document, position, token)).map((it) => new vscode.DocumentHighlight(rangeOf(it.range)));
    const folds = async (document, _, token) => listOf(await this.of("foldingRange", document, token)).map((it) => new vscode.FoldingRange(it.startLine, it.endLine));
    const formatting = async (document, options, token) => listOf(await this.of("formatting", document, token, { options: { tabSize: options.tabSize, insertSpaces: options.insertSpaces } })).map(textEditOf);
    return [
      languages.registerHoverProvider(LANGUAGE, hover),
      languages.registerDefinitionProvider(LANGUAGE, { provideDefinition: places("definition") }),
      languages.registerImplementationProvider(LANGUAGE, { provideImplementation: places("implementation") }),
      languages.registerTypeDefinitionProvider(LANGUAGE, { provideTypeDefinition: places("typeDefinition") }),
      languages.registerReferenceProvider(LANGUAGE, { provideReferences: (document, position, context, token) => places("references", { context: { includeDeclaration: context.includeDeclaration } })(document, position, token) }),
      languages.registerDocumentHighlightProvider(LANGUAGE, { provideDocumentHighlights: highlights }),
      languages.registerRenameProvider(LANGUAGE, rename),
      languages.registerDocumentSymbolProvider(LANGUAGE, { provideDocumentSymbols: async (document, token) => listOf(await this.of("documentSymbol", document, token)).map(symbolOf) }),
      languages.registerWorkspaceSymbolProvider(symbols),
      languages.registerCompletionItemProvider(LANGUAGE, completion, "."),
      languages.registerSignatureHelpProvider(LANGUAGE, signature, "(", ","),
      languages.registerFoldingRangeProvider(LANGUAGE, { provideFoldingRanges: folds }),
      languages.registerCodeActionsProvider(LANGUAGE, actions),
      languages.registerDocumentFormattingEditProvider(LANGUAGE, { provideDocumentFormattingEdits: formatting }),
      vscode.workspace.onDidOpenTextDocument((it) => this.ready.then(() => this.open(it))),
      vscode.workspace.onDidChangeTextDocument((it) => this.ready.then(() => this.change(it))),
      vscode.workspace.onDidCloseTextDocument((it) => this.ready.then(() => this.close(it))),
    ];
  }

  async stop() {
    this.isEnding = true;
    await this.ask("shutdown", null).catch(() => undefined);
    this.notify("exit", null);
    this.process.stdin.end();
  }
}

exports.Server = Server;
