// Calls the client of VS Code with a stand-in for VS Code: opens the files that are named, asks about a name, and runs the first program.
// Prints what it shows.
import { createRequire } from "node:module";
import Module from "node:module";
import fs from "node:fs";
import path from "node:path";
import { setTimeout as pause } from "node:timers/promises";
import { pathToFileURL } from "node:url";

const FIRST_FILE = 2;
const MOST_PAUSES = 200;
const files = process.argv.slice(FIRST_FILE);
const shown = new Map();
const commands = new Map();
const debuggers = new Map();
const providers = new Map();
const ran = [];
let errors = 0;

class Position {
  constructor(line, character) {
    Object.assign(this, { line, character });
  }
}
class Range {
  constructor(start, end) {
    Object.assign(this, { start, end });
  }
}
class Diagnostic {
  constructor(range, message, severity) {
    Object.assign(this, { range, message, severity });
  }
}
class Holder {
  constructor(...parts) {
    this.parts = parts;
  }
}
class ProcessExecution {
  constructor(program, words) {
    this.words = [program, ...words];
  }
}
class Task {
  constructor(definition, scope, name, source, execution) {
    this.execution = execution;
  }
}

const uriOf = (file) => ({ fsPath: file, scheme: "file", toString: () => pathToFileURL(file).href });
const documents = files.map((file) => ({
  languageId: "modula2", version: 1, uri: uriOf(file), getText: () => fs.readFileSync(file, "utf8"), save: () => Promise.resolve(true),
}));
const disposable = { dispose() {} };
const languages = new Proxy({ createDiagnosticCollection: () => ({ set: (uri, found) => shown.set(uri.fsPath, found), delete: (uri) => shown.delete(uri.fsPath) }) }, {
  get: (known, name) => known[name] ?? ((_, provider) => providers.set(name, provider) && disposable),
});
const stand_in = {
  Position, Range, Diagnostic, ProcessExecution, Task, languages,
  Hover: Holder, MarkdownString: Holder, Location: Holder, CompletionItem: Holder, TextEdit: { replace: (...parts) => new Holder(...parts) },
  TaskScope: { Workspace: 2 },
  Uri: { file: uriOf, parse: (uri) => uriOf(decodeURIComponent(new URL(uri).pathname)) },
  commands: { registerCommand: (name, action) => commands.set(name, action) && disposable },
  DebugAdapterExecutable: ProcessExecution,
  debug: {
    registerDebugConfigurationProvider: (_, provider) => debuggers.set("configuration", provider) && disposable,
    registerDebugAdapterDescriptorFactory: (_, factory) => debuggers.set("adapter", factory) && disposable,
  },
  tasks: { executeTask: (task) => ran.push(...task.execution.words) },
  window: { activeTextEditor: { document: documents[0] }, showErrorMessage: () => (errors += 1) },
  workspace: {
    getConfiguration: () => ({ get: (_, usual) => usual }),
    onDidOpenTextDocument: () => disposable, onDidChangeTextDocument: () => disposable, onDidCloseTextDocument: () => disposable,
    textDocuments: documents,
  },
};

const load = Module._load;
Module._load = (name, ...more) => (name === "vscode" ? stand_in : load(name, ...more));
const client = createRequire(import.meta.url)("../../../editors/vscode/extension.js");
await client.activate({ subscriptions: [] });
for (let waits = 0; waits < MOST_PAUSES && files.some((it) => !shown.has(it)); waits += 1) {
  await pause(100);
}
const found = await providers.get("registerDefinitionProvider").provideDefinition(documents[0], new Position(0, 7));
await commands.get("m2.run")();
const asked = debuggers.get("configuration").resolveDebugConfiguration(undefined, {});
const followed = [...debuggers.get("adapter").createDebugAdapterDescriptor().words, asked.request, path.basename(asked.program)];
const rows = [...shown].flatMap(([file, several]) =>
  several.map((it) => [path.basename(file), it.range.start.line, it.range.start.character, it.range.end.character, Number(it.code.value ?? it.code)]));
await client.deactivate();
process.stdout.write(JSON.stringify({ diagnostics: rows.sort(), errors, ran, followed, definition: found.map(({ parts }) => [path.basename(parts[0].fsPath), parts[1].start.line]) }));
