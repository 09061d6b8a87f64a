// Modula-2 for VS Code: attaches the language server `m2 lsp`, runs programs by `m2 run`, and follows them by `m2 debug --dap`. It
// needs no package but VS Code's own.
const fs = require("node:fs");
const path = require("node:path");
const vscode = require("vscode");
const { Server } = require("./server.js");

const KIND = /^[ \t]*(DEFINITION|IMPLEMENTATION|MODULE)\b/m;

/** How m2 is called, the options behind its command, and the address of the explanations, if it is said. */
function settings() {
  const found = vscode.workspace.getConfiguration("m2");
  const [program, ...words] = found.get("program", ["m2"]);
  return { program, words, options: found.get("options", []), explanations: found.get("explanations", "") };
}

/** The text of a file, or nothing where there is none. */
function textOf(file) {
  try {
    return fs.readFileSync(file, "utf8");
  } catch {
    return "";
  }
}

/** Whether a file holds a program module. */
function isProgram(file) {
  return KIND.exec(textOf(file))?.[1] === "MODULE";
}

/** The program that is run for a file: itself if it is one, else the first in its folder. */
function programOf(file) {
  if (isProgram(file)) {
    return file;
  }
  const folder = path.dirname(file);
  const others = fs.readdirSync(folder).filter((it) => it.endsWith(".mod")).sort().map((it) => path.join(folder, it));
  return others.find(isProgram) ?? file;
}

/** Saves a document and runs its program in the terminal of a task, where it can be stopped. */
async function run(document) {
  await document.save();
  const file = document.uri.fsPath;
  const { program, words, options } = settings();
  const execution = new vscode.ProcessExecution(program, [...words, "run", ...options, programOf(file)], { cwd: path.dirname(file) });
  const task = new vscode.Task({ type: "m2" }, vscode.TaskScope.Workspace, `run ${path.basename(file)}`, "m2", execution, "$m2");
  return vscode.tasks.executeTask(task);
}

/** How a program is followed: its file is that of the text which is edited, where none is named. */
const debuggers = {
  resolveDebugConfiguration(_, asked) {
    const file = vscode.window.activeTextEditor?.document.uri.fsPath;
    return { type: "m2", request: "launch", name: "Modula-2", ...asked, program: asked.program ?? (file && programOf(file)) };
  },
  createDebugAdapterDescriptor() {
    const { program, words, options } = settings();
    return new vscode.DebugAdapterExecutable(program, [...words, "debug", "--dap", ...options]);
  },
};

/** Calls something with the document that is edited, if there is one. */
function withDocument(action) {
  return () => {
    const document = vscode.window.activeTextEditor?.document;
    return document ? action(document) : undefined;
  };
}

let server;

exports.activate = async (context) => {
  const file = vscode.window.activeTextEditor?.document.uri.fsPath;
  const folder = vscode.workspace.workspaceFolders?.[0]?.uri.fsPath ?? (file && path.dirname(file));
  server = new Server(settings, folder);
  context.subscriptions.push(server.collection, vscode.commands.registerCommand("m2.run", withDocument(run)));
  context.subscriptions.push(vscode.debug.registerDebugConfigurationProvider("m2", debuggers), vscode.debug.registerDebugAdapterDescriptorFactory("m2", debuggers));
  await server.start();
  context.subscriptions.push(...server.providers());
};

exports.deactivate = () => server?.stop();
