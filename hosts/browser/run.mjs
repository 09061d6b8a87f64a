// The page: chooses a program, runs it in a worker, shows what it prints and how it ends, and stops it.
import { Refused, readProgram } from "../common/host.mjs";
import { CHANGED_FILES, readsInput } from "../common/input.mjs";
import { Mapped } from "../common/maps.mjs";
import { Compiler } from "./compiler.mjs";
import { Screen } from "./screen.mjs";
import { namesBeside, sourceBeside, sourceOfFiles } from "./sources.mjs";

const element = (id) => document.getElementById(id);
const screen = new Screen(element("output"), element("left-out"));
const STACK = "The browser's call stack is used up before the program's storage. A page cannot give it more; m2run and node can.";

/** How the paths of what belongs to the compiler begin. */
const COMPILER = "../m2/";
const NO_COMPILER = 'For another input the folder "m2", which `make web` makes, has to stand beside this page\'s folder.';
const MILLISECONDS_OF_A_PAUSE = 400;
const encoder = new TextEncoder();
const compiler = new Compiler();

/** The program that was chosen last, the input that it is given in place of its own, and the run that goes on. */
let source;
let input;
let running;
let pause;

/** Shows a line of one of the kinds `running`, `well`, `wrong` and `stopped`, or of none. */
function show(kind, words) {
  element("status").className = kind;
  element("status").textContent = words;
  element("stop").disabled = kind !== "running";
  element("again").disabled = source === undefined;
}

function showEnd({ kind, words }) {
  switch (kind) {
    case "ended":
      return show("well", "The program has ended.");
    case "halted":
      return show("well", "The program has ended by HALT.");
    case "stack":
      return show("wrong", STACK);
    default:
      return show("wrong", words);
  }
}

/** Ends a run from outside. A run that was followed by another is silent. */
function leave() {
  running?.worker?.terminate();
  running = undefined;
}

/** Shows where a run ended, as far as maps tell it. */
async function showPlace({ mapped }, { stack }) {
  const lines = stack === undefined ? [] : await mapped.lines(stack);
  element("place").textContent = lines.join("\n");
  element("place").hidden = lines.length === 0;
}

async function finish(run, end) {
  await screen.finish();
  if (run === running) {
    leave();
    showEnd(end);
    await showPlace(run, end);
  }
}

function hear(run, message) {
  if (run !== running) {
    return;
  }
  if (message instanceof Uint8Array) {
    screen.take(message);
  } else {
    finish(run, message);
  }
}

function startWorker(run, modules) {
  run.worker = new Worker(new URL("worker.mjs", import.meta.url), { type: "module" });
  run.worker.onmessage = ({ data }) => hear(run, data);
  run.worker.onerror = ({ message }) => finish(run, { kind: "refused", words: message || "worker.mjs cannot be loaded" });
  run.worker.postMessage(modules);
  show("running", `${source.name} runs.`);
}

function wordsOf(error) {
  return error instanceof Refused ? error.message : String(error);
}

/** The function that reads a file of the program, with the input if one is given. */
async function readerOf({ read }) {
  if (input === undefined) {
    return read;
  }
  const modules = await Promise.all(CHANGED_FILES.map(async (name) => [name, new Uint8Array(await read(name))]));
  const end = await compiler.call({ modules, input: encoder.encode(input) }, () => {});
  if (end.kind !== "exchanged") {
    throw new Refused(end.words.includes(COMPILER) ? `${end.words}. ${NO_COMPILER}` : `The input is not taken: ${end.words}`);
  }
  const changed = new Map(end.modules);
  return async (name) => changed.get(name) ?? read(name);
}

/** The bytes of a map or a source, which stands in the folder of the program. Nothing where it is not there. */
async function findIn({ read }, file) {
  try {
    return await read(file.split("/").at(-1));
  } catch {
    return undefined;
  }
}

/** Runs the program that was chosen, from its begin. */
async function run() {
  clearTimeout(pause);
  leave();
  screen.clear();
  element("place").hidden = true;
  const own = {};
  running = own;
  document.title = source.name;
  show("running", `${source.name} is read.`);
  try {
    own.mapped = new Mapped(await readerOf(source), (file) => findIn(source, file));
    const modules = await readProgram((file) => own.mapped.read(file));
    if (own === running) {
      element("reading").hidden = !readsInput(modules[0].module);
      startWorker(own, modules);
    }
  } catch (error) {
    await finish(own, { kind: "refused", words: wordsOf(error) });
  }
}

/** Chooses what `find` answers, and runs it. */
function choose(find) {
  leave();
  screen.clear();
  source = undefined;
  input = undefined;
  element("place").hidden = true;
  element("input").value = "";
  element("reading").hidden = true;
  try {
    source = find();
  } catch (error) {
    show("wrong", wordsOf(error));
    return;
  }
  run();
}

/** One of the three ways to choose a program was taken: the others say nothing. */
function clearOthers(taken) {
  for (const other of [element("examples"), element("folder"), element("files")]) {
    if (other !== taken) {
      other.value = "";
    }
  }
}

function chooseFiles({ target }) {
  const files = [...target.files];
  if (files.length > 0) {
    clearOthers(target);
    choose(() => sourceOfFiles(files));
  }
}

function chooseExample({ target }) {
  clearOthers(target);
  choose(() => sourceBeside(target.value));
}

/** The same files can be chosen again, after they have changed. */
function forgetFiles({ target }) {
  target.value = "";
}

function changeInput({ target }) {
  input = target.value;
  clearTimeout(pause);
  pause = setTimeout(run, MILLISECONDS_OF_A_PAUSE);
}

function stop() {
  clearTimeout(pause);
  leave();
  screen.finish();
  show("stopped", "The program was stopped.");
}

async function offerPrograms() {
  const names = await namesBeside();
  element("examples").append(...names.map((name) => new Option(name)));
  element("offer").hidden = names.length === 0;
}

function begin() {
  for (const id of ["folder", "files"]) {
    element(id).addEventListener("click", forgetFiles);
    element(id).addEventListener("change", chooseFiles);
  }
  element("examples").addEventListener("change", chooseExample);
  element("input").addEventListener("input", changeInput);
  element("again").addEventListener("click", run);
  element("stop").addEventListener("click", stop);
  show("", "Choose a program.");
  offerPrograms();
  const asked = new URLSearchParams(location.search).get("program");
  if (asked !== null) {
    choose(() => sourceBeside(asked));
  }
}

begin();
