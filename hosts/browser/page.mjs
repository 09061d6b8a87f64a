// The page: modules in an editor, which are checked while they are typed, run beside the page, shown, shared and kept.
import { tryTests } from "./class_tests.mjs";
import { Compiler, Stopped } from "./compiler.mjs";
import { countOf } from "./reductions.mjs";
import { list, programOfAll, refusalsOf } from "./refusals.mjs";
import { Screen } from "./screen.mjs";
import { BadLink, hasProgram, isProgram, programOf } from "./share.mjs";
import { ShareDialog } from "./sharing.mjs";
import { keep, kept } from "./storage.mjs";
import { Strip } from "./strip.mjs";
import { Tabs } from "./tabs.mjs";
import { bytesOf, textOf } from "./text_of_files.mjs";
import { PASSES, View } from "./views.mjs";
import { Workspace, importsInput, isName } from "./workspace.mjs";

/** The compiler has to be of this version. */
const VERSION = "0.1.0";
const HELLO = `MODULE Hello;

FROM InOut IMPORT WriteString, WriteCard, WriteLn;

VAR k: CARDINAL;

BEGIN
  FOR k := 1 TO 5 DO
    WriteString("Hello, world! "); WriteCard(k * k, 4); WriteLn
  END
END Hello.
`;
const PROGRAM = "m2.program";
const BEFORE = "m2.before";
const THEME = "m2.theme";
const MILLISECONDS_OF_A_PAUSE = 400;
const OUTPUT = 1;
const STATUSES = ["", "refused or a fault", "wrong words", "failed", "still running"];
const REFUSED = 1;
const FAULTED = 1;
const VIEWS = [["output", "Output"], ["refusals", "Refusals"], ["explain", "Explain"], ...PASSES];
const FULL = "The browser's storage is full or closed, so what you write is not kept here. Save the files, or share a link.";
const READ = "What the program reads by the module Input. A change runs the program again.";
const UNREAD = "No module here imports Input, so nothing of this is read.";
const LINKED = "This is the program of the link.";
const OPENED = "What you wrote before is kept.";

const element = (id) => document.getElementById(id);
const decoder = new TextDecoder();
const encoder = new TextEncoder();
const screen = new Screen(element("output"), element("left-out"));
const view = new View(element("shown"));
const runner = new Compiler();
const checker = new Compiler();
const counter = new Compiler();

/** What stands beside the page: the library's modules, the examples, and the version. */
let beside;
/** Files of the library, as the compiler is given them. */
let library = [];
/** The task, if there is one: its text, tests and hidden modules, and the modules that it begins with. */
let task;
let place = PROGRAM;
let shownView = "output";
let topic = [];
let refusals = [];
let isRunning = false;
/** Whether the program is to be run once more when this run has ended. */
let isToRunAgain = false;
let isReady = false;
/** Whether the browser keeps what is written, and whether the program reads or is given an input. */
let isKept = true;
let isReading = false;
let pause;
let pauseOfInput;
let checks = 0;

const workspace = new Workspace({ editor: element("editor"), tabs: element("modules"), run: () => run(), changed, moved, pressed: (line) => strip.toggle(line) });
const strip = new Strip({ workspace, compiler: new Compiler(), asked: askedOfRun, print: showPrinted });
const views = new Tabs(element("views"), element("panel"), showView);
new ShareDialog(programToShare, notice);

// What the page says.

function show(kind, words) {
  element("status").className = kind;
  element("status").textContent = words;
}

/** A notice, maybe with something that a reader can do. */
function notice(words, name, press) {
  element("notice").hidden = words === "";
  element("notice").replaceChildren(words);
  if (name !== undefined) {
    const button = document.createElement("button");
    button.type = "button";
    button.textContent = name;
    button.addEventListener("click", press);
    element("notice").append(" ", button);
  }
}

/** A button that is disabled loses the focus: Run keeps it while a program runs, and gets that of Stop. */
function setButtons() {
  element("run").disabled = !isReady;
  element("run").setAttribute("aria-disabled", String(isRunning));
  if (!isRunning && document.activeElement === element("stop")) {
    element("run").focus();
  }
  element("stop").disabled = !isRunning;
  element("debug").disabled = !isReady || isRunning;
  element("try-tests").disabled = !isReady || isRunning;
}

// Programs: what is kept, opened and shared.

function current() {
  return { files: workspace.files, active: workspace.active, input: element("input").value };
}

/** What a link holds. */
function programToShare() {
  const { files, input } = current();
  return input === "" ? { files } : { files, input };
}

/** Keeps the program. That the browser does not take it is said once. */
function save() {
  const wasKept = isKept;
  isKept = keep(place, current());
  if (wasKept && !isKept) {
    notice(FULL);
  }
}

/** The program that is kept at this place, if there is one. */
function keptProgram(at) {
  const program = kept(at);
  return isProgram(program) ? program : undefined;
}

/** Takes a program in place of the one that is here. */
function take({ files, active, input = "" }) {
  element("input").value = input;
  workspace.open(files, active);
  showReading();
}

/** The field of the input opens when the program begins to read, or when something stands in it. */
function showReading() {
  const isGiven = element("input").value !== "";
  const isRead = [...workspace.files, ...(task?.hidden ?? [])].some(importsInput);
  element("reading").open ||= !isReading && (isRead || isGiven);
  isReading = isRead || isGiven;
  element("input-hint").textContent = isGiven && !isRead ? UNREAD : READ;
}

/** Opens a program. What was written is kept, and can be taken back. */
function openProgram(program, words) {
  const back = current();
  keep(BEFORE, back);
  take(program);
  notice(words, "Back to what I wrote", () => {
    notice("");
    take(back);
  });
}

function showTask() {
  element("task").hidden = task?.task === undefined;
  element("task-text").textContent = task?.task ?? "";
  element("try-tests").hidden = !task?.tests?.length;
  element("tests").replaceChildren();
}

/** Takes the program of a link, whose task, if it has one, has a place of its own in the storage. */
function takeLink(program, fragment) {
  const before = keptProgram(PROGRAM);
  task = program.task === undefined ? undefined : program;
  place = task === undefined ? PROGRAM : `m2.task.${fragment.split(".").at(-1)}`;
  showTask();
  if (task !== undefined) {
    take(keptProgram(place) ?? program);
    return;
  }
  history.replaceState(null, "", location.pathname + location.search);
  if (before === undefined || isSame(before, program)) {
    take(program);
  } else {
    take(before);
    openProgram(program, LINKED);
  }
}

function isSame(one, other) {
  return JSON.stringify(one.files) === JSON.stringify(other.files) && (one.input ?? "") === (other.input ?? "");
}

async function begin() {
  let wrong = "";
  if (hasProgram(location.hash)) {
    try {
      return takeLink(await programOf(location.hash), location.hash);
    } catch (error) {
      wrong = error instanceof BadLink ? error.message : String(error);
    }
  }
  take(keptProgram(PROGRAM) ?? { files: [{ name: "Hello.mod", text: HELLO }] });
  notice(wrong);
}

/** A link was put into the address of the page that is open. */
async function takeNewLink() {
  if (!hasProgram(location.hash)) {
    return;
  }
  try {
    const fragment = location.hash;
    const program = await programOf(fragment);
    save();
    takeLink(program, fragment);
  } catch (error) {
    notice(error instanceof BadLink ? error.message : String(error));
  }
}

// Checking and showing.

function filesForCompiler() {
  const hidden = (task?.hidden ?? []).map((file) => [file.name, bytesOf(file)]);
  return [...library, ...hidden, ...workspace.bytes()];
}

/** The programs to be checked, and the files. Where there is no program, one imports all modules. */
function asked() {
  const files = filesForCompiler();
  const programs = workspace.programs;
  if (programs.length > 0) {
    return { programs, files };
  }
  const all = programOfAll(workspace.files);
  return { programs: [all[0]], files: [...files, all] };
}

function changed() {
  strip.close();
  startPause();
}

function startPause() {
  clearTimeout(pause);
  pause = setTimeout(rest, MILLISECONDS_OF_A_PAUSE);
}

/** Nothing was typed for a while. */
async function rest() {
  save();
  showReading();
  await check();
  await refreshView();
}

/** Checks all programs, and marks what is refused. Answers the refusals; nothing where something else is wrong. */
async function check() {
  if (!isReady) {
    return undefined;
  }
  checks += 1;
  const own = checks;
  const { programs, files } = asked();
  const end = await checker.said(["check", "--format", "json", "--lib", "lib", ...programs], files);
  if (end.kind !== "exit" || end.status > REFUSED) {
    show("wrong", end.words ?? decoder.decode(end.error).trim());
    return undefined;
  }
  const found = refusalsOf(end.out);
  if (own === checks) {
    showRefusals(found);
  }
  return found;
}

function showRefusals(found) {
  refusals = found;
  workspace.mark(refusals);
  list(element("refusals"), refusals, (it) => workspace.go(it), explain);
  showViews();
  moved();
}

/** The sentence of a refusal on the line of the cursor. */
function moved() {
  const found = refusals.find(({ file, line }) => file === workspace.active && line === workspace.line);
  const words = found === undefined ? "" : `Line ${found.line}: ${found.sentence}`;
  if (element("said").textContent !== words) {
    element("said").textContent = words;
  }
  light();
}

function light() {
  if (PASSES.some(([name]) => name === shownView)) {
    view.light(workspace.module, workspace.line);
  }
}

function showViews() {
  const words = refusals.length === 0 ? "Refusals" : `Refusals (${refusals.length})`;
  views.show(VIEWS.map(([name, title]) => [name, name === "refusals" ? words : title]), shownView);
}

function showView(name) {
  shownView = name;
  showViews();
  element("output").hidden = name !== "output";
  element("refusals").hidden = name !== "refusals";
  element("shown").hidden = name === "output" || name === "refusals";
  element("left-out").classList.toggle("elsewhere", name !== "output");
  refreshView();
}

/** Calls m2 for the text that is shown, if it is one. */
async function refreshView() {
  const name = shownView;
  if (!isReady || name === "output" || name === "refusals") {
    return;
  }
  const end = await checker.said(name === "explain" ? ["explain", ...topic] : wordsOfPass(name), filesForCompiler());
  if (name === shownView) {
    const isWell = end.kind === "exit" && end.status === 0;
    view.show(isWell ? name : "", isWell ? end.out : encoder.encode(end.words ?? decoder.decode(end.error) + decoder.decode(end.out)));
    light();
  }
}

function wordsOfPass(pass) {
  const isOfFile = pass === "tokens" || pass === "tree";
  return ["show", pass, "--lib", "lib", isOfFile ? workspace.active : (workspace.programs[0] ?? workspace.active)];
}

function explain(words) {
  topic = words;
  showView("explain");
}

// Running.

function showEnd(end, printed) {
  const said = end.words || decoder.decode(printed).trim();
  const fault = /fault (\d+)/.exec(said);
  if (fault) {
    topic = ["fault", fault[1]];
  }
  if (end.kind === "stack") {
    show("wrong", "The browser's call stack is used up before the program's storage. The proved machine has more.");
  } else if (end.kind === "failed" || end.kind === "trap" || end.kind === "fault" || end.status > 0) {
    show("wrong", [said || STATUSES[end.status] || "It failed.", ...(end.place ?? [])].join("\n"));
  } else {
    show("well", end.kind === "halted" ? "The program has ended by HALT." : "The program has ended.");
  }
}

/** Runs the program that is seen, or the first. A reader who asked for it is led to the answer. */
async function run(isAsked = true) {
  if (!isReady || isRunning) {
    return;
  }
  isRunning = true;
  setButtons();
  try {
    await runChecked(isAsked);
  } catch (error) {
    if (!(error instanceof Stopped)) {
      throw error;
    }
    show("stopped", "The program was stopped.");
  } finally {
    isRunning = false;
    setButtons();
  }
  if (isToRunAgain) {
    isToRunAgain = false;
    await run(false);
  }
}

/** The input was changed: after a pause the program runs again. */
function startPauseOfInput() {
  clearTimeout(pauseOfInput);
  pauseOfInput = setTimeout(runAgain, MILLISECONDS_OF_A_PAUSE);
}

function runAgain() {
  save();
  showReading();
  isToRunAgain = isRunning;
  if (isRunning) {
    stop();
  } else {
    run(false);
  }
}

async function runChecked(isAsked) {
  clearTimeout(pause);
  clearTimeout(pauseOfInput);
  strip.close();
  counter.stop();
  save();
  screen.clear();
  const [program] = workspace.programs;
  if (program === undefined) {
    show("wrong", "There is no program module here. A program begins with MODULE.");
    return;
  }
  show("running", `${program} is compiled.`);
  const found = await check();
  if (found === undefined) {
    return;
  }
  showView(found.length > 0 ? "refusals" : "output");
  if (found.length > 0) {
    show("wrong", `The program is refused at ${found.length === 1 ? "one place" : `${found.length} places`}: ${found[0].sentence}.`);
    if (isAsked) {
      workspace.go(found[0]);
    }
    return;
  }
  if (isAsked) {
    element("panel").scrollIntoView({ block: "nearest" });
  }
  show("running", `${program} runs.`);
  const errors = [];
  const asked = { ...askedOfRun(), machine: element("machine").value === "machine", steps: Number(element("steps").value) };
  const end = await runner.call(asked, (stream, bytes) => (stream === OUTPUT ? screen.take(bytes) : errors.push(bytes)));
  await screen.finish();
  showEnd(end, new Uint8Array(await new Blob(errors).arrayBuffer()));
  if (asked.machine && (end.status === 0 || end.status === FAULTED)) {
    showCount(asked);
  }
}

/** What a run needs: the program that is seen, or the first, all files, and the input. */
function askedOfRun() {
  return { program: workspace.programs[0], files: filesForCompiler(), input: encoder.encode(element("input").value) };
}

/** Shows what a run that is gone through has printed so far. */
function showPrinted(text) {
  showView("output");
  screen.clear();
  screen.take(encoder.encode(text));
  screen.finish();
}

/** Opens the strip, or closes it. */
async function debug() {
  if (element("debugger").hidden && (await check())?.length === 0 && workspace.programs.length > 0) {
    show("", "The run is gone through.");
    strip.open();
  } else {
    strip.close();
  }
}

/** Says how many reductions a run made, once that is found, unless something else was said meanwhile. */
async function showCount(asked) {
  const words = element("status").textContent;
  try {
    const count = await countOf(counter, asked);
    if (count !== undefined && element("status").textContent === words) {
      element("status").textContent = `${words.replace(/[^.]$/, "$&.")} It made ${count} ${count === 1 ? "reduction" : "reductions"}.`;
    }
  } catch (error) {
    if (!(error instanceof Stopped)) {
      throw error;
    }
  }
}

function stopForGood() {
  isToRunAgain = false;
  stop();
}

function stop() {
  runner.stop();
  screen.finish();
}

// Files and modules.

function askName(name) {
  const dialog = element("name-dialog");
  element("name-input").value = name;
  dialog.returnValue = "";
  dialog.showModal();
  element("name-input").select();
  return new Promise((resolve) => {
    dialog.addEventListener("close", () => resolve(dialog.returnValue === "well" ? element("name-input").value : undefined), { once: true });
  });
}

function newText(name) {
  const module = name.slice(0, -".mod".length);
  const kind = name.endsWith(".def") ? "DEFINITION MODULE" : workspace.has(`${module}.def`) ? "IMPLEMENTATION MODULE" : "MODULE";
  return `${kind} ${module};\n\nEND ${module}.\n`;
}

async function add() {
  const name = await askName("");
  if (name !== undefined && isName(name) && !workspace.has(name)) {
    workspace.put({ name, text: newText(name) });
    workspace.focus();
  }
}

async function rename() {
  const name = await askName(workspace.active);
  if (name !== undefined && isName(name) && !workspace.has(name)) {
    workspace.rename(name);
  }
}

function remove() {
  if (workspace.files.length > 1) {
    const before = current();
    workspace.remove();
    notice(`${before.active} was removed.`, "Take it back", () => {
      notice("");
      workspace.put(before.files.find(({ name }) => name === before.active));
    });
  }
}

async function openFiles({ target }) {
  for (const file of target.files) {
    if (isName(file.name)) {
      workspace.put({ name: file.name, ...textOf(new Uint8Array(await file.arrayBuffer())) });
    } else {
      notice(`${file.name} is no name of a module's file: it is a letter, letters and digits, and .mod or .def.`);
    }
  }
  target.value = "";
}

function download() {
  const file = workspace.files.find(({ name }) => name === workspace.active);
  const link = document.createElement("a");
  link.href = URL.createObjectURL(new Blob([bytesOf(file)]));
  link.download = file.name;
  link.click();
  setTimeout(() => URL.revokeObjectURL(link.href), MILLISECONDS_OF_A_PAUSE);
}

async function filesBeside(names) {
  return Promise.all(names.map(async (path) => ({ name: path.split("/").at(-1), ...textOf(await fetched(`../m2/${path}`)) })));
}

async function openExample({ target }) {
  const [kind, name] = target.value.split(" ");
  target.value = "";
  if (kind !== "module") {
    const example = (kind === "example" ? beside.examples : beside.exercises).find((it) => it.name === name);
    const input = example.input === undefined ? "" : decoder.decode(await fetched(`../m2/${example.input}`));
    openProgram({ files: await filesBeside(example.files), active: example.program, input }, OPENED);
  } else {
    for (const file of await filesBeside(beside.library.filter((it) => it.startsWith(`lib/${name}.`)))) {
      workspace.put(file);
    }
  }
}

function offer() {
  const group = (label, options) => {
    const made = document.createElement("optgroup");
    made.label = label;
    made.append(...options.map(([words, value]) => new Option(words, value)));
    return made;
  };
  const modules = beside.library.filter((it) => it.endsWith(".def")).map((it) => it.slice("lib/".length, -".def".length));
  element("examples").append(
    group("Examples", beside.examples.map(({ name }) => [name, `example ${name}`])),
    group("Programs that read", beside.exercises.map(({ name }) => [name, `exercise ${name}`])),
    group("Library", modules.map((name) => [name, `module ${name}`])),
  );
}

// The look.

function setTheme(isDark) {
  document.documentElement.classList.toggle("dark", isDark);
  element("theme").setAttribute("aria-pressed", String(isDark));
}

function changeTheme() {
  const isDark = !document.documentElement.classList.contains("dark");
  setTheme(isDark);
  keep(THEME, isDark);
}

// The begin.

async function fetched(path) {
  const answer = await fetch(path);
  if (!answer.ok) {
    throw new Error(`${path} is not there`);
  }
  return new Uint8Array(await answer.arrayBuffer());
}

/** Loads what stands beside the page, and asks the compiler for its version. */
async function load() {
  beside = JSON.parse(decoder.decode(await fetched("../m2/list.json")));
  library = await Promise.all(beside.library.map(async (path) => [path, await fetched(`../m2/${path}`)]));
  const end = await checker.said(["--version"], []);
  const version = decoder.decode(end.out).trim().replace("m2 ", "");
  if (end.kind !== "exit" || end.status !== 0) {
    throw new Error(end.words ?? "the compiler does not run here");
  }
  if (version !== VERSION) {
    throw new Error(`the compiler is of version ${version}, and this page of version ${VERSION}: put both from one archive beside each other, and load the page anew`);
  }
  element("version").textContent = `m2 ${version}, ${beside.made}`;
}

function listen() {
  const presses = { run: () => run(), stop: stopForGood, debug, add, rename, remove, download, theme: changeTheme, "files-button": () => element("files").click() };
  for (const [id, press] of Object.entries(presses)) {
    element(id).addEventListener("click", press);
  }
  element("files").addEventListener("change", openFiles);
  element("examples").addEventListener("change", openExample);
  element("machine").addEventListener("change", () => {
    element("steps-label").hidden = element("machine").value !== "machine";
  });
  element("input").addEventListener("input", startPauseOfInput);
  element("try-tests").addEventListener("click", () => tryTests(element("tests"), task.tests, () => workspace.programs[0], filesForCompiler));
  element("reset").addEventListener("click", () => openProgram(task, OPENED));
  addEventListener("hashchange", takeNewLink);
  addEventListener("pagehide", save);
  document.addEventListener("keydown", (event) => {
    if (event.key === "Enter" && (event.ctrlKey || event.metaKey) && !event.defaultPrevented) {
      event.preventDefault();
      run();
    }
  });
}

async function start() {
  setTheme(kept(THEME) ?? matchMedia("(prefers-color-scheme: dark)").matches);
  listen();
  showView("output");
  await begin();
  try {
    await load();
  } catch (error) {
    show("wrong", `The compiler cannot be used: ${error.message}.`);
    element("compiled").hidden = false;
    return;
  }
  isReady = true;
  offer();
  setButtons();
  show("", "Write a program, and run it.");
  await rest();
  navigator.serviceWorker?.register("offline.js").catch(() => {});
}

start();
