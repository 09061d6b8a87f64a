// Runs m2 beside the page, in memory. It is sent { id, words, files, typed } to call m2, which finds the text `typed` on its standard
// input, { id, program, files, machine, steps, input } to compile a program and run it, or { id, modules, input } to give a program
// that is built another input. It sends { id, stream, bytes } for what is printed, and then { id, end }. Files and modules are lists
// of names and bytes, and an input is bytes.
import { Refused, outputTo, readProgram, runProgram } from "../common/host.mjs";
import { LIBRARY_FILES, filesWithInput } from "../common/input.mjs";
import { Mapped } from "../common/maps.mjs";
import { MemoryFiles } from "../common/memory_files.mjs";
import { runOnce } from "../common/system.mjs";

const OUTPUT = 1;
const FOLDER = "out";
/** The folder of the library among the files. */
const LIBRARY = ["--lib", "lib"];
/** The file of the input, whose name m2 says where it does not take it. */
const INPUT = "given";
const encoder = new TextEncoder();
let loading;

// all calls of a program stand in the stack of its end
Error.stackTraceLimit = Infinity;

async function bytesAt(path) {
  const answer = await fetch(new URL(path, import.meta.url));
  if (!answer.ok) {
    throw new Refused(`${path} is not there (the server answers ${answer.status})`);
  }
  return answer.arrayBuffer();
}

/** The compiler, which is loaded once. Where that fails it is tried again with the next call. */
function compiler() {
  loading ??= bytesAt("../m2/m2.wasm").then((bytes) => WebAssembly.compile(bytes));
  loading.catch(() => {
    loading = undefined;
  });
  return loading;
}

/** Calls m2 over these files; on its standard input stands what was typed. Answers how it ended. */
async function call(id, words, files, typed = "") {
  const module = await compiler();
  const print = (stream, bytes) => {
    const copy = bytes.slice();
    postMessage({ id, stream, bytes: copy }, [copy.buffer]);
  };
  const system = { files: new MemoryFiles(files, print, encoder.encode(typed)), words: ["m2", ...words].map((it) => encoder.encode(it)), variables: () => undefined };
  return runOnce(module, system);
}

/** Builds a program, and runs its modules on the engine. What maps tell of the place of a fault is a part of the end. */
async function runOnEngine(id, words, files) {
  files.set(`${FOLDER}/`, new Uint8Array(0));
  const built = await call(id, ["build", "--map", "--out", FOLDER, ...words], files);
  if (built.kind !== "exit" || built.status !== 0) {
    return built;
  }
  const began = performance.now();
  const made = async (name) => files.get(`${FOLDER}/${name}`);
  const mapped = new Mapped(made, async (name) => (await made(name)) ?? files.get(name));
  const modules = await readProgram((name) => mapped.read(name));
  const output = outputTo((bytes) => postMessage({ id, stream: OUTPUT, bytes: bytes.slice() }));
  const { stack, ...end } = runProgram(modules, output);
  const milliseconds = performance.now() - began;
  return { ...end, place: stack === undefined ? [] : await mapped.lines(stack), milliseconds };
}

async function runWith(id, { program, machine, steps, input }, files) {
  files.set(INPUT, input);
  const words = [...LIBRARY, "--input", INPUT, program];
  return machine ? call(id, ["run", "--steps", String(steps), ...words], files) : runOnEngine(id, words, files);
}

/** The modules of a program that is built which another input changes. */
async function exchanged(modules, input) {
  const own = new Map(modules);
  const library = await Promise.all(LIBRARY_FILES.map(async (name) => [name, new Uint8Array(await bytesAt(`../m2/lib/${name}`))]));
  return { kind: "exchanged", modules: [...(await filesWithInput(async (name) => own.get(name), input, new Map(library), compiler))] };
}

async function answer({ id, words, files, modules, ...asked }) {
  if (modules !== undefined) {
    return exchanged(modules, asked.input);
  }
  const own = new Map(files);
  return words === undefined ? runWith(id, asked, own) : call(id, words, own, asked.typed);
}

onmessage = async ({ data }) => {
  try {
    postMessage({ id: data.id, end: await answer(data) });
  } catch (error) {
    postMessage({ id: data.id, end: { kind: "failed", words: error instanceof Refused ? error.message : String(error) } });
  }
};
