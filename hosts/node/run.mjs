// Runs what m2 or m2c wrote into a folder, on node's own WebAssembly engine: node hosts/node/run.mjs [--input FILE] DIR
// With --input a program that imports Input reads this file, or standard input if FILE is -, in place of the input that it was built
// with. The module of m2 makes the two modules that change, in memory; nothing is written.
import { openSync, writeSync } from "node:fs";
import { readFile } from "node:fs/promises";
import { basename, join } from "node:path";
import { parseArgs } from "node:util";
import { Refused, outputTo, readProgram, runProgram } from "../common/host.mjs";
import { LIBRARY_FILES, filesWithInput } from "../common/input.mjs";
import { Mapped } from "../common/maps.mjs";
import { nodeFiles } from "./files.mjs";
import { libraryFile, loadModule } from "./module.mjs";

const STANDARD_INPUT = 0;
const STANDARD_OUTPUT = 1;
const STANDARD_ERROR = 2;
const STATUS = { ended: 0, halted: 0, fault: 1, trap: 1, stack: 1, commandLine: 2, refused: 3 };
const USAGE = "usage: node hosts/node/run.mjs [--input FILE] DIR";
const OPTIONS = { input: { type: "string" } };
const NO_STEPS = "--steps is not there: node's engine does not count reductions; m2run does";
const MORE_STACK = "for more: node --stack-size=N hosts/node/run.mjs DIR, N in KiB (984 without it) and well below `ulimit -s`";
/** A longer input has no module; m2 says so. */
const MOST_OF_INPUT = 1048576;
const MILLISECONDS_OF_A_WAIT = 1;
const nothing = new Int32Array(new SharedArrayBuffer(4));

/** What a path that cannot be read is refused with. */
function unread(path, { code, message }) {
  return new Refused(code === "ENOENT" ? `${path} is not there` : `${path} cannot be read: ${message}`);
}

async function readFrom(folder, file) {
  const path = join(folder, file);
  try {
    return await readFile(path);
  } catch (error) {
    throw unread(path, error);
  }
}

/** The bytes of a file or of standard input, up to its end, or one more than m2 takes. */
function readInput(path) {
  const bytes = new Uint8Array(MOST_OF_INPUT + 1);
  let size = 0;
  try {
    const file = path === "-" ? STANDARD_INPUT : openSync(path);
    for (let count = 1; count > 0 && size < bytes.length; size += count) {
      count = nodeFiles.read(file, bytes.subarray(size));
    }
  } catch (error) {
    throw unread(path, error);
  }
  return bytes.subarray(0, size);
}

/** How many of the bytes were written; 0 where the reader of a pipe is not ready. */
function writeSome(bytes) {
  try {
    return writeSync(STANDARD_OUTPUT, bytes);
  } catch (error) {
    if (error.syscall === undefined) {
      throw error;
    }
    if (error.code !== "EAGAIN") {
      throw new Refused(`standard output failed: ${error.message}`);
    }
    Atomics.wait(nothing, 0, 0, MILLISECONDS_OF_A_WAIT);
    return 0;
  }
}

function writeAll(bytes) {
  for (let written = 0; written < bytes.length; ) {
    written += writeSome(bytes.subarray(written));
  }
}

/** A line on standard error. Where that fails nobody can be told. */
function say(words) {
  try {
    writeSync(STANDARD_ERROR, `${words}\n`);
  } catch {}
}

/** The function that reads a file of the program, with this input if there is one. */
async function readerOf(folder, input) {
  const read = (file) => readFrom(folder, file);
  if (input === undefined) {
    return read;
  }
  const bytes = readInput(input);
  try {
    const changed = await filesWithInput(read, bytes, new Map(LIBRARY_FILES.map((name) => [name, libraryFile(name)])), loadModule);
    return async (file) => changed.get(file) ?? read(file);
  } catch (error) {
    throw error instanceof Refused ? new Refused(`--input ${input}: ${error.message}`) : error;
  }
}

/** The bytes of a map or a source: as it is named, or in the folder of the program. Nothing where it is not there. */
async function findIn(folder, file) {
  const paths = file.endsWith(".map") ? [join(folder, file)] : [file, join(folder, basename(file))];
  for (const path of paths) {
    try {
      return await readFile(path);
    } catch {}
  }
  return undefined;
}

/** Says where a run ended, as far as maps tell it, or why they do not. */
async function sayPlaces(mapped, { stack }) {
  for (const line of await mapped.lines(stack)) {
    say(line);
  }
}

async function run({ folder, input }) {
  const mapped = new Mapped(await readerOf(folder, input), (file) => findIn(folder, file));
  const modules = await readProgram((file) => mapped.read(file));
  Error.stackTraceLimit = Infinity;
  const end = runProgram(modules, outputTo(writeAll));
  if (end.words !== "") {
    say(end.kind === "stack" ? `${end.words}; ${MORE_STACK}` : end.words);
    await sayPlaces(mapped, end);
  }
  return STATUS[end.kind];
}

async function runOrRefuse(asked) {
  try {
    return await run(asked);
  } catch (error) {
    if (!(error instanceof Refused)) {
      throw error;
    }
    say(`run.mjs: ${error.message}`);
    return STATUS.refused;
  }
}

/** What the words of the command line ask for; nothing where they are wrong. */
function askedBy(words) {
  try {
    const { values, positionals } = parseArgs({ args: words, options: OPTIONS, allowPositionals: true });
    const isOne = positionals.length === 1 && positionals[0] !== "" && values.input !== "";
    return isOne ? { folder: positionals[0], input: values.input } : undefined;
  } catch {
    return undefined;
  }
}

async function main(words) {
  if (words.some((word) => word === "--steps" || word.startsWith("--steps="))) {
    say(NO_STEPS);
    return STATUS.commandLine;
  }
  const asked = askedBy(words);
  if (asked === undefined) {
    say(USAGE);
    return STATUS.commandLine;
  }
  return runOrRefuse(asked);
}

process.exitCode = await main(process.argv.slice(2));
