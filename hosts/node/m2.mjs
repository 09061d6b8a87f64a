#!/usr/bin/env node
// m2 on node, over the real file system: node hosts/node/m2.mjs run Hello.mod
// It behaves as the program m2 does. It needs node 20 or later and the module: M2_WASM, else m2.wasm beside this file, else that of
// build/web, else the snapshot in dist.
import { existsSync, readFileSync, writeSync } from "node:fs";
import { fileURLToPath } from "node:url";
import { Worker, isMainThread, parentPort, workerData } from "node:worker_threads";
import { Refused } from "../common/host.mjs";
import { runOnce } from "../common/system.mjs";
import { nodeFiles } from "./files.mjs";
import { loadModule } from "./module.mjs";
import { givenFolders, givenWord } from "./paths.mjs";

const STANDARD_ERROR = 2;
/** The status where memory, a file or a stream failed. */
const FAILED = 3;
/** Deep texts need 1.6 MiB of the engine's stack, and node's own is less than 1. */
const MEGABYTES_OF_STACK = 32;
const WORDS_BEFORE = 2;
/** The variable that names folders. */
const FOLDERS = "M2_LIB";
/** Where the library stands, from this file on: in a clone, and in an archive. */
const LIBRARIES = ["../../lib", "../lib"];
const REPLACED = "\ufffd";
const EQUALS = 61;

/** A line on standard error. Where that fails nobody can be told. */
function say(words) {
  try {
    writeSync(STANDARD_ERROR, `${words}\n`);
  } catch {}
}

/** The entries of a file of Linux that ends each with a 0; none on other systems. */
function entriesOf(file) {
  try {
    const text = readFileSync(file, "latin1");
    return text.split("\0").slice(0, -1).map((it) => Buffer.from(it, "latin1"));
  } catch {
    return [];
  }
}

/** The words of the command line as bytes. Node reads them as UTF-8; where one is none, Linux tells the bytes. */
function commandLine() {
  const words = process.argv.slice(WORDS_BEFORE);
  const raw = words.some((it) => it.includes(REPLACED)) ? entriesOf("/proc/self/cmdline") : [];
  const bytes = raw.length > words.length ? raw.slice(raw.length - words.length) : words.map((it) => Buffer.from(givenWord(it)));
  return [Buffer.from("m2"), ...bytes];
}

/** The library that came with this file, as m2 takes the folders of M2_LIB, or nothing where it is not there. */
function ownLibrary() {
  const folders = LIBRARIES.map((it) => fileURLToPath(new URL(it, import.meta.url)));
  const found = folders.find((it) => existsSync(`${it}/InOut.def`));
  return found === undefined ? undefined : Buffer.from(givenFolders(found));
}

/** The value of a variable as bytes, or nothing where there is none. */
function variable(name) {
  const asText = Buffer.from(name).toString();
  const value = process.env[asText];
  if (value === undefined && asText === FOLDERS) {
    return ownLibrary();
  }
  if (value === undefined || !value.includes(REPLACED)) {
    return value === undefined ? undefined : Buffer.from(asText === FOLDERS ? givenFolders(value) : value);
  }
  const isIt = (entry) => entry[name.length] === EQUALS && entry.subarray(0, name.length).equals(name);
  return entriesOf("/proc/self/environ").find(isIt)?.subarray(name.length + 1) ?? Buffer.from(value);
}

/** Runs the module, and answers the status. */
function run(module, words) {
  const end = runOnce(module, { files: nodeFiles, words, variables: variable });
  if (end.kind !== "exit") {
    say(`m2.mjs: ${end.words}`);
    return FAILED;
  }
  return end.status;
}

function fail(words) {
  say(`m2.mjs: ${words}`);
  process.exitCode = FAILED;
}

/** The module, or nothing where it is not to be had, which is said. */
function loadedModule() {
  try {
    return loadModule();
  } catch (error) {
    if (!(error instanceof Refused)) {
      throw error;
    }
    fail(error.message);
    return undefined;
  }
}

/** Runs the module on a thread of its own, which has more stack. */
function start() {
  const module = loadedModule();
  if (module === undefined) {
    return;
  }
  const limits = { stackSizeMb: MEGABYTES_OF_STACK };
  const worker = new Worker(new URL(import.meta.url), { workerData: { module, words: commandLine() }, resourceLimits: limits });
  worker.on("message", (status) => {
    process.exitCode = status;
  });
  worker.on("error", (error) => fail(error.message));
}

if (isMainThread) {
  start();
} else {
  parentPort.postMessage(run(workerData.module, workerData.words));
}
