// Runs programs that are one module each: node run_single.mjs FILE..
// What exports `_start` is run by node's WASI, and what exports `run` over put and stop. Prints a line of JSON for each file: the
// status, or how the run ended otherwise, and what is on both streams. Over put and stop the number of the end stands for its words.
import { closeSync, mkdtempSync, openSync, readFileSync, rmSync, writeSync } from "node:fs";
import { tmpdir } from "node:os";
import { join } from "node:path";
import { WASI } from "node:wasi";

const WORDS_BEFORE = 2;
const STREAMS = ["stdout", "stderr"];
const HALT = 9n;
const CHUNK = 65536;

/** What ends a run over put and stop. */
class Stopped extends Error {}

function statusByWasi(module, [stdout, stderr]) {
  const wasi = new WASI({ version: "preview1", returnOnExit: true, stdout, stderr });
  return wasi.start(new WebAssembly.Instance(module, wasi.getImportObject()));
}

function statusByHost(module, [stdout, stderr]) {
  let waiting = [];
  let end = HALT;
  const flush = () => {
    writeSync(stdout, Buffer.from(waiting));
    waiting = [];
  };
  const put = (value) => {
    waiting.push(Number(BigInt.asUintN(8, value)));
    if (waiting.length === CHUNK) {
      flush();
    }
  };
  const stop = (value) => {
    end = value;
    throw new Stopped();
  };
  try {
    new WebAssembly.Instance(module, { host: { put, stop } }).exports.run();
  } catch (error) {
    if (!(error instanceof Stopped)) {
      throw error;
    }
  }
  flush();
  writeSync(stderr, end === HALT ? "" : `${end}`);
  return end === HALT ? 0 : 1;
}

function statusOf(module, files) {
  const isWasi = WebAssembly.Module.exports(module).some(({ name }) => name === "_start");
  try {
    return (isWasi ? statusByWasi : statusByHost)(module, files);
  } catch (error) {
    return `${error.name}: ${error.message}`;
  }
}

function run(file, room) {
  const paths = STREAMS.map((name) => join(room, name));
  const files = paths.map((path) => openSync(path, "w"));
  const module = new WebAssembly.Module(readFileSync(file));
  const asked = WebAssembly.Module.imports(module).map((it) => `${it.module}.${it.name}`);
  const status = statusOf(module, files);
  files.forEach((it) => closeSync(it));
  const [out, error] = paths.map((path) => readFileSync(path, "latin1"));
  return { status, out, error, asked };
}

const room = mkdtempSync(join(tmpdir(), "run-single-"));
for (const file of process.argv.slice(WORDS_BEFORE)) {
  console.log(JSON.stringify(run(file, room)));
}
rmSync(room, { recursive: true });
