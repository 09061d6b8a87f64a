// Runs a module on cases, in node: node run_cases.mjs MODULE.wasm CASES.json ANSWERS.json
// A case has a folder, in which it runs, and words. An answer has the status, or how the run ended otherwise, and both streams.
import { readFileSync, writeFileSync } from "node:fs";
import { runOnce } from "../../hosts/common/system.mjs";
import { nodeFiles } from "../../hosts/node/files.mjs";

const WORDS_BEFORE = 2;
const STREAMS = [1, 2];
const [modulePath, casesPath, answersPath] = process.argv.slice(WORDS_BEFORE);
const module = new WebAssembly.Module(readFileSync(modulePath));

/** The real files, with both streams kept. */
function keepingFiles(kept) {
  const write = (file, from) => {
    if (!STREAMS.includes(file)) {
      return nodeFiles.write(file, from);
    }
    kept[file].push(Buffer.from(from));
    return from.length;
  };
  return { ...nodeFiles, write };
}

function answerTo({ folder, words, most }) {
  const kept = { 1: [], 2: [] };
  process.chdir(folder);
  const system = { files: keepingFiles(kept), words: ["m2", ...words].map((it) => Buffer.from(it)), variables: () => undefined };
  const end = runOnce(module, system, most);
  const [out, error] = STREAMS.map((it) => Buffer.concat(kept[it]).toString("latin1"));
  return { status: end.kind === "exit" ? end.status : end.words, out, error };
}

writeFileSync(answersPath, JSON.stringify(JSON.parse(readFileSync(casesPath, "utf8")).map(answerTo)));
