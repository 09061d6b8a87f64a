// Another input for a program that is built. What a program reads is its module InputBytes: `m2 input` compiles it anew, and moves link
// to it. Here m2 does so over files in memory, so nothing is written.
import { Refused, readModule } from "./host.mjs";
import { MemoryFiles } from "./memory_files.mjs";
import { runOnce } from "./system.mjs";

const OWN = "InputBytes";
const TABLE = `tab.${OWN}`;
const LINK = "link.wasm";
const LIBRARY = "lib";
const FOLDER = "program";
const INPUT = "input";
/** What m2 says in front of its reasons: names that only stand in memory. */
const FRONT = /^m2: (?:program: |the input input: )?/;
const encoder = new TextEncoder();
const decoder = new TextDecoder();

/** The files of a program that another input changes. */
export const CHANGED_FILES = [LINK, `${OWN}.wasm`];

/** The files of the library that m2 needs to make the module. */
export const LIBRARY_FILES = [`${OWN}.def`, `${OWN}.mod`];

/** Whether a program reads an input, as its compiled module link tells. */
export function readsInput(link) {
  return WebAssembly.Module.exports(link).some(({ name }) => name === TABLE);
}

function exchange(compiler, files) {
  const said = [];
  const print = (_, bytes) => said.push(decoder.decode(bytes));
  const words = ["m2", INPUT, "--lib", LIBRARY, FOLDER, INPUT].map((it) => encoder.encode(it));
  const end = runOnce(compiler, { files: new MemoryFiles(files, print), words, variables: () => undefined });
  if (end.kind !== "exit" || end.status !== 0) {
    throw new Refused(end.words ?? said.join("").trim().replace(FRONT, ""));
  }
}

/**
 * Answers the files of a program that this input changes, by their names. `read` takes the name of a file and answers a promise of its
 * bytes, `library` has LIBRARY_FILES by their names, and `load` answers a promise of m2's compiled module. Refused is thrown if the
 * program reads no input, and if m2 does not take this one: it is too long, or the program's memory has no room for it.
 */
export async function filesWithInput(read, input, library, load) {
  const { module: link } = await readModule("link", read);
  if (!readsInput(link)) {
    throw new Refused(`the program reads no input: it has no module ${OWN}`);
  }
  const files = new Map([[INPUT, input], ...LIBRARY_FILES.map((name) => [`${LIBRARY}/${name}`, library.get(name)])]);
  for (const name of CHANGED_FILES) {
    files.set(`${FOLDER}/${name}`, new Uint8Array(await read(name)));
  }
  exchange(await load(), files);
  return new Map(CHANGED_FILES.map((name) => [name, files.get(`${FOLDER}/${name}`)]));
}
