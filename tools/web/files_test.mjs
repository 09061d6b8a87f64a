// Tries the files of node and those in memory: the same calls, one after another, in an empty folder, and the same answers.
// node files_test.mjs FOLDER   prints the rows that are wrong, and the number of rows.
import { ERRORS, IS_FOLDER, OPENS, SystemError } from "../../hosts/common/system.mjs";
import { MemoryFiles } from "../../hosts/common/memory_files.mjs";
import { nodeFiles } from "../../hosts/node/files.mjs";

const ROOM = 64;
const NEW = OPENS.write | OPENS.make | OPENS.empty;
const bytes = (text) => Buffer.from(text);

/** What a call answers, or minus the number of its error. */
function answerOf(call) {
  try {
    return call();
  } catch (error) {
    if (!(error instanceof SystemError)) {
      throw error;
    }
    return -error.number;
  }
}

function written(files, path, flags, text) {
  const file = files.open(bytes(path), flags);
  files.write(file, bytes(text));
  files.close(file);
  return text.length;
}

/** What is read of a file or a folder, so many bytes at once. */
function readAll(files, path, flags, room = ROOM) {
  const file = files.open(bytes(path), flags);
  const parts = [];
  const part = new Uint8Array(room);
  for (let size = files.read(file, part); size > 0; size = files.read(file, part)) {
    parts.push(Buffer.from(part.subarray(0, size)));
  }
  files.close(file);
  return Buffer.concat(parts).toString();
}

/** The names in a folder, in order. */
function listed(files, path, room) {
  return readAll(files, path, OPENS.folder, room).split("\0").sort().join(" ").trim();
}

function sizeOfOpen(files, path, flags) {
  const file = files.open(bytes(path), flags);
  const size = files.sizeOf(file);
  files.close(file);
  return size;
}

/** Calls, with what each answers. */
const CALLS = [
  ["a file is written", (it) => written(it, "a.txt", NEW, "one two"), 7],
  ["and read", (it) => readAll(it, "a.txt", 0), "one two"],
  ["in small parts", (it) => readAll(it, "./a.txt", 0, 2), "one two"],
  ["its size", (it) => it.sizeAt(bytes("a.txt")), 7n],
  ["its size, opened", (it) => sizeOfOpen(it, "a.txt", 0), 7n],
  ["no such file", (it) => it.open(bytes("b.txt"), 0), -ERRORS.ENOENT],
  ["no size of it", (it) => it.sizeAt(bytes("b.txt")), -ERRORS.ENOENT],
  ["a file that is there already", (it) => it.open(bytes("a.txt"), NEW | OPENS.onlyNew), -ERRORS.EEXIST],
  ["a file in no folder", (it) => it.open(bytes("no/b.txt"), NEW), -ERRORS.ENOENT],
  ["a file is written anew", (it) => written(it, "a.txt", NEW, "three"), 5],
  ["and has nothing else", (it) => readAll(it, "a.txt", 0), "three"],
  ["a folder is made", (it) => it.makeFolder(bytes("f")), undefined],
  ["it is there already", (it) => it.makeFolder(bytes("f")), -ERRORS.EEXIST],
  ["a file of the name", (it) => it.makeFolder(bytes("a.txt")), -ERRORS.EEXIST],
  ["a folder in no folder", (it) => it.makeFolder(bytes("no/f")), -ERRORS.ENOENT],
  ["the size of a folder", (it) => it.sizeAt(bytes("f")), IS_FOLDER],
  ["nothing is in it", (it) => listed(it, "f"), ""],
  ["files in it", (it) => ["x", "yy", "z".repeat(40)].map((name) => written(it, `f/${name}`, NEW, name)).join(), "1,2,40"],
  ["a folder in it", (it) => it.makeFolder(bytes("f/g")), undefined],
  ["a file in that", (it) => written(it, "f/g/deep", NEW, "d"), 1],
  ["what is in it", (it) => listed(it, "f"), `g x yy ${"z".repeat(40)}`],
  ["with a slash", (it) => listed(it, "f/"), `g x yy ${"z".repeat(40)}`],
  ["in small parts", (it) => listed(it, "f", 41), `g x yy ${"z".repeat(40)}`],
  ["no room for a name", (it) => listed(it, "f", 40), -ERRORS.EINVAL],
  ["what is in all", (it) => listed(it, "."), "a.txt f"],
  ["the size of a folder, opened", (it) => sizeOfOpen(it, "f", OPENS.folder), IS_FOLDER],
  ["a file is no folder", (it) => listed(it, "a.txt"), -ERRORS.ENOTDIR],
  ["no such folder", (it) => listed(it, "no"), -ERRORS.ENOENT],
  ["a folder that is not empty", (it) => it.removeFolder(bytes("f")), -ERRORS.ENOTEMPTY],
  ["no folder to remove", (it) => it.removeFolder(bytes("no")), -ERRORS.ENOENT],
  ["a file to remove as a folder", (it) => it.removeFolder(bytes("a.txt")), -ERRORS.ENOTDIR],
  ["files are removed", (it) => ["x", "yy", "z".repeat(40), "g/deep"].map((name) => it.unlink(bytes(`f/${name}`))).join(), ",,,"],
  ["no file to remove", (it) => it.unlink(bytes("f/x")), -ERRORS.ENOENT],
  ["folders are removed", (it) => [it.removeFolder(bytes("f/g")), it.removeFolder(bytes("f"))].join(), ","],
  ["they are gone", (it) => it.sizeAt(bytes("f")), -ERRORS.ENOENT],
  ["a descriptor that is none", (it) => it.read(99, new Uint8Array(1)), -ERRORS.EBADF],
];

process.chdir(process.argv[2]);
const systems = { node: nodeFiles, memory: new MemoryFiles(new Map(), () => {}) };
let wrong = 0;
for (const [name, files] of Object.entries(systems)) {
  for (const [row, call, wanted] of CALLS) {
    const came = answerOf(() => call(files));
    if (came !== wanted) {
      wrong += 1;
      console.log(`files of ${name}, ${row}: ${came} and not ${wanted}`);
    }
  }
}
const count = CALLS.length * Object.keys(systems).length;
console.log(`${count - wrong} of ${count} rows are well`);
process.exitCode = wrong === 0 ? 0 : 1;
