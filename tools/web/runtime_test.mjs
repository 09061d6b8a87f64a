// Tries the C functions of a module on random requests: node runtime_test.mjs MODULE.wasm
// Numbers of 128 bits are compared with what JavaScript says of them, and blocks of memory with what was written into them.
import { readFileSync } from "node:fs";
import { FolderNames } from "../../hosts/common/folder_names.mjs";

const BITS = 128;
const NUMBERS = 20000;
const REQUESTS = 100000;
const ALIGNMENT = 16n;
const MEGABYTE = 1048576;
const LIMIT = 40 * MEGABYTE;
const NO_SUCH_FILE = 2;
const UNKNOWN = 999;
const TOO_SHORT = 34;
const ROOM_OF_ENTRIES = 4096;
const SIZE_PLACE = 16;
const NAME_PLACE = 19;
const SIZES = [[6, 200], [9, 5000], [10, 300000]];
const [, , path] = process.argv;
/** The folder that `read` reads. */
let folder;
const read = (file, to, most) => BigInt(folder.read(bytesAt(to, Number(most))));
const imports = { system: new Proxy({ read }, { get: (own, name) => own[name] ?? (() => 0) }) };
const c = new WebAssembly.Instance(new WebAssembly.Module(readFileSync(path)), imports).exports;
let seed = 12345;
let tried = 0;
let wrong = 0;

function check(row, isWell) {
  tried += 1;
  if (!isWell) {
    wrong += 1;
    console.log(row);
  }
}

/** A number below this one. */
function below(most) {
  seed = (Math.imul(seed, 1103515245) + 12345) >>> 0;
  return (seed >>> 4) % most;
}

function bytesAt(address, size) {
  return new Uint8Array(c.memory.buffer, Number(address), size);
}

/** A number of 128 bits, of which many are small, negative or a power of two. */
function wide() {
  const whole = Array.from({ length: 5 }, () => BigInt(below(1 << 28))).reduce((sum, part) => (sum << 28n) | part, 0n);
  return [whole, whole & 0xffffffffn, -(whole & 0xffffn), 1n << BigInt(below(BITS)), 0n][below(5)];
}

function tryNumbers() {
  const room = c.malloc(3n * ALIGNMENT);
  const view = () => new DataView(c.memory.buffer, Number(room));
  const put = (at, value) => [0n, 64n].forEach((shift, half) => view().setBigUint64(at * 16 + half * 8, BigInt.asUintN(64, value >> shift), true));
  const result = () => view().getBigUint64(32, true) | (view().getBigUint64(40, true) << 64n);
  const all = (value) => BigInt.asUintN(BITS, value);
  for (let number = 0; number < NUMBERS; number += 1) {
    const [a, b, by] = [wide(), wide(), number % BITS];
    put(0, a);
    put(1, b);
    for (const [name, call, value] of [
      ["multiply", () => c.multiply(room), a * b], ["shift_left", () => c.shift_left(room, by), a << BigInt(by)],
      ["shift_right", () => c.shift_right(room, by), all(a) >> BigInt(by)], ["shift_signed", () => c.shift_signed(room, by), BigInt.asIntN(BITS, a) >> BigInt(by)],
    ]) {
      call();
      check(`${name} ${a} ${b} ${by}`, result() === all(value));
    }
  }
}

function size() {
  const kind = below(10);
  return below(SIZES.find(([end]) => kind < end)[1]);
}

const live = new Map();
let tags = 0;

function fill(address, count) {
  tags = (tags + 1) % 256;
  bytesAt(address, count).fill(tags);
  live.set(address, { count, tag: tags });
}

/** Whether the first, the middle and the last byte of a block are what was written. */
function holds(address, count, tag) {
  const bytes = bytesAt(address, count);
  return count === 0 || [0, count >> 1, count - 1].every((at) => bytes[at] === tag);
}

function tryRequest() {
  const kind = below(5);
  if (kind < 2 || live.size === 0) {
    const count = size();
    const address = c.malloc(BigInt(count));
    check("malloc", address !== 0n && address % ALIGNMENT === 0n);
    fill(address, count);
    return;
  }
  const address = [...live.keys()].at(-1 - below(Math.min(live.size, 50)));
  const { count, tag } = live.get(address);
  live.delete(address);
  check("a block holds what was written", holds(address, count, tag));
  if (kind < 4) {
    c.free(address);
    return;
  }
  const more = size();
  const moved = c.realloc(address, BigInt(more));
  check("realloc keeps what was written", moved !== 0n && holds(moved, Math.min(count, more), tag));
  fill(moved, more);
}

function tryHeap() {
  for (let request = 0; request < REQUESTS; request += 1) {
    tryRequest();
  }
  const blocks = [...live].sort(([a], [b]) => (a < b ? -1 : 1));
  check("no blocks overlap", blocks.every(([address, { count }], at) => at + 1 === blocks.length || address + BigInt(count) <= blocks[at + 1][0]));
  c.limit(BigInt(LIMIT));
  let last = 1n;
  for (let megabyte = 0; megabyte < LIMIT / MEGABYTE && last !== 0n; megabyte += 1) {
    last = c.malloc(BigInt(MEGABYTE));
  }
  check("no room past the limit", last === 0n && c.memory.buffer.byteLength <= LIMIT);
  check("no block of all memory", c.malloc(1n << 50n) === 0n && c.malloc(-1n) === 0n);
}

function tryWords() {
  const room = c.malloc(64n);
  const words = (number) => (c.words_of(number, room, 64n) === 0 ? Buffer.from(bytesAt(room, 64)).toString("latin1").split("\0")[0] : "");
  check("the words of an error", words(NO_SUCH_FILE) === "No such file or directory" && words(UNKNOWN) === "Unknown error");
  check("no room for the words", c.words_of(NO_SUCH_FILE, room, 4n) === TOO_SHORT);
  bytesAt(room, 4).set([1, 200, 1, 100]);
  check("bytes are compared without sign", c.compare(room, BigInt(Number(room) + 2), 2n) > 0 && c.compare(room, room, 2n) === 0);
  check("a program runs once", c.start() === 0);
  let isTrapped = false;
  try {
    c.start();
  } catch (error) {
    isTrapped = error instanceof WebAssembly.RuntimeError;
  }
  check("a second call of start traps", isTrapped);
}

/** The names that entries in Linux's form have: each has its own size in two bytes, and a name that ends with a 0. */
function namesOf(entries) {
  const names = [];
  for (let at = 0; at < entries.length; at += entries.readUInt16LE(at + SIZE_PLACE)) {
    names.push(entries.subarray(at + NAME_PLACE, entries.indexOf(0, at + NAME_PLACE)).toString("latin1"));
  }
  return names;
}

/** Reads folders of random names, of one letter and of 255. */
function tryFolders() {
  const room = c.malloc(BigInt(ROOM_OF_ENTRIES));
  for (const longest of [1, 8, 255]) {
    const names = Array.from({ length: 2000 }, () => String.fromCharCode(...Array.from({ length: below(longest) + 1 }, () => 1 + below(255))));
    folder = new FolderNames(names.map((it) => Buffer.from(it, "latin1")));
    const found = [];
    for (let size = 1n; size > 0n; ) {
      size = c.entries(0, room, BigInt(ROOM_OF_ENTRIES));
      check("entries fit", size <= BigInt(ROOM_OF_ENTRIES));
      found.push(...namesOf(Buffer.from(bytesAt(room, Number(size)))));
    }
    check(`names of up to ${longest} bytes`, found.join("/") === names.join("/"));
  }
}

tryWords();
tryNumbers();
tryFolders();
tryHeap();
console.log(`${tried - wrong} of ${tried} rows are well`);
process.exitCode = wrong === 0 ? 0 : 1;
