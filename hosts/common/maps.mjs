// Maps of compiled modules: which bytes of the code of M.wasm come of which statement. `m2 build --map` writes them as M.map, and
// docs/maps.md has their form. After a fault the engine's stack says the functions and the bytes, and a map the places.

const KIND = "m2c map ";
const VERSION = "1";
const LAST = "end ";
const HEXADECIMAL = 16;
/** A module without statements of its own: it only calls the bodies of the others. */
const LINK = "link";
/** A line of V8's stack that is one of a module with a name, as `named` gives it one. */
const FRAME = /wasm:\/\/wasm\/([A-Za-z][A-Za-z0-9]*)-[0-9a-f]+:wasm-function\[(\d+)\]:0x([0-9a-f]+)/;
/** The most calls that are told, the innermost ones and the outermost one. m2 tells as many. */
const MOST_TOLD = 24;

const decoder = new TextDecoder("utf-8", { fatal: true });
const encoder = new TextEncoder();

/** A map that is not used. The message is a sentence without its end. */
class Unusable extends Error {}

/** The checksum of bytes: their SHA-256 in hexadecimal digits. */
async function sumOf(bytes) {
  if (globalThis.crypto?.subtle === undefined) {
    throw new Unusable("this page's address gives no checksums");
  }
  const sum = new Uint8Array(await crypto.subtle.digest("SHA-256", bytes));
  return [...sum].map((byte) => byte.toString(HEXADECIMAL).padStart(2, "0")).join("");
}

/** The lines in front of the last one, which has the checksum of them. */
async function linesOf(name, bytes) {
  const altered = new Unusable(`${name}.map was cut or altered`);
  let text;
  try {
    text = decoder.decode(bytes);
  } catch {
    throw altered;
  }
  const [first] = text.split("\n", 1);
  if (!first.startsWith(KIND)) {
    throw altered;
  }
  if (first !== KIND + VERSION) {
    throw new Unusable(`${name}.map is a map of another version`);
  }
  const at = text.lastIndexOf("\n", text.length - 2) + 1;
  if (text.slice(at) !== `${LAST}${await sumOf(encoder.encode(text.slice(0, at)))}\n`) {
    throw altered;
  }
  return text.slice(0, at).split("\n").slice(1, -1);
}

function functionOf(isBody, [name, number, line, column]) {
  return { isBody, name, number: Number(number), line: Number(line), column: Number(column), rows: [] };
}

function addLine(map, words) {
  const [word, ...values] = words;
  switch (word) {
    case "module":
      map.module = values[0];
      break;
    case "code":
      map.length = Number(values[0]);
      map.codeSum = values[1];
      break;
    case "source":
      map.sourceSum = values[0];
      map.source = values.slice(1).join(" ");
      break;
    case "body":
    case "procedure":
      map.functions.push(functionOf(word === "body", values));
      break;
    default: {
      const [offset, , line, column] = words.map(Number);
      map.functions.at(-1)?.rows.push({ offset, line, column });
    }
  }
}

/** The map in these bytes of the file of the module of this name, whose bytes are `code`. */
async function readMap(name, bytes, code) {
  const map = { functions: [] };
  for (const line of await linesOf(name, bytes)) {
    addLine(map, line.split(" "));
  }
  if (map.length !== code.length || map.codeSum !== (await sumOf(code))) {
    throw new Unusable(`${name}.map belongs to another ${name}.wasm`);
  }
  return map;
}

function sized(bytes) {
  const length = [];
  let left = bytes.length;
  for (; left > 127; left = Math.floor(left / 128)) {
    length.push((left % 128) + 128);
  }
  return [...length, left, ...bytes];
}

/** A module with its name in a section that only tells it: the engine's stack then says it. */
function named(name, code) {
  const section = [...sized(encoder.encode("name")), 0, ...sized(sized(encoder.encode(name)))];
  return Uint8Array.from([...code, 0, ...sized(section)]);
}

/** The place of the code at a byte of a function. */
function placeAt(map, number, offset) {
  const found = map?.functions.find((it) => it.number === number);
  if (found === undefined) {
    return undefined;
  }
  const { line, column } = found.rows.findLast((it) => it.offset <= offset) ?? found;
  const where = found.isBody ? `the body of ${map.module}` : `${map.module}.${found.name}`;
  return { map, where, line, column, spot: `${map.source}:${line}:${column}` };
}

/** The places in an engine's stack, the innermost first, by the maps of modules, each under its name. */
function placesIn(stack, maps) {
  return stack.split("\n").flatMap((line) => {
    const [, name, number, offset] = FRAME.exec(line) ?? [];
    return placeAt(maps.get(name), Number(number), parseInt(offset, HEXADECIMAL)) ?? [];
  });
}

/** Calls, those of one function that follow each other as one. */
function folded(places) {
  const calls = [];
  for (const place of places) {
    if (calls.at(-1)?.place.where === place.where) {
      calls.at(-1).more += 1;
    } else {
      calls.push({ place, more: 0 });
    }
  }
  return calls;
}

function linesOfCall({ place, more }) {
  const line = `  called in ${place.where}, ${place.spot}`;
  return more > 0 ? [line, `  and ${more} more of ${place.where}`] : [line];
}

function linesOfCalls(calls) {
  if (calls.length <= MOST_TOLD) {
    return calls.flatMap(linesOfCall);
  }
  const left = calls.slice(MOST_TOLD - 1, -1).reduce((sum, { more }) => sum + more + 1, 0);
  return [...calls.slice(0, MOST_TOLD - 1).flatMap(linesOfCall), `  and ${left} more calls`, ...linesOfCall(calls.at(-1))];
}

/** The statement's line with a mark, or a sentence that its source is another. Nothing where there is no source. */
async function lineOfSource({ map, line, column }, readSource) {
  const bytes = await readSource(map.source);
  if (bytes === undefined) {
    return [];
  }
  if ((await sumOf(bytes)) !== map.sourceSum) {
    return [`  ${map.source} has changed since ${map.module}.map was made`];
  }
  const text = new TextDecoder("latin1").decode(bytes).split("\n")[line - 1].replace(/\r$/, "");
  const gutter = `${line} | `;
  const front = text.slice(0, column - 1).replace(/[^\t]/g, " ");
  const shown = new TextDecoder().decode(Uint8Array.from(text, (it) => it.charCodeAt(0)));
  return [`${gutter}${shown}`, `${" ".repeat(gutter.length)}${front}^`];
}

/**
 * What is told of places: the innermost with its line, and the calls that lead there. `readSource` takes the name of a source and
 * answers a promise of its bytes, or of nothing where it is not there.
 */
async function linesOfPlaces([place, ...callers], readSource) {
  if (place === undefined) {
    return [];
  }
  return [`${place.spot}: in ${place.where}`, ...(await lineOfSource(place, readSource)), ...linesOfCalls(folded(callers))];
}

/** Reads the modules of a program, and the map beside each. */
export class Mapped {
  #read;
  #find;
  #maps = new Map();
  #isWhole = true;
  #reasons = [];

  /** `read` and `find` take the name of a file and answer a promise of its bytes; `find` answers nothing where it is not there. */
  constructor(read, find) {
    this.#read = read;
    this.#find = find;
  }

  /** The bytes of a file. A module that has a map, as all before it, has its name in them. */
  async read(file) {
    const code = new Uint8Array(await this.#read(file));
    const name = file.replace(/\.wasm$/, "");
    if (name === LINK) {
      return code;
    }
    this.#isWhole = this.#isWhole && (await this.#enter(name, code));
    return this.#isWhole ? named(name, code) : code;
  }

  async #enter(name, code) {
    try {
      const bytes = await this.#find(`${name}.map`);
      if (bytes === undefined) {
        return false;
      }
      this.#maps.set(name, await readMap(name, new Uint8Array(bytes), code));
      return true;
    } catch (error) {
      if (!(error instanceof Unusable)) {
        throw error;
      }
      this.#reasons.push(error.message);
      return false;
    }
  }

  /** The lines that tell where a run ended with this stack, or why a map is not used. None if a module has no map. */
  async lines(stack) {
    if (!this.#isWhole) {
      return this.#reasons.map((reason) => `${reason}, so places are not told`);
    }
    return linesOfPlaces(placesIn(stack, this.#maps), this.#find);
  }
}
