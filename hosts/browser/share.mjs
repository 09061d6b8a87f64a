// A program as a link: its modules, compressed, behind the # of the page's address. No server sees it.
// The form is m2=1.DATA.SUM: DATA is JSON, deflated, in the letters of base64 for addresses; SUM tells a link that was cut or altered.

const VERSION = "1";
const FORM = /^#m2=([^.]*)\.([A-Za-z0-9_-]*)(?:\.([0-9a-f]*))?$/;
const PREFIX = "#m2=";
const POLYNOMIAL = 0xedb88320;
const BITS = 8;
const HEXADECIMAL = 16;
const DIGITS = 8;
const MOST_BYTES = 16777216;
const NAME = /^[A-Za-z][A-Za-z0-9]{0,63}\.(?:mod|def)$/;

/** A link that is not whole. The message is for people. */
export class BadLink extends Error {}

const CUT = "This link was cut or altered, so its program cannot be read. What you wrote before is still here.";
const OLD = "This browser is too old for links that hold a program.";
const OTHER = "This link is of another version of this page, so its program cannot be read. What you wrote before is still here.";

/** The checksum CRC-32 of a text of single bytes. */
function sumOf(text) {
  let sum = -1;
  for (let at = 0; at < text.length; at += 1) {
    sum ^= text.charCodeAt(at);
    for (let bit = 0; bit < BITS; bit += 1) {
      sum = (sum >>> 1) ^ (sum & 1 ? POLYNOMIAL : 0);
    }
  }
  return (~sum >>> 0).toString(HEXADECIMAL).padStart(DIGITS, "0");
}

async function through(bytes, stream) {
  const chunks = [];
  let size = 0;
  const reader = new Blob([bytes]).stream().pipeThrough(stream).getReader();
  for (let part = await reader.read(); !part.done; part = await reader.read()) {
    chunks.push(part.value);
    size += part.value.length;
    if (size > MOST_BYTES) {
      throw new BadLink(CUT);
    }
  }
  return new Uint8Array(await new Blob(chunks).arrayBuffer());
}

function lettersOf(bytes) {
  const text = Array.from(bytes, (byte) => String.fromCharCode(byte)).join("");
  return btoa(text).replaceAll("+", "-").replaceAll("/", "_").replaceAll("=", "");
}

function bytesOfLetters(letters) {
  return Uint8Array.from(atob(letters.replaceAll("-", "+").replaceAll("_", "/")), (it) => it.charCodeAt(0));
}

function requireStreams() {
  if (typeof CompressionStream === "undefined") {
    throw new BadLink(OLD);
  }
}

/** The part of an address that holds this program. */
export async function fragmentOf(program) {
  requireStreams();
  const data = lettersOf(await through(new TextEncoder().encode(JSON.stringify(program)), new CompressionStream("deflate-raw")));
  return `${PREFIX}${VERSION}.${data}.${sumOf(data)}`;
}

function isText(it) {
  return typeof it === "string";
}

function isFile(it) {
  return isText(it?.name) && NAME.test(it.name) && isText(it.text);
}

function isMaybe(it, fits) {
  return it === undefined || fits(it);
}

function isListOf(it, fits) {
  return Array.isArray(it) && it.every(fits);
}

/** Whether these are texts by the names of files. */
function areModules(it) {
  return typeof it === "object" && it !== null && Object.entries(it).every(([name, text]) => NAME.test(name) && isText(text));
}

function isTest(it) {
  return isText(it?.name) && isText(it.prints) && isMaybe(it.input, isText) && isMaybe(it.program, isText) && isMaybe(it.modules, areModules);
}

/** Whether this has the form of a program: modules, maybe an input, and maybe a task with tests and modules that are not shown. */
export function isProgram(it) {
  const { files, input, task, tests, hidden } = it ?? {};
  const areMore = isMaybe(hidden, (all) => isListOf(all, isFile)) && isMaybe(tests, (all) => isListOf(all, isTest));
  return isListOf(files, isFile) && files.length > 0 && isMaybe(input, isText) && isMaybe(task, isText) && areMore;
}

/** Whether the address has a program, whole or not. */
export function hasProgram(fragment) {
  return fragment.startsWith(PREFIX);
}

/** The program of a fragment. */
export async function programOf(fragment) {
  requireStreams();
  const [, version, data, sum] = FORM.exec(fragment) ?? [];
  if (version !== undefined && version !== VERSION && version !== "") {
    throw new BadLink(OTHER);
  }
  if (data === undefined || sum !== sumOf(data)) {
    throw new BadLink(CUT);
  }
  let program;
  try {
    program = JSON.parse(new TextDecoder().decode(await through(bytesOfLetters(data), new DecompressionStream("deflate-raw"))));
  } catch {
    throw new BadLink(CUT);
  }
  if (!isProgram(program)) {
    throw new BadLink(CUT);
  }
  return program;
}
