// Bytes as text: UTF-8 as its characters, and each byte that is no text by its hexadecimal digits, as in ⟨FF⟩.
// Control characters are no text, other than ends of lines and tabs.

const TAB = 9;
const END_OF_LINE = 10;
const DELETE = 127;
const decoder = new TextDecoder("utf-8", { ignoreBOM: true });

/** The first bytes of the characters of several bytes: from, to, how many bytes, and what the second byte may be. */
const FIRST_BYTES = [
  [0xc2, 0xc2, 2, 0xa0, 0xbf], // from U+00A0 on: before stand control characters
  [0xc3, 0xdf, 2, 0x80, 0xbf],
  [0xe0, 0xe0, 3, 0xa0, 0xbf],
  [0xe1, 0xec, 3, 0x80, 0xbf],
  [0xed, 0xed, 3, 0x80, 0x9f],
  [0xee, 0xef, 3, 0x80, 0xbf],
  [0xf0, 0xf0, 4, 0x90, 0xbf],
  [0xf1, 0xf3, 4, 0x80, 0xbf],
  [0xf4, 0xf4, 4, 0x80, 0x8f],
];
const NO_TEXT = 0;
const CUT_OFF = -1;

function isPlain(byte) {
  return (byte >= 32 && byte < DELETE) || byte === END_OF_LINE || byte === TAB;
}

function isWithin(byte, low, high) {
  return low <= byte && byte <= high;
}

/** How many bytes the character of several bytes has that begins here: NO_TEXT, or CUT_OFF where the bytes end within it. */
function sizeOfLong(bytes, at) {
  const row = FIRST_BYTES.find(([from, to]) => isWithin(bytes[at], from, to));
  if (row === undefined) {
    return NO_TEXT;
  }
  const [, , size, low, high] = row;
  for (let next = 1; next < size; next += 1) {
    if (at + next === bytes.length) {
      return CUT_OFF;
    }
    if (!(next === 1 ? isWithin(bytes[at + 1], low, high) : isWithin(bytes[at + next], 0x80, 0xbf))) {
      return NO_TEXT;
    }
  }
  return size;
}

function sizeAt(bytes, at) {
  return isPlain(bytes[at]) ? 1 : sizeOfLong(bytes, at);
}

/** Where the text that begins here ends. */
function endOfText(bytes, from) {
  let at = from;
  while (at < bytes.length) {
    const size = sizeAt(bytes, at);
    if (size <= 0) {
      break;
    }
    at += size;
  }
  return at;
}

function mark(byte) {
  return `⟨${byte.toString(16).toUpperCase().padStart(2, "0")}⟩`;
}

function joined(first, second) {
  const both = new Uint8Array(first.length + second.length);
  both.set(first);
  both.set(second, first.length);
  return both;
}

/** The text of the bytes, and the bytes at the end that begin a character. */
function textOf(bytes) {
  const parts = [];
  let at = 0;
  while (at < bytes.length && sizeAt(bytes, at) !== CUT_OFF) {
    const end = endOfText(bytes, at);
    parts.push(end === at ? mark(bytes[at]) : decoder.decode(bytes.subarray(at, end)));
    at = Math.max(end, at + 1);
  }
  return { text: parts.join(""), rest: bytes.slice(at) };
}

/** Reads bytes that come in chunks. */
export class TextReader {
  #rest = new Uint8Array(0);

  /** The text that is complete with this chunk. */
  read(chunk) {
    const { text, rest } = textOf(this.#rest.length === 0 ? chunk : joined(this.#rest, chunk));
    this.#rest = rest;
    return text;
  }

  /** What is left when no more comes. */
  end() {
    const text = Array.from(this.#rest, mark).join("");
    this.#rest = new Uint8Array(0);
    return text;
  }
}
