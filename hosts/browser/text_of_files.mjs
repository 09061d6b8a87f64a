// The bytes of a module's text, and places in it. A text is UTF-8, as the page writes it; a file that is none is taken byte by byte,
// each as the character of its number, and becomes the same bytes again.

const strict = new TextDecoder("utf-8", { fatal: true, ignoreBOM: true });
const encoder = new TextEncoder();
const BYTES = 256;

/** The text of a file, and whether it was taken byte by byte. */
export function textOf(bytes) {
  try {
    return { text: strict.decode(bytes), isBytes: false };
  } catch {
    return { text: Array.from(bytes, (byte) => String.fromCharCode(byte)).join(""), isBytes: true };
  }
}

/** The bytes of a text. One that was taken byte by byte is so again, unless a character was typed that no byte is. */
export function bytesOf({ text, isBytes }) {
  const numbers = isBytes ? Array.from(text, (character) => character.codePointAt(0)) : [];
  return isBytes && numbers.every((number) => number < BYTES) ? Uint8Array.from(numbers) : encoder.encode(text);
}

/** Where a column that counts bytes from 1 stands in a line, counted from 0 in characters. */
export function characterAt(line, column, isBytes) {
  if (isBytes) {
    return Math.min(column - 1, line.length);
  }
  let left = column - 1;
  let at = 0;
  for (const character of line) {
    if (left <= 0) {
      break;
    }
    left -= encoder.encode(character).length;
    at += character.length;
  }
  return at;
}
