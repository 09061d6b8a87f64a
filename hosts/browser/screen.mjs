// Shows what a program prints, while it prints. The text stands in blocks, and the browser lays out those that are seen.
import { TextReader } from "./text.mjs";

/** At most so many characters are kept, the last ones; and so many bytes wait to be shown. */
const MOST_KEPT = 16777216;
/** A block ends at the first end of a line behind so many characters, or where it has the most. */
const CHARACTERS_OF_A_BLOCK = 16384;
const MOST_OF_A_BLOCK = 65536;
/** The text is drawn for so long, and then the page may do other things. */
const MILLISECONDS_OF_A_TURN = 8;
const MILLISECONDS_OF_A_PAUSE = 10;
/** A block that was never seen has as many lines as it has ends of lines, or as it has so many characters. */
const CHARACTERS_OF_A_LINE = 100;
/** A reader who goes back by more than this does not follow the text. */
const PIXELS_AT_THE_END = 40;

function pause() {
  return new Promise((resume) => setTimeout(resume, MILLISECONDS_OF_A_PAUSE));
}

function guessedLines(text) {
  return Math.max(text.split("\n").length - 1, Math.ceil(text.length / CHARACTERS_OF_A_LINE));
}

/** Where a block ends that has so many characters and goes on with this text: how much of the text it takes. */
function roomIn(size, text) {
  if (size + text.length < CHARACTERS_OF_A_BLOCK) {
    return text.length;
  }
  const line = text.indexOf("\n", Math.max(CHARACTERS_OF_A_BLOCK - size, 0));
  const most = MOST_OF_A_BLOCK - size;
  return Math.min(line < 0 ? text.length : line + 1, most);
}

function isFull(block) {
  return block.length === MOST_OF_A_BLOCK || (block.length >= CHARACTERS_OF_A_BLOCK && block.data.endsWith("\n"));
}

export class Screen {
  #element;
  #leftOut;
  #reader = new TextReader();
  #waiting = [];
  #bytesWaiting = 0;
  #hasGap = false;
  #kept = 0;
  #block = undefined;
  #drawing = undefined;
  #turn = 0;
  #followedTo = 0;

  /** `element` gets the text; `leftOut` is shown where the begin of the text is left out. */
  constructor(element, leftOut) {
    this.#element = element;
    this.#leftOut = leftOut;
  }

  clear() {
    this.#turn += 1;
    this.#waiting = [];
    this.#bytesWaiting = 0;
    this.#hasGap = false;
    this.#removeText();
    this.#leftOut.hidden = true;
  }

  /** Takes a chunk, which is shown soon. Where too many bytes wait, the oldest go. */
  take(chunk) {
    this.#waiting.push(chunk);
    this.#bytesWaiting += chunk.length;
    while (this.#bytesWaiting > MOST_KEPT) {
      this.#bytesWaiting -= this.#waiting.shift().length;
      this.#hasGap = true;
    }
    this.#drawing ??= this.#drawAll();
  }

  /** Returns when all is shown that was taken. */
  async finish() {
    const turn = this.#turn;
    await this.#drawing;
    await pause();
    if (turn === this.#turn) {
      this.#show(this.#reader.end());
    }
  }

  #removeText() {
    this.#element.replaceChildren();
    this.#reader = new TextReader();
    this.#block = undefined;
    this.#kept = 0;
    this.#followedTo = 0;
  }

  async #drawAll() {
    while (this.#waiting.length > 0) {
      await pause();
      this.#removeBeforeGap();
      this.#show(this.#textOfTurn());
    }
    this.#drawing = undefined;
  }

  #removeBeforeGap() {
    if (this.#hasGap) {
      this.#hasGap = false;
      this.#removeText();
      this.#leftOut.hidden = false;
    }
  }

  #textOfTurn() {
    const texts = [];
    const end = performance.now() + MILLISECONDS_OF_A_TURN;
    while (texts.length < this.#waiting.length && performance.now() < end) {
      texts.push(this.#reader.read(this.#waiting[texts.length]));
    }
    for (const { length } of this.#waiting.splice(0, texts.length)) {
      this.#bytesWaiting -= length;
    }
    return texts.join("");
  }

  #show(text) {
    const element = this.#element;
    const isFollowed = element.scrollTop > this.#followedTo - PIXELS_AT_THE_END;
    for (let at = 0; at < text.length; ) {
      at += this.#showSome(text.slice(at));
    }
    this.#dropOldest();
    if (isFollowed) {
      element.scrollTop = element.scrollHeight;
      this.#followedTo = element.scrollTop;
    }
  }

  /** Adds as much to the last block as it takes, and answers how much that is. */
  #showSome(text) {
    this.#block ??= this.#newBlock();
    const taken = roomIn(this.#block.length, text);
    this.#block.appendData(text.slice(0, taken));
    this.#kept += taken;
    if (isFull(this.#block)) {
      this.#closeBlock();
    }
    return taken;
  }

  #newBlock() {
    const element = document.createElement("div");
    const text = document.createTextNode("");
    element.append(text);
    this.#element.append(element);
    return text;
  }

  /** A block that is closed is laid out when it is seen. */
  #closeBlock() {
    const element = this.#block.parentNode;
    element.className = "closed";
    element.style.containIntrinsicBlockSize = `auto ${guessedLines(this.#block.data)}lh`;
    this.#block = undefined;
  }

  #dropOldest() {
    while (this.#kept > MOST_KEPT) {
      const oldest = this.#element.firstChild;
      this.#kept -= oldest.textContent.length;
      oldest.remove();
      this.#leftOut.hidden = false;
    }
  }
}
