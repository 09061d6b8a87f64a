// What the passes of the compiler make of a program, as text, with the rows lit that belong to the line of the cursor.

const MOST_SHOWN = 4194304;
/** Where there are more rows, none is lit. */
const MOST_LIT = 50000;
const decoder = new TextDecoder();
const TOO_LONG = "\n.. the rest is left out";
const STATEMENT = /^\s*;; line (\d+): /;
const FILE = /^;; (\S+)\.wasm$/;
const FUNCTION_END = /^ {2}\)$/;

/** The passes, and what the page calls them. */
export const PASSES = [["tokens", "Tokens"], ["tree", "Tree"], ["types", "Types"], ["code", "WebAssembly"]];

/** For each row of code, whether it belongs to a statement of this line of the module. */
function codeAt(rows, module, line) {
  let isOwn = false;
  let isLit = false;
  return rows.map((row) => {
    const file = FILE.exec(row);
    const statement = STATEMENT.exec(row);
    if (file) {
      isOwn = file[1] === module;
    }
    if (file || FUNCTION_END.test(row)) {
      isLit = false;
    }
    if (statement) {
      isLit = isOwn && Number(statement[1]) === line;
    }
    return isLit;
  });
}

function fit(rows, pattern) {
  return rows.map((row) => pattern.test(row));
}

/** For each row that a pass shows, whether it is lit. */
function litRows(pass, rows, module, line) {
  switch (pass) {
    case "tokens":
      return fit(rows, new RegExp(`^${line}:`));
    case "tree":
      return fit(rows, new RegExp(` ${line}:\\d+$`));
    case "code":
      return codeAt(rows, module, line);
    default:
      return rows.map(() => false);
  }
}

function part(rows, isLit) {
  if (!isLit) {
    return document.createTextNode(rows.join(""));
  }
  const span = document.createElement("span");
  span.className = "lit";
  span.textContent = rows.join("");
  return span;
}

/** The rows as few parts, lit and unlit in turn. */
function parts(rows, lit) {
  const made = [];
  for (let from = 0, to = 0; from < rows.length; from = to) {
    to = from + 1;
    while (to < rows.length && lit[to] === lit[from]) {
      to += 1;
    }
    made.push(part(rows.slice(from, to), lit[from]));
  }
  return made;
}

export class View {
  #element;
  #pass = "";
  #rows = [];

  constructor(element) {
    this.#element = element;
  }

  /** Shows what a pass printed. */
  show(pass, bytes) {
    const text = decoder.decode(bytes.subarray(0, MOST_SHOWN)) + (bytes.length > MOST_SHOWN ? TOO_LONG : "");
    this.#pass = pass;
    this.#rows = text.split(/(?<=\n)/);
    this.#element.replaceChildren(text);
  }

  /** Lights the rows of a line of a module. */
  light(module, line) {
    if (this.#rows.length > MOST_LIT) {
      return;
    }
    const lit = litRows(this.#pass, this.#rows.map((row) => row.trimEnd()), module, line);
    if (!lit.includes(true) && this.#element.childNodes.length <= 1) {
      return;
    }
    const top = this.#element.scrollTop;
    this.#element.replaceChildren(...parts(this.#rows, lit));
    this.#element.scrollTop = top;
    const first = this.#element.querySelector(".lit");
    if (first) {
      const { top: at, bottom } = first.getBoundingClientRect();
      const frame = this.#element.getBoundingClientRect();
      if (at < frame.top || bottom > frame.bottom) {
        this.#element.scrollTop += at - frame.top - frame.height / 3;
      }
    }
  }
}
