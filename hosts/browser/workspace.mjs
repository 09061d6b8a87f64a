// The modules of a program in the editor: a document for each, one of which is seen, and the marks of refusals in them.
import { Tabs } from "./tabs.mjs";
import { bytesOf, characterAt } from "./text_of_files.mjs";

const NAME = /^[A-Za-z][A-Za-z0-9]{0,63}\.(?:mod|def)$/;
const PROGRAM = /^(?:\s|\(\*[^]*?\*\))*MODULE\b/;
const HEADING = /^(?:\s|\(\*[^]*?\*\))*(?:(?:DEFINITION|IMPLEMENTATION)\s+)?MODULE\s+([A-Za-z][A-Za-z0-9]*)/;
const READS = /\b(?:FROM\s+Input\s+IMPORT|IMPORT\s+(?:[A-Za-z][A-Za-z0-9]*\s*,\s*)*Input)\b/;
const INDENT = 2;
const GUTTER = "refusals";
const BREAKS = "breaks";
const HERE = "here";

/** Whether a file may have this name. */
export function isName(name) {
  return NAME.test(name);
}

/** Whether a module imports Input, as far as its words tell. */
export function importsInput({ text }) {
  return READS.test(text);
}

/** Whether a text is that of a program module. */
function isProgram({ name, text }) {
  return name.endsWith(".mod") && PROGRAM.test(text);
}

/** A sign beside a line. */
function signOf(kind, text, sentence) {
  const sign = document.createElement("span");
  sign.className = kind;
  sign.textContent = text;
  sign.title = sentence;
  return sign;
}

export class Workspace {
  #editor;
  #tabs;
  #files = [];
  #active;
  #marks = [];
  #here;
  #told;

  /**
   * `changed` is called when a text or the list of files changed, `moved` when the cursor or the file that is seen did, and `pressed`
   * with a line, from 1, beside which a reader pressed.
   */
  constructor({ editor, tabs, run, changed, moved, pressed }) {
    this.#editor = CodeMirror(editor, {
      mode: "modula2", lineNumbers: true, indentUnit: INDENT, tabSize: INDENT, matchBrackets: true, autoCloseBrackets: true, styleActiveLine: true,
      inputStyle: "contenteditable", gutters: [GUTTER, "CodeMirror-linenumbers", BREAKS], screenReaderLabel: "Text of the module", lineWrapping: false,
      extraKeys: { "Ctrl-Enter": run, "Cmd-Enter": run, Tab: false, "Shift-Tab": false, "Ctrl-/": "toggleComment", "Cmd-/": "toggleComment", "Alt-F": "findPersistent" },
    });
    // the editor's own role hides its name from screen readers
    Object.entries({ role: "textbox", "aria-multiline": "true" }).forEach(([name, value]) => this.#editor.getInputField().setAttribute(name, value));
    this.#told = { changed, moved };
    this.#tabs = new Tabs(tabs, editor, (name) => this.show(name));
    this.#editor.on("change", () => changed());
    this.#editor.on("cursorActivity", () => moved());
    this.#editor.on("gutterClick", (_, line) => pressed(line + 1));
  }

  get files() {
    return this.#files.map(({ name, document, isBytes }) => ({ name, text: document.getValue(), isBytes }));
  }

  get active() {
    return this.#active?.name;
  }

  /** The name of the module that is seen, which need not be the file's. */
  get module() {
    return HEADING.exec(this.#editor.getValue())?.[1] ?? "";
  }

  /** The line of the cursor, from 1. */
  get line() {
    return this.#editor.getCursor().line + 1;
  }

  /** The names of the files that are programs, that which is seen first. */
  get programs() {
    const names = this.files.filter(isProgram).map(({ name }) => name);
    return names.includes(this.active) ? [this.active, ...names.filter((it) => it !== this.active)] : names;
  }

  /** The bytes of all files. */
  bytes() {
    return this.files.map((file) => [file.name, bytesOf(file)]);
  }

  has(name) {
    return this.#files.some((it) => it.name === name);
  }

  /** Takes these files in place of those that are here. */
  open(files, active = files[0].name) {
    this.#files = files.map(({ name, text, isBytes = false }) => ({ name, isBytes, document: CodeMirror.Doc(text, "modula2") }));
    this.#active = undefined;
    this.show(this.has(active) ? active : files[0].name);
    this.#told.changed();
  }

  /** Adds a file, or replaces that of this name, and shows it. */
  put({ name, text, isBytes = false }) {
    const file = { name, isBytes, document: CodeMirror.Doc(text, "modula2") };
    const at = this.#files.findIndex((it) => it.name === name);
    this.#files.splice(at < 0 ? this.#files.length : at, at < 0 ? 0 : 1, file);
    this.#active = undefined;
    this.show(name);
    this.#told.changed();
  }

  rename(name) {
    this.#active.name = name;
    this.show(name);
    this.#told.changed();
  }

  remove() {
    this.#files = this.#files.filter((it) => it !== this.#active);
    this.#active = undefined;
    this.show(this.#files[0].name);
    this.#told.changed();
  }

  show(name) {
    const file = this.#files.find((it) => it.name === name);
    if (file !== this.#active) {
      this.#active = file;
      this.#editor.swapDoc(file.document);
    }
    this.#tabs.show(this.#files.map((it) => [it.name, it.name]), name);
    this.#told.moved();
  }

  focus() {
    this.#editor.focus();
  }

  /** Goes to a place, whose line and column count from 1, the column in bytes. */
  go({ file, line, column }) {
    if (!this.has(file)) {
      return;
    }
    this.show(file);
    const text = this.#editor.getLine(line - 1) ?? "";
    this.#editor.setCursor({ line: line - 1, ch: characterAt(text, column, this.#active.isBytes) });
    this.#editor.scrollIntoView(null, this.#editor.defaultTextHeight() * INDENT);
    this.#editor.focus();
  }

  /** Lights the line at which a run is, in place of the one before; none without a place. */
  light(place) {
    this.#here?.document.removeLineClass(this.#here.line, "background", HERE);
    this.#here = undefined;
    if (place !== undefined && this.has(place.file)) {
      this.show(place.file);
      this.#here = { document: this.#active.document, line: place.line - 1 };
      this.#here.document.addLineClass(this.#here.line, "background", HERE);
      this.#editor.scrollIntoView({ line: this.#here.line, ch: 0 }, this.#editor.defaultTextHeight() * INDENT);
    }
  }

  /** Shows the breakpoints, of which `linesOf` answers the lines for a file. */
  showBreaks(linesOf) {
    for (const { name, document: text } of this.#files) {
      text.clearGutter(BREAKS);
      linesOf(name).forEach((line) => text.setGutterMarker(line - 1, BREAKS, signOf("break", "●", "a breakpoint")));
    }
  }

  /** Marks what is refused, in place of what was marked. */
  mark(refusals) {
    this.#marks.forEach((it) => it.clear());
    this.#files.forEach(({ document }) => document.clearGutter(GUTTER));
    this.#marks = refusals.filter(({ file }) => this.has(file)).map((it) => this.#markOf(it));
  }

  #markOf({ file, line, column, end, sentence }) {
    const { document: text, isBytes } = this.#files.find(({ name }) => name === file);
    const words = text.getLine(line - 1) ?? "";
    const from = characterAt(words, column, isBytes);
    const to = Math.max(characterAt(words, end, isBytes), from + 1);
    // at the end of a line the mark stands on the character before
    const start = from >= words.length && from > 0 ? from - 1 : from;
    text.setGutterMarker(line - 1, GUTTER, signOf("refused-line", "!", sentence));
    return text.markText({ line: line - 1, ch: start }, { line: line - 1, ch: to }, { className: "refused", attributes: { title: sentence } });
  }
}
