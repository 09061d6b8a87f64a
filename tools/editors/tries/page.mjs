// What the page's mode for CodeMirror says of files: for each line the runs of characters with their styles, as JSON.
// It has only what the mode calls of CodeMirror.
import { readFileSync } from "node:fs";
import vm from "node:vm";

const FIRST_FILE = 2;

class Stream {
  constructor(line) {
    this.line = line;
    this.at = 0;
    this.start = 0;
  }
  sol() {
    return this.at === 0;
  }
  eol() {
    return this.at >= this.line.length;
  }
  next() {
    return this.line[this.at++];
  }
  indentation() {
    return this.line.length - this.line.trimStart().length;
  }
  eatSpace() {
    const start = this.at;
    while (/\s/.test(this.line[this.at] ?? "x")) this.at++;
    return this.at > start;
  }
  match(pattern) {
    const rest = this.line.slice(this.at);
    const found = typeof pattern === "string" ? (rest.startsWith(pattern) ? [pattern] : null) : rest.match(pattern);
    this.at += found ? found[0].length : 0;
    return found;
  }
}

function modeOfPage() {
  const modes = {};
  const CodeMirror = { defineMode: (name, make) => (modes[name] = make) };
  vm.runInNewContext(readFileSync(new URL("../../../hosts/browser/modula2.js", import.meta.url), "utf8"), { CodeMirror });
  return modes.modula2({ indentUnit: 2 });
}

function runsOf(mode, state, line) {
  const stream = new Stream(line);
  const runs = [];
  while (!stream.eol()) {
    const start = stream.at;
    const style = mode.token(stream, state);
    runs.push([stream.at - start, style ?? ""]);
  }
  return runs;
}

const mode = modeOfPage();
const painted = process.argv.slice(FIRST_FILE).map((file) => {
  const state = mode.startState();
  return readFileSync(file, "utf8").split("\n").map((line) => runsOf(mode, state, line));
});
process.stdout.write(JSON.stringify(painted));
