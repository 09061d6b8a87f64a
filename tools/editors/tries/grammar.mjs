// Reads the grammar for tree-sitter with stand-ins for its words, and says of each file whether the grammar has a tree for it: a
// line with "yes", or with the place of the token with which no tree goes on. It is an Earley parser, so it takes any grammar.
import { createRequire } from "node:module";
import { readFileSync } from "node:fs";

const FIRST_FILE = 2;
const END = "end of the text";

/** What the functions of a grammar make: a kind with its parts. */
const part = (it) => (typeof it === "string" ? { kind: "text", text: it } : it instanceof RegExp ? { kind: "form", form: it } : it);
const words = {
  seq: (...parts) => ({ kind: "seq", parts: parts.map(part) }),
  choice: (...parts) => ({ kind: "choice", parts: parts.map(part) }),
  optional: (it) => ({ kind: "choice", parts: [{ kind: "seq", parts: [] }, part(it)] }),
  repeat: (it) => ({ kind: "repeat", part: part(it), least: 0 }),
  repeat1: (it) => ({ kind: "repeat", part: part(it), least: 1 }),
  field: (_, it) => part(it),
  token: (it) => ({ kind: "token", part: part(it) }),
};
const symbols = new Proxy({}, { get: (_, name) => ({ kind: "rule", name }) });

function grammarRead() {
  Object.assign(globalThis, words, { grammar: (it) => it });
  return createRequire(import.meta.url)("../../../editors/tree-sitter/grammar.js");
}

/** The grammar as productions: of each name the lists of names and tokens that it may be. */
class Productions {
  constructor(grammar) {
    this.of = new Map();
    this.texts = new Set();
    this.forms = [];
    for (const [name, make] of Object.entries(grammar.rules)) {
      this.add(name, part(make(symbols)));
    }
  }

  add(name, rule) {
    this.of.set(name, rule.kind === "choice" ? rule.parts.map((it) => this.list(it)) : [this.list(rule)]);
  }

  fresh(rule) {
    const name = `part ${this.of.size}`;
    this.of.set(name, []);
    this.add(name, rule);
    return name;
  }

  list(rule) {
    return rule.kind === "seq" ? rule.parts.map((it) => this.symbol(it)) : [this.symbol(rule)];
  }

  symbol(rule) {
    switch (rule.kind) {
      case "text":
        this.texts.add(rule.text);
        return { token: rule.text };
      case "form":
        this.forms.push(rule.form);
        return { token: rule.form };
      case "token":
        return this.symbol(rule.part.kind === "choice" ? { kind: "form", form: new RegExp(rule.part.parts.map((it) => it.form.source).join("|")) } : rule.part);
      case "rule":
        return { name: rule.name };
      case "repeat":
        return { name: this.repeated(rule) };
      default:
        return { name: this.fresh(rule) };
    }
  }

  repeated(rule) {
    const name = `part ${this.of.size}`;
    this.of.set(name, []);
    const one = this.symbol(rule.part);
    this.of.set(name, [[one, { name }], rule.least === 0 ? [] : [one]]);
    return name;
  }
}

/** Where a comment ends that begins here. */
function behindComment(text, start) {
  let depth = 0;
  for (let at = start; at < text.length; at++) {
    const pair = text.slice(at, at + 2);
    if (pair === "(*" || pair === "*)") {
      depth += pair === "(*" ? 1 : -1;
      at++;
      if (depth === 0) {
        return at + 1;
      }
    }
  }
  return text.length;
}

/** The tokens of a text by the grammar's own forms: the longest, and a word before a name. */
function tokensOf(text, productions) {
  const texts = [...productions.texts].sort((left, right) => right.length - left.length);
  const forms = productions.forms.map((it) => ({ form: it, search: new RegExp(it.source, "y") }));
  const found = [];
  for (let at = 0; at < text.length; ) {
    if (/\s/.test(text[at])) {
      at++;
    } else if (text.startsWith("(*", at)) {
      at = behindComment(text, at);
    } else {
      const sign = texts.find((it) => text.startsWith(it, at)) ?? "";
      const longest = forms.map(({ form, search }) => ((search.lastIndex = at), { form, text: search.exec(text)?.[0] ?? "" })).reduce((one, other) => (other.text.length > one.text.length ? other : one));
      const isSign = sign.length >= longest.text.length && sign !== "";
      found.push({ at, token: isSign ? sign : longest.form });
      at += Math.max(isSign ? sign.length : longest.text.length, 1);
    }
  }
  return [...found, { at: text.length, token: END }];
}

/** The names that may be empty. */
function emptyNames(productions) {
  const empty = new Set();
  for (let before = -1; before !== empty.size; ) {
    before = empty.size;
    for (const [name, lists] of productions.of) {
      if (lists.some((list) => list.every((it) => it.name && empty.has(it.name)))) {
        empty.add(name);
      }
    }
  }
  return empty;
}

/** The states behind the same tokens, each once. */
class Column {
  constructor() {
    this.states = [];
    this.seen = new Set();
    this.waiting = new Map();
  }
  add(name, list, dot, start) {
    const key = `${list.id} ${dot} ${start}`;
    if (!this.seen.has(key)) {
      this.seen.add(key);
      const state = { name, list, dot, start };
      this.states.push(state);
      const next = list[dot]?.name;
      if (next) {
        this.waiting.set(next, [...(this.waiting.get(next) ?? []), state]);
      }
    }
  }
}

function advance(state, column) {
  column.add(state.name, state.list, state.dot + 1, state.start);
}

/** Completes a column with what its states predict and what they end. */
function complete(column, columns, number, productions, empty) {
  for (let at = 0; at < column.states.length; at++) {
    const state = column.states[at];
    const next = state.list[state.dot];
    if (next?.name) {
      productions.of.get(next.name).forEach((list) => column.add(next.name, list, 0, number));
      if (empty.has(next.name)) {
        advance(state, column);
      }
    } else if (!next) {
      (columns[state.start].waiting.get(state.name) ?? []).slice().forEach((it) => advance(it, column));
    }
  }
}

/** The place of the first token with which no tree goes on, or nothing if there is a tree. */
function refusedAt(tokens, productions, empty, start) {
  const columns = [new Column()];
  productions.of.get(start).forEach((list) => columns[0].add(start, list, 0, 0));
  for (let number = 0; ; number++) {
    const column = columns[number];
    complete(column, columns, number, productions, empty);
    const { at, token } = tokens[number];
    if (token === END) {
      return column.states.some((it) => it.name === start && it.start === 0 && it.dot === it.list.length) ? undefined : at;
    }
    const next = new Column();
    column.states.filter((it) => it.list[it.dot]?.token === token).forEach((it) => advance(it, next));
    if (next.states.length === 0) {
      return at;
    }
    columns.push(next);
  }
}

const productions = new Productions(grammarRead());
let id = 0;
productions.of.forEach((lists) => lists.forEach((list) => (list.id = id++)));
const unknown = [...productions.of.values()].flat(2).filter((it) => it.name && !productions.of.has(it.name));
if (unknown.length > 0) {
  throw new Error(`no rule ${unknown.map((it) => it.name).join(", ")}`);
}
const empty = emptyNames(productions);
for (const file of process.argv.slice(FIRST_FILE)) {
  const text = readFileSync(file, "utf8");
  const at = refusedAt(tokensOf(text, productions), productions, empty, "source_file");
  const lines = text.slice(0, at).split("\n");
  console.log(at === undefined ? "yes" : `${lines.length}:${lines.at(-1).length + 1}`);
}
