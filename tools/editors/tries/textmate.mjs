// What the TextMate grammar says of files: for each line the runs of characters with their innermost scopes, as JSON.
// It reads what the grammar uses of the format: match, begin, end, patterns, include and repository.
import { readFileSync } from "node:fs";

const FIRST_FILE = 2;
const grammar = JSON.parse(readFileSync(new URL("../../../editors/vscode/syntaxes/modula2.tmLanguage.json", import.meta.url), "utf8"));

function rulesOf(patterns) {
  return patterns.flatMap((it) => (it.include ? [grammar.repository[it.include.slice(1)]] : [it]));
}

/** The match of a pattern from a place on, or nothing. */
function matchFrom(pattern, line, at) {
  const search = new RegExp(pattern, "g");
  search.lastIndex = at;
  return search.exec(line);
}

/** The least match of what may stand here: the end of the innermost rule, or one of its patterns. */
function nextMatch(stack, line, at) {
  const inner = stack.at(-1);
  const ends = inner ? [{ pattern: inner.end, rule: null }] : [];
  const begins = rulesOf(inner ? inner.patterns : grammar.patterns).map((rule) => ({ pattern: rule.match ?? rule.begin, rule }));
  const found = [...ends, ...begins].map((it) => ({ rule: it.rule, found: matchFrom(it.pattern, line, at) })).filter((it) => it.found?.[0]);
  return found.reduce((best, it) => (best && best.found.index <= it.found.index ? best : it), undefined);
}

function runsOf(stack, line) {
  const runs = [];
  let at = 0;
  while (at < line.length) {
    const name = stack.at(-1)?.name ?? "";
    const next = nextMatch(stack, line, at);
    const start = next ? next.found.index : line.length;
    runs.push([start - at, name]);
    if (!next) {
      break;
    }
    runs.push([next.found[0].length, next.rule?.name ?? name]);
    at = start + next.found[0].length;
    if (!next.rule) {
      stack.pop();
    } else if (next.rule.begin) {
      stack.push(next.rule);
    }
  }
  return runs;
}

const painted = process.argv.slice(FIRST_FILE).map((file) => {
  const stack = [];
  return readFileSync(file, "utf8").split("\n").map((line) => runsOf(stack, line));
});
process.stdout.write(JSON.stringify(painted));
