// What m2 refuses of a program: read from its answer in JSON, listed for people, and explained.

const decoder = new TextDecoder();
const FOR_ALL = "AllModules";
const NO_DEFINITION = 20;

/** A program that imports all modules, for where there is no other. */
export function programOfAll(files) {
  const names = files.filter(({ name }) => name.endsWith(".def")).map(({ name }) => name.slice(0, -".def".length));
  const imports = names.map((name) => `IMPORT ${name}; `).join("");
  return [`${FOR_ALL}.mod`, new TextEncoder().encode(`MODULE ${FOR_ALL}; ${imports}END ${FOR_ALL}.\n`)];
}

/** A sentence for people. */
function sentenceOf({ words, detail }) {
  return detail === "" ? words : `${words}: ${detail}`;
}

/** The refusals that `m2 check --format json` prints, each place once. */
export function refusalsOf(bytes) {
  const lines = decoder.decode(bytes).split("\n").filter((line) => line !== "");
  const found = lines.map((line) => JSON.parse(line)).map((it) => ({ ...it, sentence: sentenceOf(it) }));
  const keys = found.map(({ file, line, column, rule }) => `${file}:${line}:${column}:${rule}`);
  return found.filter((_, at) => keys.indexOf(keys[at]) === at);
}

function button(words, press) {
  const made = document.createElement("button");
  made.type = "button";
  made.textContent = words;
  made.addEventListener("click", press);
  return made;
}

function rowOf(refusal, go, explain) {
  const row = document.createElement("li");
  const { file, line, column, rule, sentence } = refusal;
  row.append(button(`${file}, line ${line}, column ${column}`, () => go(refusal)), ` ${sentence} `, button(`Explain ${rule}`, () => explain([String(rule)])));
  if (rule === NO_DEFINITION) {
    row.append(" Are capital and small letters right? A module of your own needs a file NAME.def here.");
  }
  return row;
}

/** Lists refusals. A reader can go to each place, and ask what the rule is. */
export function list(element, refusals, go, explain) {
  element.replaceChildren(...refusals.map((it) => rowOf(it, go, explain)));
  if (refusals.length === 0) {
    const row = document.createElement("li");
    row.textContent = "Nothing is refused.";
    element.append(row);
  }
}
