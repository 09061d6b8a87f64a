// The tests of a task: each runs the program, maybe with other modules and input, and says whether it printed what it has to print.
import { Compiler, Stopped } from "./compiler.mjs";

const MILLISECONDS = 10000;
const MOST_SHOWN = 2000;
const OUTPUT = 1;
const decoder = new TextDecoder();
const encoder = new TextEncoder();

function shortened(text) {
  return text.length > MOST_SHOWN ? `${text.slice(0, MOST_SHOWN)}..` : text;
}

/** A row of the list: what is said, and texts with words in front of each. */
function row(kind, words, texts = []) {
  const made = document.createElement("li");
  made.className = kind;
  made.append(words);
  for (const [front, text] of texts) {
    const [label, shown] = ["div", "pre"].map((it) => document.createElement(it));
    label.textContent = front;
    shown.textContent = shortened(text);
    made.append(label, shown);
  }
  return made;
}

/** What a program prints, what is said of it, and how it ends. Nothing where it does not end in time. */
async function run(asked) {
  const compiler = new Compiler();
  const parts = { out: [], all: [] };
  const hear = (stream, bytes) => {
    parts.all.push(bytes);
    if (stream === OUTPUT) {
      parts.out.push(bytes);
    }
  };
  const textOf = async (list) => decoder.decode(await new Blob(list).arrayBuffer());
  const timer = setTimeout(() => compiler.stop(), MILLISECONDS);
  try {
    const end = await compiler.call(asked, hear);
    return { end, printed: await textOf(parts.out), said: await textOf(parts.all) };
  } catch (error) {
    if (!(error instanceof Stopped)) {
      throw error;
    }
    return undefined;
  } finally {
    clearTimeout(timer);
    compiler.stop();
  }
}

/** The number of the first line in which two texts differ, from 1. */
function lineOfDifference(one, other) {
  const [lines, others] = [one, other].map((it) => it.split("\n"));
  return lines.findIndex((line, at) => line !== others[at]) + 1 || lines.length + 1;
}

/** How the output differs from what is asked for. */
function difference(prints, printed) {
  return prints === `${printed}\n` ? "the last line of the output has no end" : `line ${lineOfDifference(prints, printed)} of the output is not as asked for`;
}

function rowOf({ name, input, prints }, came) {
  const read = input === undefined || input === "" ? [] : [["It read:", input]];
  if (came === undefined) {
    return row("wrong", `${name}: the program does not end within ${MILLISECONDS / 1000} seconds.`, read);
  }
  const { end, printed, said } = came;
  const wrote = ["It printed:", printed];
  if (end.words) {
    return row("wrong", `${name}: ${end.words}.`, [...read, wrote]);
  }
  if (end.status) {
    return row("wrong", `${name}: the program is refused.`, [["m2 says:", said]]);
  }
  if (printed !== prints) {
    return row("wrong", `${name}: ${difference(prints, printed)}.`, [...read, ["It has to print:", prints], wrote]);
  }
  return row("well", `${name}: well.`);
}

/** Tries all tests, one after another, and lists what came of them. Answers whether all went well. */
export async function tryTests(element, tests, programOf, filesOf) {
  element.replaceChildren();
  for (const test of tests) {
    const files = [...filesOf(), ...Object.entries(test.modules ?? {}).map(([name, text]) => [name, encoder.encode(text)])];
    const came = await run({ program: test.program ?? programOf(), files, machine: false, input: encoder.encode(test.input ?? "") });
    element.append(rowOf(test, came));
  }
  return element.querySelector(".wrong") === null;
}
