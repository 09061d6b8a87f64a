// A run that is gone through, statement by statement, forwards and backwards. `m2 debug` does it, which reads commands. A run is the
// same each time, so each press gives m2 all commands since the begin once more, and what it answers last is shown.
import { Stopped } from "./compiler.mjs";

/** A word that is no command. The sentence about it stands between two answers. */
const BETWEEN = "between";
const SENTENCE = `'${BETWEEN}' is no command; help lists all of them\n`;
/** What is asked for behind each press. */
const ASKED = ["where", "vars", "output"];
const NOTHING_PRINTED = "the program has printed nothing\n";
const PLACE = /^in (.+), (\S+):(\d+):(\d+)$/m;
const BREAKPOINT = /^(?:.*; )?breakpoint (\d+): (\S+):(\d+):\d+/m;
const INPUT = "given";
const decoder = new TextDecoder();

/** What is typed, so that the answer to the last command can be told from those before. */
function typed(commands) {
  const lines = [...commands.slice(0, -1), BETWEEN, ...commands.slice(-1), ...ASKED.flatMap((it) => [BETWEEN, it])];
  return lines.map((it) => `${it}\n`).join("");
}

/** What m2 answered: to the last command, and to what is asked for behind it. */
function answersIn(out) {
  const [said, where, variables, output] = decoder.decode(out).split(SENTENCE).slice(-1 - ASKED.length);
  const found = PLACE.exec(where ?? "");
  const place = found === null ? undefined : { file: found[2], line: Number(found[3]) };
  return { said, where, variables, output: output === NOTHING_PRINTED ? "" : output, place };
}

export class Debugging {
  #compiler;
  #asked;
  #commands = [];
  /** The breakpoints: of each its number, file and line. */
  #breaks = [];

  /** `asked` answers what is gone through: the program's name, all files and the input's bytes. */
  constructor(compiler, asked) {
    this.#compiler = compiler;
    this.#asked = asked();
  }

  /** Gives one more command. Answers what is to be shown, or nothing if the press was broken off. */
  async press(command) {
    const { program, files, input } = this.#asked;
    const commands = [...this.#commands, command];
    try {
      const words = ["debug", "--lib", "lib", "--input", INPUT, program];
      const end = await this.#compiler.said(words, [...files, [INPUT, input]], typed(commands));
      if (end.kind !== "exit" || end.status !== 0) {
        return { said: end.words ?? decoder.decode(end.error) };
      }
      this.#commands = commands;
      return answersIn(end.out);
    } catch (error) {
      if (!(error instanceof Stopped)) {
        throw error;
      }
      return undefined;
    }
  }

  /** The lines of a file in front of which the run stops. */
  linesOf(file) {
    return this.#breaks.filter((it) => it.file === file).map(({ line }) => line);
  }

  /** Sets a breakpoint in a module's line, or takes it away. Answers what is to be shown. */
  async toggle(module, file, line) {
    const there = this.#breaks.find((it) => it.file === file && it.line === line);
    const answer = await this.press(there === undefined ? `break ${module}:${line}` : `delete ${there.number}`);
    this.#breaks = this.#breaks.filter((it) => it !== there);
    const made = BREAKPOINT.exec(answer?.said ?? "");
    if (there === undefined && made !== null) {
      this.#breaks.push({ number: Number(made[1]), file: made[2], line: Number(made[3]) });
    }
    return answer;
  }
}
