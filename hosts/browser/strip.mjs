// The strip under a program that is gone through: buttons, what was said, the calls and the variables, and the line in the editor.
import { Debugging } from "./debugging.mjs";

/** The buttons: what a reader sees, and the command. */
const MOVES = [
  ["From the begin", "run"], ["Step", "step"], ["Over", "next"], ["Out", "finish"], ["Go on", "continue"], ["Back", "back"], ["Run back", "back-continue"],
];
const element = (id) => document.getElementById(id);

export class Strip {
  #workspace;
  #compiler;
  #asked;
  #print;
  #debugging;
  #isBusy = false;

  /** `asked` answers the program, its files and the input; `print` shows what was printed so far. */
  constructor({ workspace, compiler, asked, print }) {
    this.#workspace = workspace;
    this.#compiler = compiler;
    this.#asked = asked;
    this.#print = print;
    element("moves").append(...MOVES.map(([words, command]) => this.#button(words, command)));
    element("watching").addEventListener("submit", (event) => {
      event.preventDefault();
      this.#answer(() => this.#debugging.press(`watch ${element("watched").value}`));
    });
  }

  #button(words, command) {
    const button = document.createElement("button");
    button.type = "button";
    button.textContent = words;
    button.dataset.command = command;
    button.addEventListener("click", () => this.#answer(() => this.#debugging.press(command)));
    return button;
  }

  #setBusy(isBusy) {
    this.#isBusy = isBusy;
    element("debugger").setAttribute("aria-busy", String(isBusy));
  }

  /** Waits for an answer and shows it. A press meanwhile is left out. */
  async #answer(ask) {
    if (this.#isBusy) {
      return;
    }
    this.#setBusy(true);
    const debugging = this.#debugging;
    const answer = await ask();
    this.#setBusy(false);
    if (answer !== undefined && debugging === this.#debugging) {
      this.#show(answer);
    }
  }

  #show({ said, where = "", variables = "", output, place }) {
    element("debug-said").textContent = said;
    element("calls").textContent = where;
    element("variables").textContent = variables;
    this.#workspace.light(place);
    this.#workspace.showBreaks((file) => this.#debugging.linesOf(file));
    if (output !== undefined) {
      this.#print(output);
    }
  }

  /** Goes to the first statement. */
  open() {
    element("debugger").hidden = false;
    element("debug").setAttribute("aria-expanded", "true");
    this.#debugging = new Debugging(this.#compiler, this.#asked);
    return this.#answer(() => this.#debugging.press("step"));
  }

  /** Ends all, as a text changed, or a reader wants no more. */
  close() {
    if (this.#debugging === undefined) {
      return;
    }
    this.#debugging = undefined;
    this.#compiler.stop();
    element("debugger").hidden = true;
    element("debug").setAttribute("aria-expanded", "false");
    this.#workspace.light(undefined);
    this.#workspace.showBreaks(() => []);
  }

  /** Sets a breakpoint in this line of the module that is seen, or takes it away. */
  toggle(line) {
    const { module, active } = this.#workspace;
    if (this.#debugging !== undefined) {
      this.#answer(() => this.#debugging.toggle(module, active, line));
    }
  }
}
