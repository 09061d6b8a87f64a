// The dialog that makes a link of a program, and of a task for a class: what is to be done, tests, and modules that are not shown.
import { BadLink, fragmentOf } from "./share.mjs";

const element = (id) => document.getElementById(id);
const ONLY_TEST = "The output";

function labelled(words, input) {
  const label = document.createElement("label");
  label.append(words, input);
  return label;
}

export class ShareDialog {
  #programOf;
  #refuse;
  #tests = [];

  /** `programOf` answers the modules, and the input if there is one; `refuse` is told why there is no link. */
  constructor(programOf, refuse) {
    this.#programOf = programOf;
    this.#refuse = refuse;
    element("share").addEventListener("click", () => this.#open());
    element("copy").addEventListener("click", () => this.#copy());
    element("add-test").addEventListener("click", () => this.#addTest().focus());
    element("task-input").addEventListener("input", () => this.#write());
    this.#addTest();
  }

  /** Adds the fields of a test. Answers the first of them. */
  #addTest() {
    const fields = ["input", "prints"].map(() => Object.assign(document.createElement("textarea"), { rows: 3, spellcheck: false }));
    fields.forEach((it) => it.addEventListener("input", () => this.#write()));
    const number = this.#tests.push(fields);
    const row = document.createElement("fieldset");
    const legend = document.createElement("legend");
    legend.textContent = `Test ${number}`;
    row.className = "test";
    row.append(legend, labelled("The program reads", fields[0]), labelled("and has to print", fields[1]));
    element("test-rows").append(row);
    return fields[0];
  }

  /** The tests whose fields are filled in. */
  #testsOf() {
    const filled = this.#tests.map((fields) => fields.map(({ value }) => value)).filter((texts) => texts.some((text) => text !== ""));
    return filled.map(([input, prints], at) => ({ name: filled.length === 1 ? ONLY_TEST : `Test ${at + 1}`, input, prints }));
  }

  #program() {
    const names = [...document.querySelectorAll("#hidden-modules input:checked")].map(({ value }) => value);
    const isHidden = ({ name }) => names.includes(name);
    const program = this.#programOf();
    const words = element("task-input").value;
    if (words === "") {
      return program;
    }
    const { files } = program;
    return { ...program, files: files.filter((it) => !isHidden(it)), hidden: files.filter(isHidden), task: words, tests: this.#testsOf() };
  }

  async #write() {
    const address = `${location.origin}${location.pathname}${await fragmentOf(this.#program())}`;
    element("link").value = address;
    element("frame").value = `<iframe src="${address}" width="100%" height="700" title="Modula-2"></iframe>`;
  }

  #choice({ name }) {
    const box = document.createElement("input");
    box.type = "checkbox";
    box.value = name;
    box.addEventListener("change", () => this.#write());
    const label = document.createElement("label");
    label.append(box, ` ${name}`);
    return label;
  }

  async #open() {
    element("hidden-modules").replaceChildren(element("hidden-modules").firstElementChild, ...this.#programOf().files.map((it) => this.#choice(it)));
    element("copied").textContent = "";
    try {
      await this.#write();
    } catch (error) {
      this.#refuse(error instanceof BadLink ? error.message : String(error));
      return;
    }
    element("share-dialog").showModal();
    element("link").select();
  }

  async #copy() {
    element("link").select();
    try {
      await navigator.clipboard.writeText(element("link").value);
      element("copied").textContent = "It is copied.";
    } catch {
      element("copied").textContent = "The browser does not let it be copied: it is selected, so copy it by the keyboard.";
    }
  }
}
