// A row of tabs, for the mouse and the keyboard: one of them is chosen, and the arrow keys, Home and End go to the others.

const STEPS = { ArrowRight: 1, ArrowLeft: -1 };

export class Tabs {
  #list;
  #chosen;
  #names = [];
  #panel;

  /** `list` gets the tabs, `panel` is what they show, and `choose` is told the name of the tab that a reader chooses. */
  constructor(list, panel, choose) {
    this.#list = list;
    this.#panel = panel;
    this.#chosen = choose;
    list.addEventListener("keydown", (event) => this.#key(event));
  }

  #key(event) {
    const at = this.#names.indexOf(event.target.dataset?.name);
    const count = this.#names.length;
    const next = { Home: 0, End: count - 1 }[event.key] ?? (event.key in STEPS ? (at + STEPS[event.key] + count) % count : undefined);
    if (at >= 0 && next !== undefined) {
      event.preventDefault();
      this.#chosen(this.#names[next]);
      this.#list.children[next].focus();
    }
  }

  #tab(name, words, isChosen) {
    const tab = document.createElement("button");
    tab.type = "button";
    tab.dataset.name = name;
    tab.textContent = words;
    tab.tabIndex = isChosen ? 0 : -1;
    tab.setAttribute("role", "tab");
    tab.setAttribute("aria-selected", String(isChosen));
    tab.setAttribute("aria-controls", this.#panel.id);
    tab.addEventListener("click", () => this.#chosen(name));
    return tab;
  }

  /** Shows tabs: each has a name and words. */
  show(tabs, chosen) {
    const focused = document.activeElement?.parentNode === this.#list;
    this.#names = tabs.map(([name]) => name);
    this.#list.replaceChildren(...tabs.map(([name, words]) => this.#tab(name, words, name === chosen)));
    this.#panel.setAttribute("aria-label", tabs.find(([name]) => name === chosen)?.[1] ?? "");
    if (focused) {
      this.#list.children[Math.max(this.#names.indexOf(chosen), 0)]?.focus();
    }
  }
}
