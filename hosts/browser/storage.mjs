// What the browser keeps: the program, and how the page looks. What a browser does not take is held as long as the page is open.

const held = new Map();

/** What is kept under a name, or nothing. */
export function kept(name) {
  if (held.has(name)) {
    return held.get(name);
  }
  try {
    return JSON.parse(localStorage.getItem(name)) ?? undefined;
  } catch {
    return undefined;
  }
}

/** Keeps a value under a name. Whether the browser took it. */
export function keep(name, value) {
  try {
    localStorage.setItem(name, JSON.stringify(value));
    held.delete(name);
    return true;
  } catch {
    held.set(name, value);
    return false;
  }
}
