// The compiler beside the page: a worker that is called, and that is ended where a call is broken off.

/** A call that was broken off. */
export class Stopped extends Error {}

export class Compiler {
  #worker;
  #calls = new Map();
  #count = 0;

  #start() {
    const worker = new Worker(new URL("m2worker.mjs", import.meta.url), { type: "module" });
    worker.onmessage = ({ data }) => this.#hear(data);
    worker.onerror = ({ message }) => this.#fail(message || "m2worker.mjs cannot be loaded");
    return worker;
  }

  #hear({ id, stream, bytes, end }) {
    const call = this.#calls.get(id);
    if (call === undefined) {
      return;
    }
    if (end === undefined) {
      call.print(stream, bytes);
      return;
    }
    this.#calls.delete(id);
    call.resolve(end);
  }

  #fail(words) {
    for (const call of this.#calls.values()) {
      call.resolve({ kind: "failed", words });
    }
    this.#calls.clear();
    this.#worker = undefined;
  }

  /** Sends what m2worker.mjs takes. `print` hears what is printed; the answer says how the call ended. */
  call(asked, print) {
    this.#worker ??= this.#start();
    this.#count += 1;
    const id = this.#count;
    return new Promise((resolve, reject) => {
      this.#calls.set(id, { print, resolve, reject });
      this.#worker.postMessage({ ...asked, id });
    });
  }

  /** Calls m2 with these words and what is typed, and answers the end with all that was printed on both streams. */
  async said(words, files, typed) {
    const parts = { 1: [], 2: [] };
    const end = await this.call({ words, files, typed }, (stream, bytes) => parts[stream].push(bytes));
    const [out, error] = await Promise.all([1, 2].map((stream) => new Blob(parts[stream]).arrayBuffer()));
    return { ...end, out: new Uint8Array(out), error: new Uint8Array(error) };
  }

  /** Breaks all calls off. The next call starts anew. */
  stop() {
    this.#worker?.terminate();
    this.#worker = undefined;
    for (const call of this.#calls.values()) {
      call.reject(new Stopped());
    }
    this.#calls.clear();
  }
}
