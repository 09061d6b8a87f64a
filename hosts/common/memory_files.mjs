// Files in memory, for a module that has no file system: what hosts/SYSTEM.md says of files and streams.
import { FolderNames } from "./folder_names.mjs";
import { ERRORS, IS_FOLDER, IS_STREAM, OPENS, SystemError } from "./system.mjs";

const STANDARD_INPUT = 0;
const STANDARD_ERROR = 2;
const FIRST = 3;
const NO_BYTES = new Uint8Array(0);
const decoder = new TextDecoder("utf-8");
const encoder = new TextEncoder();

/** The name of a path: the folder in which the program runs has no name of its own. */
function nameOf(path) {
  return decoder.decode(path).replace(/^(\.\/)+/, "").replace(/\/+$/, "");
}

function fail(number) {
  throw new SystemError(number);
}

function joined(parts) {
  const whole = new Uint8Array(parts.reduce((size, { length }) => size + length, 0));
  let at = 0;
  for (const part of parts) {
    whole.set(part, at);
    at += part.length;
  }
  return whole;
}

export class MemoryFiles {
  #files;
  #print;
  #input;
  #open = new Map();
  #next = FIRST;

  /**
   * `files` is a map of names to bytes, which is read and written. `print` takes the number of a stream and bytes, which are valid
   * only while it is called. `input` is what standard input holds.
   */
  constructor(files, print, input = NO_BYTES) {
    this.#files = files;
    this.#print = print;
    this.#input = { bytes: input, at: 0 };
  }

  #isFolder(name) {
    return name === "" || name === "." || [...this.#files.keys()].some((it) => it.startsWith(`${name}/`));
  }

  #descriptor(number) {
    return this.#open.get(number) ?? fail(ERRORS.EBADF);
  }

  /** The names in a folder. */
  #namesIn(folder) {
    const front = folder === "" || folder === "." ? "" : `${folder}/`;
    const paths = [...this.#files.keys()].filter((it) => it.startsWith(front) && it !== front);
    return [...new Set(paths.map((it) => it.slice(front.length).split("/")[0]))];
  }

  #openFolder(name) {
    if (!this.#isFolder(name)) {
      fail(this.#files.has(name) ? ERRORS.ENOTDIR : ERRORS.ENOENT);
    }
    return this.#newDescriptor(new FolderNames(this.#namesIn(name).map((it) => encoder.encode(it))));
  }

  #newDescriptor(opened) {
    this.#open.set(this.#next, opened);
    this.#next += 1;
    return this.#next - 1;
  }

  open(path, flags) {
    const name = nameOf(path);
    return (flags & OPENS.folder) === 0 ? this.#openFile(name, flags) : this.#openFolder(name);
  }

  #openFile(name, flags) {
    const isThere = this.#files.has(name);
    if (!isThere && this.#isFolder(name)) {
      fail(ERRORS.EISDIR);
    }
    if (!isThere && (flags & OPENS.make) === 0) {
      fail(ERRORS.ENOENT);
    }
    if (isThere && (flags & OPENS.onlyNew) !== 0) {
      fail(ERRORS.EEXIST);
    }
    this.#checkFolderOf(name);
    if (!isThere || (flags & OPENS.empty) !== 0) {
      this.#files.set(name, NO_BYTES);
    }
    return this.#newDescriptor({ name, at: 0, parts: [], bytes: this.#files.get(name) });
  }

  #checkFolderOf(name) {
    const folder = name.split("/").slice(0, -1).join("/");
    if (!this.#isFolder(folder)) {
      fail(ERRORS.ENOENT);
    }
  }

  read(number, to) {
    const file = number === STANDARD_INPUT ? this.#input : this.#descriptor(number);
    if (file instanceof FolderNames) {
      return file.read(to);
    }
    const part = file.bytes.subarray(file.at, file.at + to.length);
    to.set(part);
    file.at += part.length;
    return part.length;
  }

  write(number, from) {
    if (number < FIRST) {
      this.#print(number, from);
    } else {
      this.#descriptor(number).parts.push(from.slice());
    }
    return from.length;
  }

  close(number) {
    if (number <= STANDARD_ERROR) {
      return;
    }
    const { name, parts = [] } = this.#descriptor(number);
    if (parts.length > 0) {
      this.#files.set(name, joined([this.#files.get(name), ...parts]));
    }
    this.#open.delete(number);
  }

  sizeOf(number) {
    if (number < FIRST) {
      return IS_STREAM;
    }
    const file = this.#descriptor(number);
    return file instanceof FolderNames ? IS_FOLDER : BigInt(file.bytes.length);
  }

  sizeAt(path) {
    const name = nameOf(path);
    if (this.#files.has(name)) {
      return BigInt(this.#files.get(name).length);
    }
    return this.#isFolder(name) ? IS_FOLDER : fail(ERRORS.ENOENT);
  }

  unlink(path) {
    if (!this.#files.delete(nameOf(path))) {
      fail(ERRORS.ENOENT);
    }
  }

  makeFolder(path) {
    const name = nameOf(path);
    if (this.#files.has(name) || this.#isFolder(name)) {
      fail(ERRORS.EEXIST);
    }
    this.#checkFolderOf(name);
    this.#files.set(`${name}/`, NO_BYTES);
  }

  removeFolder(path) {
    const name = nameOf(path);
    if (!this.#isFolder(name)) {
      fail(this.#files.has(name) ? ERRORS.ENOTDIR : ERRORS.ENOENT);
    }
    if (this.#namesIn(name).length > 0) {
      fail(ERRORS.ENOTEMPTY);
    }
    this.#files.delete(`${name}/`);
  }
}
