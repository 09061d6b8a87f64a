// Runs m2, compiled to a WebAssembly module, once. What it asks of its system is described in hosts/SYSTEM.md.
// Addresses and sizes come as BigInts; the files behind the calls are an object of its own: node's, or one in memory.

/** Numbers of errors, as Linux has them. */
export const ERRORS = {
  EPERM: 1, ENOENT: 2, EINTR: 4, EIO: 5, EBADF: 9, EAGAIN: 11, ENOMEM: 12, EACCES: 13, EBUSY: 16, EEXIST: 17, EXDEV: 18,
  ENOTDIR: 20, EISDIR: 21, EINVAL: 22, ENFILE: 23, EMFILE: 24, EFBIG: 27, ENOSPC: 28, ESPIPE: 29, EROFS: 30, EPIPE: 32,
  ENAMETOOLONG: 36, ENOTEMPTY: 39, ELOOP: 40,
};
/** How a file is opened. */
export const OPENS = { write: 1, readAndWrite: 2, make: 0o100, onlyNew: 0o200, empty: 0o1000, append: 0o2000, folder: 0o200000 };
/** What `size` answers of what is no file. */
export const IS_FOLDER = 1n << 62n;
export const IS_STREAM = 1n << 61n;
/** Of a stream at which a person sits. */
export const IS_TERMINAL = IS_STREAM + 1n;

const NO_SUCH_WORD = -1n;
const NO_ROOM = -2n;
/** A stack pointer below this: the stack is used up. It grows down to 0. */
const LEAST_STACK = 4096n;

/** A call of the system that failed. */
export class SystemError extends Error {
  constructor(number) {
    super(Object.keys(ERRORS).find((name) => ERRORS[name] === number) ?? `error ${number}`);
    this.number = number;
  }
}

/** Thrown through the program's functions to end it. */
class Exit extends Error {
  constructor(status) {
    super(`exit ${status}`);
    this.status = status;
  }
}

/** The answer of a call, or minus the number of its error. */
function answered(call) {
  try {
    return call();
  } catch (error) {
    if (!(error instanceof SystemError)) {
      throw error;
    }
    return -error.number;
  }
}

function wordsInto(bytesAt, bytes, to, room) {
  if (bytes === undefined) {
    return NO_SUCH_WORD;
  }
  const taken = Math.min(bytes.length, Number(room));
  bytesAt(to, taken).set(bytes.subarray(0, taken));
  return taken < bytes.length ? NO_ROOM : BigInt(taken);
}

/** The functions that the module imports, over files, words and variables. `bytesAt` gives a part of the module's memory. */
function functionsOf({ files, words, variables }, bytesAt) {
  const pathAt = (path, length) => bytesAt(path, length).slice();
  return {
    open: (path, length, flags) => answered(() => files.open(pathAt(path, length), flags)),
    read: (file, to, most) => BigInt(answered(() => files.read(file, bytesAt(to, most)))),
    write: (file, from, size) => BigInt(answered(() => files.write(file, bytesAt(from, size)))),
    close: (file) => answered(() => files.close(file) ?? 0),
    size: (path, length, file) => BigInt(answered(() => (length === 0n ? files.sizeOf(file) : files.sizeAt(pathAt(path, length))))),
    unlink: (path, length) => answered(() => files.unlink(pathAt(path, length)) ?? 0),
    mkdir: (path, length) => answered(() => files.makeFolder(pathAt(path, length)) ?? 0),
    rmdir: (path, length) => answered(() => files.removeFolder(pathAt(path, length)) ?? 0),
    word: (number, to, room) => wordsInto(bytesAt, words[Number(number)], to, room),
    variable: (name, length, to, room) => wordsInto(bytesAt, variables(pathAt(name, length)), to, room),
    exit: (status) => {
      throw new Exit(status);
    },
  };
}

/** Lets the stack begin so many bytes above its end. The global has 64 or 32 bits, by the form of the module. */
function setStack({ __stack_pointer: pointer }, bytes) {
  pointer.value = typeof pointer.value === "bigint" ? BigInt(bytes) : bytes;
}

/** The engine's own stack: V8 and JavaScriptCore throw a RangeError, SpiderMonkey an InternalError. */
function isStackUsedUp(error, exports) {
  const pointer = BigInt(exports.__stack_pointer.value);
  return error instanceof RangeError || error?.name === "InternalError" || BigInt.asIntN(64, pointer) < LEAST_STACK;
}

/** How a run came to its end: `exit` with a status, or why there is none. */
function endOf(exports) {
  try {
    return { kind: "exit", status: exports.start() };
  } catch (error) {
    if (error instanceof Exit) {
      return { kind: "exit", status: error.status };
    }
    if (isStackUsedUp(error, exports)) {
      return { kind: "stack", words: "the stack is used up" };
    }
    if (error instanceof WebAssembly.RuntimeError) {
      return { kind: "trap", words: `the module has trapped: ${error.message}` };
    }
    throw error;
  }
}

/**
 * Runs the program of a module from its begin to its end, in an instance of its own, so its memory is fresh.
 * `system` has `words`, an array of bytes each, `variables`, a function from the bytes of a name to bytes, and `files`. With
 * `memory` its memory has at most so many bytes, with `stack` its stack. Answers the end: its kind is `exit` (with a status),
 * `stack` or `trap`.
 */
export function runOnce(module, system, most = {}) {
  let memory;
  const bytesAt = (at, size) => new Uint8Array(memory.buffer, Number(at), Number(size));
  const instance = new WebAssembly.Instance(module, { system: functionsOf(system, bytesAt) });
  memory = instance.exports.memory;
  if (most.memory !== undefined) {
    instance.exports.limit(BigInt(most.memory));
  }
  if (most.stack !== undefined) {
    setStack(instance.exports, most.stack);
  }
  return { ...endOf(instance.exports), bytes: memory.buffer.byteLength };
}
