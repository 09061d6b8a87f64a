// What the hosts share: they read the modules that m2c wrote, link them, run them, and collect what they print.
// A program imports two functions from `host`: `put` prints the low byte of its argument, `stop` ends the run with a number.

/** The words of the faults, by their numbers. m2run prints the same. */
const FAULTS = ["", "range", "overflow", "index", "divisor", "case", "no return", "empty procedure", "storage"];
const HALT = 9;
const LAST_NUMBER = 255;
const MODULE_NAME = /^[A-Za-z][A-Za-z0-9]{0,63}$/;

/** At most so many bytes wait to be handed on. */
const MOST_WAITING = 65536;
/** What waits is at most this part of what was handed on, so hardly anything is unseen when a program is stopped. */
const LEAST_SHARE = 4096;
/** After so many milliseconds the bytes that wait are handed on. */
const PAUSE = 5;
/** The clock is asked at the end of a line, and when this many bytes more wait. */
const BYTES_PER_LOOK = 16;
const END_OF_LINE = 10;
/** Handing on needs less stack than so many calls. */
const CALLS_OF_HANDING_ON = 200;

/** A program that cannot be run, or output that is not taken. The message names the file. */
export class Refused extends Error {}

/** Thrown through the program's functions to end the run. */
class Stop extends Error {
  constructor(number) {
    super(`stop ${number}`);
    this.number = number;
  }
}

/** The modules that link's exports name, in their order: M for `tab.M`. */
function moduleNames(link) {
  return WebAssembly.Module.exports(link)
    .filter(({ name }) => name.startsWith("tab."))
    .map(({ name }) => name.slice("tab.".length))
    .filter((name) => MODULE_NAME.test(name) && name !== "link");
}

/** A module of a program, compiled by the engine, with its name. `read` takes the name of a file and answers a promise of its bytes. */
export async function readModule(name, read) {
  const bytes = await read(`${name}.wasm`);
  try {
    return { name, module: await WebAssembly.compile(bytes) };
  } catch (error) {
    throw new Refused(`${name}.wasm is no WebAssembly module: ${error.message}`);
  }
}

/** The modules of a program, link first. `read` takes the name of a file and answers a promise of its bytes. */
export async function readProgram(read) {
  const link = await readModule("link", read);
  const modules = [link];
  for (const name of moduleNames(link.module)) {
    modules.push(await readModule(name, read));
  }
  return modules;
}

function instance({ name, module }, imports) {
  try {
    return new WebAssembly.Instance(module, imports);
  } catch (error) {
    throw new Refused(`${name}.wasm cannot be linked: ${error.message}`);
  }
}

/** Links the modules, and answers the function that runs them. */
function linked([first, ...others], host) {
  const link = instance(first, { host }).exports;
  if (typeof link.run !== "function") {
    throw new Refused("link.wasm exports no function run");
  }
  for (const other of others) {
    instance(other, { link, host });
  }
  return link.run;
}

function hostOf(output) {
  return {
    put: (value) => output.put(Number(BigInt.asUintN(8, value))),
    stop: (value) => {
      throw new Stop(Number(BigInt.asUintN(64, value)));
    },
  };
}

function endOfStop(number) {
  if (number < 1 || number > LAST_NUMBER) {
    return { kind: "trap", words: "trap" };
  }
  return number === HALT
    ? { kind: "halted", words: "" }
    : { kind: "fault", words: `fault ${number}: ${FAULTS[number] ?? "unknown"}` };
}

/** The engine's own stack: V8 and JavaScriptCore throw a RangeError, SpiderMonkey an InternalError. */
function isStackUsedUp(error) {
  return error instanceof RangeError || error?.name === "InternalError";
}

function kindOfError(error) {
  if (error instanceof Stop) {
    return endOfStop(error.number);
  }
  if (error instanceof WebAssembly.RuntimeError) {
    return { kind: "trap", words: "trap" };
  }
  if (isStackUsedUp(error)) {
    return { kind: "stack", words: "the engine's call stack is used up before the program's storage" };
  }
  throw error;
}

/** The end with the engine's own stack, from which maps.mjs tells places. */
function endOfError(error) {
  return { ...kindOfError(error), stack: String(error.stack) };
}

function endOfRun(run) {
  try {
    run();
    return { kind: "ended", words: "" };
  } catch (error) {
    return endOfError(error);
  }
}

/**
 * Links the modules and runs them up to their end. All that they print is handed on before this returns.
 * The kinds of an end are `ended`, `halted`, `fault`, `trap` and `stack`; the words are empty for the first two. An end that was
 * thrown has the engine's stack.
 */
export function runProgram(modules, output) {
  const end = endOfRun(linked(modules, hostOf(output)));
  output.flush();
  return end;
}

/** Fails where there is not enough stack for handing on, which so does not fail midway. */
function tryStack(calls) {
  return calls === 0 ? 0 : 1 + tryStack(calls - 1);
}

/**
 * Collects bytes and hands them on in chunks: the first ones one by one, later more at once.
 * A chunk is valid only while `handOn` is called.
 */
export function outputTo(handOn) {
  const bytes = new Uint8Array(MOST_WAITING);
  let waiting = 0;
  let handed = 0;
  let since = performance.now();

  const flush = () => {
    if (waiting > 0) {
      tryStack(CALLS_OF_HANDING_ON);
      handOn(bytes.subarray(0, waiting));
      handed += waiting;
      waiting = 0;
      since = performance.now();
    }
  };
  const isLate = (byte) =>
    (byte === END_OF_LINE || waiting % BYTES_PER_LOOK === 0) && performance.now() - since >= PAUSE;
  const put = (byte) => {
    bytes[waiting] = byte;
    waiting += 1;
    if (waiting === MOST_WAITING || waiting * LEAST_SHARE > handed || isLate(byte)) {
      flush();
    }
  };
  return { put, flush };
}
