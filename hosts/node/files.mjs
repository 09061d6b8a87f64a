// The real file system, for a module that runs on node: what hosts/SYSTEM.md says of files and streams.
import { closeSync, constants, fstatSync, mkdirSync, openSync, readSync, readdirSync, rmdirSync, statSync, unlinkSync, writeSync } from "node:fs";
import { isatty } from "node:tty";
import { FolderNames } from "../common/folder_names.mjs";
import { ERRORS, IS_FOLDER, IS_TERMINAL, IS_STREAM, OPENS, SystemError } from "../common/system.mjs";
import { systemPath } from "./paths.mjs";

const FLAGS = [
  [OPENS.write, constants.O_WRONLY],
  [OPENS.readAndWrite, constants.O_RDWR],
  [OPENS.make, constants.O_CREAT],
  [OPENS.onlyNew, constants.O_EXCL],
  [OPENS.empty, constants.O_TRUNC],
  [OPENS.append, constants.O_APPEND],
];
const MODE = 0o666;
const FOLDER_MODE = 0o777;
/** The descriptors of folders, which node has none of: more than of files. */
const FIRST_FOLDER = 2 ** 20;
const MILLISECONDS_OF_A_WAIT = 1;
const folders = new Map();
const nothing = new Int32Array(new SharedArrayBuffer(4));

/** What node throws, as an error of the system. */
function numbered(error) {
  if (error.syscall === undefined) {
    return error;
  }
  return new SystemError(ERRORS[error.code] ?? ERRORS.EIO);
}

/** The answer of a call of node. */
function answerOf(call) {
  try {
    return call();
  } catch (error) {
    throw numbered(error);
  }
}

/** As `answerOf`, but waits where a stream is not ready, or a call was broken off. */
function waitFor(call) {
  for (;;) {
    try {
      return call();
    } catch (error) {
      if (error.code === "EOF") {
        return 0;
      }
      if (error.code !== "EAGAIN" && error.code !== "EINTR") {
        throw numbered(error);
      }
      Atomics.wait(nothing, 0, 0, MILLISECONDS_OF_A_WAIT);
    }
  }
}

function flagsOf(flags) {
  return FLAGS.reduce((all, [bit, flag]) => ((flags & bit) === 0 ? all : all | flag), constants.O_RDONLY);
}

function sizeIn(found) {
  if (found.isDirectory()) {
    return IS_FOLDER;
  }
  return found.isFile() ? BigInt(found.size) : IS_STREAM;
}

function openFolder(path) {
  const names = readdirSync(path, { encoding: "buffer" });
  const number = FIRST_FOLDER + folders.size;
  folders.set(number, new FolderNames(names));
  return number;
}

function openFile(path, flags) {
  return (flags & OPENS.folder) === 0 ? openSync(path, flagsOf(flags), MODE) : openFolder(path);
}

function closeAny(file) {
  if (folders.has(file)) {
    folders.set(file, undefined);
  } else {
    closeSync(file);
  }
}

export const nodeFiles = {
  open: (path, flags) => answerOf(() => openFile(systemPath(path), flags)),
  read: (file, to) => folders.get(file)?.read(to) ?? waitFor(() => readSync(file, to)),
  write: (file, from) => waitFor(() => writeSync(file, from)),
  close: (file) => answerOf(() => closeAny(file)),
  sizeOf: (file) => (folders.has(file) ? IS_FOLDER : answerOf(() => (isatty(file) ? IS_TERMINAL : sizeIn(fstatSync(file))))),
  sizeAt: (path) => answerOf(() => sizeIn(statSync(systemPath(path)))),
  unlink: (path) => answerOf(() => unlinkSync(systemPath(path))),
  makeFolder: (path) => answerOf(() => mkdirSync(systemPath(path), FOLDER_MODE)),
  removeFolder: (path) => answerOf(() => rmdirSync(systemPath(path))),
};
