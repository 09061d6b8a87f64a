// The compiler m2 as a module, and the library, for the hosts on node: where they stand.
import { existsSync, readFileSync } from "node:fs";
import { fileURLToPath } from "node:url";
import { Refused } from "../common/host.mjs";

/** Beside this file, where `make web` puts it, and where the snapshot stands. */
const MODULES = ["m2.wasm", "../../build/web/m2.wasm", "../../dist/m2.wasm"];
/** In the repository and where it is installed, and in the archive for node. */
const LIBRARIES = ["../../lib", "../lib"];
const NOT_THERE = "m2.wasm is not there; M2_WASM names it";

function beside(place) {
  return fileURLToPath(new URL(place, import.meta.url));
}

/** m2, compiled by the engine: of the file that M2_WASM names, or else of the first that is there. */
export function loadModule() {
  const given = process.env.M2_WASM;
  const path = (given ? [given] : MODULES.map(beside)).find((it) => existsSync(it));
  if (path === undefined) {
    throw new Refused(NOT_THERE);
  }
  try {
    return new WebAssembly.Module(readFileSync(path));
  } catch (error) {
    throw new Refused(`${path} is no module of m2: ${error.message}`);
  }
}

/** The bytes of a file of the library. */
export function libraryFile(name) {
  const path = LIBRARIES.map((it) => beside(`${it}/${name}`)).find((it) => existsSync(it));
  if (path === undefined) {
    throw new Refused(`lib/${name} is not there: it has to stand beside the folder of the hosts`);
  }
  return readFileSync(path);
}
