// Where a page gets programs from: the files that a reader chooses, and the folders beside the page.
// A source has a name, and a function `read` that takes the name of a file and answers a promise of its bytes.
import { Refused } from "../common/host.mjs";

const FOLDER_NAME = /^\w[\w-]*(\/\w[\w-]*)*$/;
const LINK = "link.wasm";

async function bytesOf(file) {
  try {
    return await file.arrayBuffer();
  } catch {
    throw new Refused(`${file.name} cannot be read. Has it changed? Choose it again`);
  }
}

/** The path of a file in the folder that was chosen, which comes first; a file that was chosen by itself has only its name. */
function pathOf(file) {
  return (file.webkitRelativePath || file.name).split("/");
}

function folderOf(file) {
  return pathOf(file).slice(0, -1).join("/");
}

function depthOf(folder) {
  return folder.split("/").length;
}

/** The folder of the program that is meant: the only one, or that which is nearest to the chosen folder. */
function folderOfProgram(files) {
  const folders = files.filter(({ name }) => name === LINK).map(folderOf).sort();
  const least = Math.min(...folders.map(depthOf));
  const nearest = folders.filter((folder) => depthOf(folder) === least);
  if (nearest.length === 0) {
    throw new Refused(`${LINK} is not among the files`);
  }
  if (nearest.length > 1) {
    throw new Refused(`there are several programs: choose one of ${nearest.join(", ")}`);
  }
  return nearest[0];
}

/** A program of the files that were chosen. */
export function sourceOfFiles(files) {
  const folder = folderOfProgram(files);
  const own = new Map(files.filter((file) => folderOf(file) === folder).map((file) => [file.name, file]));
  const read = async (name) => {
    if (!own.has(name)) {
      throw new Refused(`${name} is not among the files`);
    }
    return bytesOf(own.get(name));
  };
  return { name: folder || "the chosen files", read };
}

async function answerTo(path) {
  try {
    return await fetch(path, { cache: "no-cache" });
  } catch (error) {
    throw new Refused(`${path} cannot be read: ${error.message}`);
  }
}

async function bytesAt(path) {
  const answer = await answerTo(path);
  if (!answer.ok) {
    throw new Refused(`${path} is not there (the server answers ${answer.status})`);
  }
  return answer.arrayBuffer();
}

/** A program in a folder beside the page. */
export function sourceBeside(name) {
  if (!FOLDER_NAME.test(name)) {
    throw new Refused(`"${name}" is no name of a folder beside this page`);
  }
  return { name, read: (file) => bytesAt(`${name}/${file}`) };
}

/** The names in programs.txt, one a line; none where it is not there. */
export async function namesBeside() {
  const answer = await answerTo("programs.txt").catch(() => undefined);
  const text = answer?.ok ? await answer.text() : "";
  return text.split(/\s+/).filter((name) => FOLDER_NAME.test(name));
}
