// The names in a folder, as a module reads them: hosts/SYSTEM.md says how.
import { ERRORS, SystemError } from "./system.mjs";

export class FolderNames {
  #names;
  #at = 0;

  /** `names` are arrays of bytes. */
  constructor(names) {
    this.#names = names;
  }

  /** Puts as many names there as there is room for, each with a 0 behind it. Answers how many bytes that are, 0 behind the last name. */
  read(to) {
    let size = 0;
    for (let name = this.#names[this.#at]; name !== undefined && size + name.length < to.length; name = this.#names[this.#at]) {
      to.set(name, size);
      to[size + name.length] = 0;
      size += name.length + 1;
      this.#at += 1;
    }
    if (size === 0 && this.#at < this.#names.length) {
      throw new SystemError(ERRORS.EINVAL);
    }
    return size;
  }
}
