// Paths on Windows, as m2 takes them: it parts folders by / and the folders of M2_LIB by colons.
// So \ becomes /, and the colon of a drive becomes |, as in C|/lib, where it stands in M2_LIB. On other systems all stays as it is.

const WINDOWS = "win32";
const DRIVE = /^([A-Za-z]):/;
const DRIVE_AS_IT_IS_GIVEN = /^([A-Za-z])\|/;

/** A word of the command line. */
export function givenWord(word, platform = process.platform) {
  return platform === WINDOWS ? word.replaceAll("\\", "/") : word;
}

/** The folders that a variable names: Windows parts them by semicolons. */
export function givenFolders(value, platform = process.platform) {
  if (platform !== WINDOWS) {
    return value;
  }
  return value.split(";").map((it) => givenWord(it, platform).replace(DRIVE, "$1|")).join(":");
}

/** The path of a file, in bytes, from one that m2 made. */
export function systemPath(path, platform = process.platform) {
  return platform === WINDOWS ? Buffer.from(Buffer.from(path).toString().replace(DRIVE_AS_IT_IS_GIVEN, "$1:")) : Buffer.from(path);
}
