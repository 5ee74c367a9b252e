// Screens as text: a line `% screen 21` before the lines of each, as docs/PROGRAM.md describes them. The machine's
// library reads and writes them.

import { encode } from "./bytes.js";
import { DATA } from "./data.js";
import { Disk } from "./disk.js";
import { fill } from "./faults.js";

let library = null; // the machine whose library does it

// Takes the library of a machine.
export function useLibrary(machine) { library = machine; }

// Letters of other alphabets, in a line that has no escapes yet, as the library reads their bytes: after %~ a ~ and
// two digits for each.
const escaped = (byte) => (
  byte < 127 && byte !== 126 ? String.fromCharCode(byte) : `~${byte.toString(16).toUpperCase()}`);
const withEscapes = (line) => (
  /^%~|^[\0-\x7f]*$/.test(line) ? line : `%~${Array.from(encode(line.replace(/^%%/, "%")), escaped).join("")}`);


// The screens of a text, { block, page }; or what is wrong with it, and where.
export function screensOf(text) {
  const read = library.screens(encode(text.split("\n").map(withEscapes).join("\n")));
  return read.cause
    ? { wrong: `line ${read.line} of the file ${fill(DATA.textCauses[read.cause], read)}` }
    : { screens: read };
}

// Whether a text begins with a line like: % screen 30. Read alone, it begins a screen, and puts nothing into it.
export function isScreens(text) {
  const [first] = text.trimStart().split("\n", 1), { screens: [screen] = [] } = screensOf(`${first}\n`);
  return first !== "" && Boolean(screen) && screen.page.every((byte) => byte === 32);
}

// All screens of a disk as text.
export const textOf = (disk) => Array.from({ length: disk.count}, (_, block) => library.text(block, disk.page(block)))
  .join("");

// The disk that the screens of a text make.
export function diskOfText(name, count, text) {
  const { screens } = screensOf(text);
  const disk = Disk.blank(name, Math.max(count, ...screens.map((screen) => screen.block + 1)));
  for (const { block, page } of screens) disk.put(block, page);
  disk.dirty.clear();
  return disk;
}
