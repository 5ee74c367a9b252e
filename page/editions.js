// Editions: a disk of the page's that someone has changed, with what a newer page brings; the Forth of an older page.

import { encode, fromBase64, isSame } from "./bytes.js";
import { DATA } from "./data.js";
import { Disk, linesOf, sumOf } from "./disk.js";
import { diskOfText } from "./screens.js";

const LESSON = /^\( Lesson \d+: /, VERSION = /forth83 [\w.]+ (?:in a )?page,? (?:un)?proved */;
// Lines that are typed again for a new Forth: those that begin so.
const REMAKING =
  /^\s*(:|INCLUDE|2?VARIABLE|CREATE|DEFER|VOCABULARY|\S+\s+(CONSTANT|VALUE|LOAD)|\S+\s+\S+\s+(2CONSTANT|THRU))(\s|$)/i;

const sumsOf = (disk) => Array.from({ length: disk.count }, (_, block) => sumOf(disk.page(block)));
const isEmpty = (page) => page.every((byte) => byte === 32 || byte === 0);

// A disk of the page's own, as the page brings it.
export function builtIn(name) {
  const { count, text, bytes } = DATA.disks[name];
  const disk = bytes ? new Disk(name, fromBase64(bytes)) : diskOfText(name, count, text);
  return Object.assign(disk, { base: sumsOf(disk), isFresh: true });
}

// Whose a block is, if the page's edition and the person's differ: the person's if she changed it. If nobody knows
// from which edition it was made, the pupils' screens are the person's, and others the page's.
function isMine(mine, theirs, base, block) {
  const page = mine.page(block);
  if (base) return block >= base.length || sumOf(page) !== base[block];
  return block >= theirs.count || isEmpty(theirs.page(block)) || LESSON.test(linesOf(page)[0]) ||
    LESSON.test(linesOf(theirs.page(block))[0]);
}

// What the page brings now, with what the person has changed: { disk, taken, kept }, the blocks that are the page's
// new ones, and those that both have changed. Null if the page's edition is the same.
export function merged(mine, theirs) {
  const { base } = mine, disk = new Disk(mine.name, theirs.bytes.slice(), theirs.count, theirs.base), taken = [];
  const kept = [];
  if (base && base.join() === theirs.base.join()) return null;
  if (mine.count > disk.count)
    Object.assign(disk, { bytes: mine.bytes.slice(), count: mine.count }).bytes.set(theirs.bytes);
  for (let block = 0; block < mine.count; block++) {
    const page = mine.page(block);
    if (block < theirs.count && isSame(page, theirs.page(block))) continue;
    if (!isMine(mine, theirs, base, block)) taken.push(block);
    else {
      disk.put(block, page);
      if (block < theirs.count && base && theirs.base[block] !== base[block]) kept.push(block);
    }
  }
  return { disk, taken, kept };
}

// Whether most screens of two editions differ, so that they are different disks of the same name.
export function areStrangers(mine, theirs) {
  const blank = sumOf(new Uint8Array(1024).fill(32)), filled = theirs.base.filter((sum) => sum !== blank);
  const sums = mine.base || sumsOf(mine);
  return filled.filter((sum) => sums.includes(sum)).length * 4 < filled.length;
}

// The version that a machine's memory names, and its place there.
export function versionOf(memory) {
  const found = VERSION.exec(Array.from(memory, (byte) => String.fromCharCode(byte)).join(""));
  return found ? { text: found[0].trimEnd(), at: found.index, size: found[0].length } : { text: "", at: 0, size: 0 };
}

// Makes VERSION name the page whose module runs.
export function nameVersion(memory, version) {
  const { at, size } = versionOf(memory);
  const text = version.length <= size ? version : version.replace(" in a page,", " page");
  if (size >= text.length) memory.set(encode(text.padEnd(size)), at);
}

// The lines of a transcript that made words, for a new Forth.
export function makingLines(texts) {
  const found = [];
  let isOpen = false;
  for (const [kind, line] of texts) {
    if (kind !== "typed") continue;
    if (isOpen || REMAKING.test(line)) found.push(line);
    for (const word of line.split(/\s+/)) isOpen = word === ":" || (isOpen && word !== ";");
  }
  return found;
}

