// A file of blocks, and the lines of its screens.

import { encode, strictly } from "./bytes.js";
import { PAGE_SIZE } from "./machine.js";

export const LINES = 16, COLUMNS = 64, MOST_SCREENS = 65536;

// The store keeps so many blocks together.
export const PIECE = 64;
// A byte that is no text is shown as dots: the character so many places after it.
const DOTS = 0x2800, MOST_ODD = PAGE_SIZE / 4, TEXTUAL = /^[\p{L}\p{M}\p{N}\p{P}\p{S}\p{Zs}]$/u;

export class Disk {
  // The bytes are null until the store has given them. base: the sums of the blocks of the page's edition that this
  // one was made of. isFresh: whether it is as the page brings it, and needs no place in the store.
  constructor(name, bytes, count = bytes.length / PAGE_SIZE, base = null, isFresh = false) {
    Object.assign(this, { name, bytes, base, isFresh, count: Math.floor(count), dirty: new Set(), titles: [] });
  }

  static blank(name, count) { return new Disk(name, new Uint8Array(count * PAGE_SIZE).fill(32)); }

  page(block) { return this.bytes.subarray(block * PAGE_SIZE, (block + 1) * PAGE_SIZE); }

  put(block, page) {
    this.bytes.set(page, block * PAGE_SIZE);
    this.dirty.add(Math.floor(block / PIECE));
    this.isFresh = false;
    delete this.titles[block];
  }

  get pieces() { return Array.from({ length: Math.ceil(this.count / PIECE) }, (_, piece) => piece); }
  piece(number) { return this.bytes.slice(number * PIECE * PAGE_SIZE, (number + 1) * PIECE * PAGE_SIZE); }

  // The first line of a block, read once.
  title(block) {
    const page = this.page(block), made = () => lineOf(page.subarray(0, COLUMNS));
    return (this.titles[block] ??= [...made()].some(isDots) && isData(page) ? "(a picture or other data)" : made());
  }
}

// How many bytes a character has in UTF-8, by its first byte.
const sizeOf = (byte) => (byte < 128 ? 1 : byte < 0xe0 ? 2 : byte < 0xf0 ? 3 : 4);
const isDots = (letter) => letter.codePointAt(0) >> 8 === DOTS >> 8;

// The characters of a line, each with its bytes: what is UTF-8, a blank for a zero, and dots for each byte that is no
// text.
function charactersOf(bytes) {
  const found = [];
  for (let at = 0; at < bytes.length; at += found[found.length - 1].bytes.length) {
    const own = bytes.subarray(at, at + sizeOf(bytes[at])), letter = own[0] ? strictly(own) : " ";
    const isText = letter && [...letter].length === 1 && TEXTUAL.test(letter) && !isDots(letter);
    found.push(
      isText ? { letter, bytes: own } : { letter: String.fromCharCode(DOTS + own[0]), bytes: own.subarray(0, 1) });
  }
  return found;
}

// The bytes of a text, in which dots are bytes that are no text.
function bytesOf(letters) {
  return letters.flatMap((letter) => (isDots(letter) ? [letter.charCodeAt(0) & 255] : [...encode(letter)]));
}

// A line, without the blanks at its end.
export function lineOf(bytes) {
  const isPlain = bytes.every((byte) => (byte >= 32 && byte < 127) || byte === 0);
  const text = isPlain
    ? String.fromCharCode(...bytes).replace(/\0/g, " ")
    : charactersOf(bytes).map(({ letter }) => letter).join("");
  return text.replace(/ +$/, "");
}

// The lines of a block.
export function linesOf(page) {
  const lines = [];
  for (let at = 0; at < PAGE_SIZE; at += COLUMNS) lines.push(lineOf(page.subarray(at, at + COLUMNS)));
  return lines;
}

// Whether a block has so many bytes that are no text that it is a picture or other data.
export const isData = (page) => linesOf(page).join("").split("").filter(isDots).length > MOST_ODD;

// The bytes of a line that has another text now: what was not edited keeps its bytes. They are too many if it doesn't
// fit.
function edited(before, text) {
  if (lineOf(before) === text) return before;
  const old = charactersOf(before), now = [...text.replace(/\t/g, " ").replace(/ +$/, "")];
  while (old.length && old[old.length - 1].letter === " ") old.pop();
  let front = 0, rear = 0;
  while (front < Math.min(old.length, now.length) && old[front].letter === now[front]) front++;
  while (rear < Math.min(old.length, now.length) - front &&
         old[old.length - 1 - rear].letter === now[now.length - 1 - rear])
    rear++;
  const own = (from, to) => old.slice(from, to).flatMap(({ bytes }) => [...bytes]);
  const made = [
    ...own(0, front), ...bytesOf(now.slice(front, now.length - rear)), ...own(old.length - rear, old.length)
  ];
  const end = own(0, old.length).length;
  while (made.length < COLUMNS) made.push(made.length < end ? 32 : before[made.length]);
  return Uint8Array.from(made);
}

// The block that these lines make, each a text or bytes; or what is wrong with them, and in which line. Of BEFORE, a
// block, the bytes stay that were not edited.
export function pageOf(lines, before = new Uint8Array(PAGE_SIZE).fill(32)) {
  const page = before.slice();
  while (lines.length > LINES && lines[lines.length - 1].length === 0) lines = lines.slice(0, -1);
  if (lines.length > LINES) return { wrong: `a screen has 16 lines, and this one has ${lines.length}`, line: LINES };
  for (let line = 0; line < LINES; line++) {
    const at = line * COLUMNS, content = lines[line] ?? "";
    const bytes = typeof content === "string" ? edited(before.subarray(at, at + COLUMNS), content) : content;
    if (bytes.length > COLUMNS) return { wrong: `line ${line} has ${bytes.length} characters; 64 fit`, line };
    page.set(bytes, at);
  }
  return { page };
}

// Where a text is in a line. Upper and lower case count the same; a whole word has blanks around it.
function columnsOf(line, { text, isWhole }) {
  const wanted = new RegExp(text.replace(/[\\^$.*+?()[\]{}|]/g, "\\$&"), "gi");
  const isEdge = (letter) => letter === undefined || letter === " ";
  const columns = text ? [...line.matchAll(wanted)].map(({ index }) => index) : [];
  return columns.filter((column) => !isWhole || (isEdge(line[column - 1]) && isEdge(line[column + text.length])));
}

// Where a text is in the screens, from one of them on and around the disk: of each line that has it the screen, the
// line, its text and the columns.
export function* search(count, linesIn, wanted, from = 0) {
  for (let step = 0; step < count; step++) {
    const block = (from + step) % count;
    for (const [line, text] of linesIn(block).entries()) {
      const columns = columnsOf(text, wanted);
      if (columns.length) yield { block, line, columns, text };
    }
  }
}

// A block with a text put in place of another: how often it was, and the lines that have no room for it and stay as
// they are.
export function replaced(before, wanted, instead) {
  const old = linesOf(before), columns = old.map((line) => columnsOf(line, wanted)), full = [];
  const lines = old.map(
    (line, at) => columns[at].reduceRight(
      (text, column) => text.slice(0, column) + instead + text.slice(column + wanted.text.length), line));
  let made = pageOf(lines, before);
  for (; made.wrong; made = pageOf(lines, before)) {
    full.push(made.line);
    lines[made.line] = old[made.line];
  }
  return {
    page: made.page,
    full,
    count: columns.reduce((sum, own, line) => sum + (full.includes(line) ? 0 : own.length), 0)
  };
}

// A sum of a block's bytes, which differs between editions.
export function sumOf(page) {
  let one = 0x811c9dc5, other = 0x9e3779b9;
  for (const byte of page) {
    one = Math.imul(one ^ byte, 0x01000193);
    other = Math.imul(other ^ byte, 0x85ebca6b) + 1;
  }
  return `${(one >>> 0).toString(36)}.${(other >>> 0).toString(36)}`;
}
