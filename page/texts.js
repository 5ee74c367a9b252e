// Text files as blocks, as commands/served/texts.py has them: each line that has words is a block from FIRST_TEXT on,
// so that BLK, >IN and view cells are places in files. A file is known once it was opened, or dropped on the page.

import { encode, isSame } from "./bytes.js";
import { DATA } from "./data.js";
import { trimmedEnd } from "./faults.js";
import { PAGE_SIZE } from "./machine.js";

export const FIRST_TEXT = 32768;
const MOST_TEXT_LINES = 65536 - FIRST_TEXT, TAB_CODE = 9, SPACE_CODE = 32, CLOSING = 41, EVALUATED = "EVALUATE";
const BYTE_ORDER = "\xef\xbb\xbf", UTF16 = ["\xff\xfe", "\xfe\xff"];

// A text that can't be taken, and why.
export class Unreadable extends Error {}

const begins = (bytes, letters) => [...letters].every((letter, at) => bytes[at] === letter.charCodeAt(0));
const blanked = (bytes) => {
  const page = new Uint8Array(PAGE_SIZE).fill(SPACE_CODE);
  page.set(bytes);
  return page;
};

// The lines of a text that have words: of each its file, its number and its bytes. A first line that begins with #!
// has none.
function* linesIn(name, content) {
  if (UTF16.some((mark) => begins(content, mark)))
    throw new Unreadable(`${name} is a text in UTF-16; save it as UTF-8`);
  let at = begins(content, BYTE_ORDER) ? BYTE_ORDER.length : 0;
  for (let number = 1; at < content.length; number++) {
    const found = content.subarray(at).findIndex((byte) => byte === 10 || byte === 13);
    const end = found < 0 ? content.length : at + found;
    const text = trimmedEnd(content.slice(at, end).map((byte) => (byte === TAB_CODE ? SPACE_CODE : byte)));
    if (text.length > PAGE_SIZE)
      throw new Unreadable(`${name}:${number}:${PAGE_SIZE + 1}: a line may have ${PAGE_SIZE} bytes; split it`);
    if (text.length && !(number === 1 && begins(text, "#!"))) yield { name, number, text };
    at = end + (content[end] === 13 && content[end + 1] === 10 ? 2 : 1);
  }
}

// Where a comment ends in a line: the byte after it, 0 if it goes on.
export const endOfComment = (text) => text.indexOf(CLOSING) + 1;

// The same for the words that [IF] or [ELSE] leaves out: those up to the [ELSE] or [THEN] that belongs to it.
export function skipping() {
  let depth = 1;
  return (text) => {
    for (const { 0: found, index } of Array.from(text, (byte) => String.fromCharCode(byte))
      .join("")
      .matchAll(/[^ ]+/g)) {
      const word = found.toUpperCase();
      if (word === "[IF]") depth++;
      else if (word === "[THEN]" || (word === "[ELSE]" && depth === 1)) depth--;
      if (!depth) return index + found.length;
    }
    return 0;
  };
}

export class Texts {
  // files: the known files, by name; read: those that were interpreted, in order; last: the last one that no other one
  // read.
  constructor({ files = [], read = [], last = "" } = {}) {
    Object.assign(this, { files: new Map(files), read: [], lines: [], pages: new Map(), last });
    for (const [name, content] of read) this.add(name, content);
  }

  kept() {
    return { files: [...this.files], read: this.read.map(({ name, content }) => [name, content]), last: this.last };
  }

  // The blocks of a text's lines from now on, { first, count }: those that it has, or new ones. A typed line has no
  // name.
  add(name, content) {
    let found = this.read.find((one) => one.name === name && isSame(one.content, content));
    if (!found) {
      const isLine = !name || name === EVALUATED;
      const lines = isLine ? [{ name, number: name ? 1 : 0, text: content }] : [...linesIn(name, content)];
      if (this.lines.length + lines.length > MOST_TEXT_LINES)
        throw new Unreadable(`there is room for ${MOST_TEXT_LINES} lines of texts; start a new Forth`);
      found = { name, content, first: FIRST_TEXT + this.lines.length, count: lines.length };
      this.read.push(found);
      this.lines = this.lines.concat(lines);
    }
    for (let block = found.first; block < found.first + found.count; block++) this.pages.delete(block);
    return found;
  }

  // The name under which a file is known, or undefined: those that were opened, and those that come with the Forth.
  find(name) {
    return [name, name.split("/").pop()].find((one) => this.files.has(one) || DATA.library[one] !== undefined);
  }

  // Whether a file was read.
  isRead(name) { return this.read.some((one) => one.name === this.find(name)); }

  // The blocks of a file that the text of a block names, or a typed line.
  open(named, beside) {
    const name = named || this.last, place = this.find(name);
    if (!name) throw new Unreadable("INCLUDE needs the name of a file");
    if (!place) throw new Unreadable(`cannot read ${name}: open it in the tab Disks first, or drop it on the page`);
    if (!this.place(beside)) this.last = place;
    return this.add(place, this.files.get(place) || encode(DATA.library[place]));
  }

  // The block of a text that a program gives to EVALUATE.
  evaluated(text) { return this.add(EVALUATED, text).first; }

  // The line that a block is, or undefined.
  place(block) { return this.lines[block - FIRST_TEXT]; }

  // What the machine reads as this block, or undefined.
  page(block) {
    const place = this.place(block);
    return place && blanked(this.pages.get(block) || place.text);
  }

  // Takes the lines after a block out, up to an end in one of them, as `endOf` finds it; whether there is one in the
  // same text.
  takesUntil(block, endOf) {
    const began = this.place(block), taken = new Map();
    for (let at = block + 1, line = this.place(at); began && line; line = this.place(++at)) {
      if (line.name !== began.name || line.number <= began.number) return false;
      const end = endOf(line.text);
      taken.set(at, end ? line.text.map((byte, place) => (place < end ? SPACE_CODE : byte)) : new Uint8Array(0));
      if (!end) continue;
      for (const [one, page] of taken) this.pages.set(one, page);
      return true;
    }
    return false;
  }
}

