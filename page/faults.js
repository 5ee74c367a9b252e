// The places of faults, as commands/served/{faults,reports}.py have them.

import { MACHINE_FAULTS } from "./cells.js";
import { COLUMNS } from "./disk.js";

export const FAULTS = {
  unknown: MACHINE_FAULTS.notFound,
  missing: MACHINE_FAULTS.badLength,
  said: MACHINE_FAULTS.aborted
};
const WIDEST_MARKED = 100, LAST = 1023, BLANK_CODE = 32;
const SPACES = /(?! )[\p{C}\p{Z}]/gu;

const readable = (bytes) => new TextDecoder().decode(bytes);
// Bytes as a text in which nothing moves a cursor.
export const plain = (bytes) => readable(bytes).replace(SPACES, ".");
const columns = (bytes) => [...readable(bytes)].length;
// A text with values in the places that have their names.
export const fill = (text, values) => text.replace(/\{(\w+)\}/g, (_, name) => values[name]);

export function trimmedEnd(bytes) {
  let end = bytes.length;
  while (end && bytes[end - 1] === BLANK_CODE) end--;
  return bytes.subarray(0, end);
}

// Where the next word of a text begins from a place on, and where it ends.
export function nextWord(text, from) {
  let start = Math.min(from, text.length);
  while (text[start] === BLANK_CODE) start++;
  const end = text.indexOf(BLANK_CODE, start);
  return [start, end < 0 ? text.length : end];
}

// Where the word is that a fault is about, in what was interpreted: the one before >IN; for an unknown name, which
// isn't taken yet, the one after.
export function faultWord(fault, { text, offset }) {
  const before = trimmedEnd(text.subarray(0, offset));
  if (fault === FAULTS.unknown || !before.length) return nextWord(text, offset);
  return nextWord(text, before.lastIndexOf(BLANK_CODE) + 1);
}

// A line with a mark below a byte; of a long one the part around it.
export function marked(text, at) {
  const start = text.length <= WIDEST_MARKED ? 0 : Math.max(at - WIDEST_MARKED / 2, 0);
  return [
    plain(trimmedEnd(text.subarray(start, start + WIDEST_MARKED))), `${" ".repeat(columns(text.subarray(start, at)))}^`
  ];
}

// The line of a screen that has a byte.
export const lineAt = (at) => Math.floor(Math.min(at, LAST) / COLUMNS);

// Where a fault happened: the line, with a mark below byte AT of what was interpreted. line: the line of a text that
// this is, or none.
export function placeLines({ block, text }, line, at, hasColumn = true) {
  if (line) {
    const column = columns(text.subarray(0, at)) + 1;
    const where = !hasColumn
      ? ""
      : line.name ? `:${column}`
      : line.text.length > WIDEST_MARKED ? `, column ${column}`
      : "";
    return [named(line) + where, ...marked(line.text, at)];
  }
  if (!block) return [];
  const number = lineAt(at), from = COLUMNS * number;
  return [`screen ${block} line ${number}`, ...marked(text.subarray(from, from + COLUMNS), at - from)];
}

// A line's file and number; a typed one has none.
export const named = ({ name, number }) => (name ? `${name}:${number}` : "line typed");
