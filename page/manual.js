// The manual: the words with their stack effects and what they do, to be searched; a click puts a word into the line.

import { escapeHtml } from "./bytes.js";
import { DATA } from "./data.js";

// What people look for, and the words for it.
const MEANINGS = {
  print: ". .\" TYPE EMIT CR U. .R",
  show: ". .\" TYPE .S LIST",
  display: ". .\" TYPE",
  write: ". .\" TYPE EMIT PUT",
  output: ". .\" TYPE EMIT CR",
  newline: "CR",
  space: "SPACE SPACES BL",
  read: "KEY EXPECT @ BLOCK",
  input: "KEY EXPECT",
  ask: "KEY EXPECT",
  loop: "DO LOOP BEGIN UNTIL WHILE REPEAT AGAIN",
  for: "DO LOOP I",
  repeat: "DO LOOP BEGIN UNTIL",
  times: "DO LOOP *",
  else: "ELSE",
  then: "THEN",
  choose: "IF ELSE THEN CASE",
  switch: "CASE OF ENDOF ENDCASE",
  copy: "DUP OVER PICK CMOVE",
  duplicate: "DUP 2DUP",
  exchange: "SWAP",
  remove: "DROP FORGET",
  delete: "DROP FORGET",
  forget: "FORGET",
  define: ": ; CREATE CONSTANT VARIABLE",
  function: ": ;",
  word: ": ; WORDS SEE",
  variable: "VARIABLE ! @ +!",
  store: "! C! +!",
  fetch: "@ C@",
  array: "CREATE ALLOT ,",
  memory: "@ ! ALLOT HERE DUMP",
  add: "+ 1+ +!",
  plus: "+",
  subtract: "- 1-",
  minus: "- NEGATE",
  multiply: "* */",
  divide: "/ /MOD */",
  remainder: "MOD /MOD",
  modulo: "MOD /MOD",
  power: "*",
  half: "2/",
  double: "2* D+ D.",
  negative: "NEGATE ABS 0<",
  compare: "= < > 0= U<",
  equal: "= 0=",
  less: "<",
  greater: ">",
  not: "NOT 0=",
  and: "AND",
  or: "OR",
  text: ".\" TYPE COUNT WORD",
  string: ".\" TYPE COUNT WORD",
  character: "EMIT KEY C@ C! ASCII",
  letter: "EMIT KEY",
  number: ". CONVERT NUMBER",
  hex: "HEX BASE",
  binary: "BASE",
  decimal: "DECIMAL BASE",
  stack: ".S DEPTH DUP DROP SWAP",
  stop: "EXIT LEAVE QUIT ABORT",
  exit: "EXIT LEAVE BYE",
  quit: "QUIT BYE",
  end: "; BYE EXIT",
  error: "ABORT\"",
  screen: "LIST LOAD EDIT PUT",
  file: "BLOCK LOAD SAVE-BUFFERS",
  save: "SAVE-BUFFERS FLUSH UPDATE",
  load: "LOAD THRU",
  edit: "EDIT PUT",
  list: "LIST WORDS",
  wait: "MS KEY",
  time: "MS",
  clear: "SCLEAR DROP PAGE",
  help: "HELP SEE WORDS",
  constant: "CONSTANT",
  comment: "( \\"
};
const MOST_NEAR = 4;

const meant = Object.fromEntries(Object.entries(MEANINGS).map(([word, names]) => [word, new Set(names.split(" "))]));
const plainOf = (html) =>
  html.replace(/<[^>]*>/g, "").replace(/&lt;/g, "<").replace(/&gt;/g, ">").replace(/&amp;/g, "&");

// How many letters differ between two words: those that must be changed, added or dropped.
function distance(one, other) {
  let row = Array.from({ length: other.length + 1 }, (_, at) => at);
  for (const [line, letter] of [...one].entries()) {
    const next = [line + 1];
    for (let at = 0; at < other.length; at++)
      next.push(Math.min(next[at] + 1, row[at + 1] + 1, row[at] + (letter === other[at] ? 0 : 1)));
    row = next;
  }
  return row[other.length];
}

// How well an entry fits a word that is sought, 0 for not at all.
function closeness([name, , section, says], sought) {
  const word = sought.toUpperCase(), words = `${section} ${plainOf(says)}`.toUpperCase().split(/[^A-Z0-9]+/);
  if (name === word) return 16;
  const by = meant[sought.toLowerCase()];
  if (by && by.has(name)) return 8;
  if (name.startsWith(word)) return 4;
  if (word.length > 1 && name.includes(word)) return 2;
  return word.length > 1 && words.some((one) => one.startsWith(word)) ? 1 : 0;
}

export class Manual {
  constructor(parts, take) {
    this.parts = parts;
    parts.sought.addEventListener("input", () => this.list());
    parts.table.addEventListener("click", (event) => event.target.dataset.word && take(event.target.dataset.word));
    this.list();
  }

  // Shows what a word is.
  explain(name) {
    this.parts.sought.value = name;
    this.list();
  }

  // Words that may have been meant by one that nobody knows: those for its meaning, and those that are written nearly
  // so.
  near(word, known) {
    const upper = word.toUpperCase(), names = [...new Set([...DATA.manual.map((one) => one[0]), ...known])];
    const most = upper.length > 4 ? 2 : 1;
    const by = meant[word.toLowerCase()], meaning = by ? [...by].filter((name) => names.includes(name)) : [];
    const written = names.filter(
      (name) => name.length > 1 && Math.abs(name.length - upper.length) <= most &&
        distance(name.toUpperCase(), upper) <= most);
    return [...new Set([...meaning, ...written.sort((a, b) => distance(a, upper) - distance(b, upper))])].slice(
      0, MOST_NEAR);
  }

  // The words that fit all that is sought, or else some of it, those first that fit best.
  list() {
    const sought = this.parts.sought.value.trim().split(/\s+/).filter((one) => one), rows = [];
    const ranked = DATA.manual.map((entry) => ({ entry, fit: sought.map((word) => closeness(entry, word)) }))
      .map(({ entry, fit }) => ({
        entry,
        count: fit.filter((one) => one).length,
        sum: fit.reduce((sum, one) => sum + one, 0)
      }));
    const most = Math.max(...ranked.map(({ count }) => count)), isFound = !sought.length || most > 0;
    const entries =
      ranked.filter(({ count }) => count === most && isFound).sort((a, b) => b.sum - a.sum).map(({ entry }) => entry);
    for (const [at, entry] of entries.entries()) {
      if (!sought.length && (at === 0 || entries[at - 1][2] !== entry[2]))
        rows.push(`<tr><th colspan="3">${escapeHtml(entry[2])}</th></tr>`);
      rows.push(this.row(entry));
    }
    this.parts.table.innerHTML = rows.join("") || "<tr><td>The manual has no such word.</td></tr>";
  }

  row([name, effect, , says]) {
    const button = `<button type="button" data-word="${escapeHtml(name)}">${escapeHtml(name)}</button>`;
    return `<tr><td>${button}</td><td><code>${escapeHtml(effect)}</code></td><td>${says}</td></tr>`;
  }
}

// The word at a place of a text, or an empty text.
export function wordAt(text, at) {
  const before = /\S*$/.exec(text.slice(0, at))[0], after = /^\S*/.exec(text.slice(at))[0];
  return before + after || (/(\S+)\s*$/.exec(text.slice(0, at)) || ["", ""])[1];
}
