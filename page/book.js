// A film that was made, as the film's page has it.

import { toBase64 } from "./bytes.js";
import { DATA } from "./data.js";
import { placeOf } from "./services.js";
import { definitionOf, placesIn } from "./source.js";

export const MADE =
  "The line ran on a copy of the Forth and of its disk. Each step was read from the machine before the machine did " +
  "it. What the Forth shows before and after the words isn't in the film.";

// The change of a stack: how many cells stay at the bottom, and the cells above them.
function changes(before, after) {
  let same = 0;
  while (same < before.length && same < after.length && before[same] === after[same]) same++;
  return [same, ...after.slice(same)];
}

// Its words with their threads, its steps, and what your variables and arrays held.
export class Book {
  constructor(film, session) {
    Object.assign(this, { film, session, words: [], places: [], numbers: new Map(), at: new Map() });
    this.manual = new Map(DATA.manual.map((row) => [row[0], row]));
    const { steps, frames } = film.calls;
    for (const { owner, ip } of [...frames, ...steps]) if (owner && ip !== -1) this.add(owner);
    this.findSources();
    for (const one of steps) if (one.ip >= 0) this.place(one);
  }

  // A word, with the places of its thread.
  add(word) {
    if (this.numbers.has(word)) return;
    const number = this.words.length;
    this.numbers.set(word, number);
    this.words.push({ name: word.name, source: "", from: "" });
    word.tokens = this.film.thread(word);
    for (const token of word.tokens) this.addPlace(number, token);
  }

  addPlace(number, token) {
    this.at.set(`${number} ${token.at}`, this.places.length);
    this.places.push([token.at, number < 0 ? null : number, token.name, token.taken, token.word]);
  }

  // The number of a step's place. One that isn't in a word's thread as it is now has a place of its own.
  place({ ip, owner, token }) {
    const number = owner ? this.numbers.get(owner) : -1, key = `${number} ${ip}`;
    const isSame = this.at.has(key) && this.places[this.at.get(key)][2] === token.name;
    if (!isSame && !this.at.has(`-1 ${ip} ${token.name}`)) {
      this.addPlace(-1, token);
      this.at.set(`-1 ${ip} ${token.name}`, this.places.length - 1);
    }
    return this.at.get(isSame ? key : `-1 ${ip} ${token.name}`);
  }

  // The sources of the words: of yours from their screens, or from the lines that were typed; of others, and of those
  // whose source has changed since, what SEE shows.
  findSources() {
    const all = [...this.numbers];
    const others = all.filter(
      ([word, number]) => word.word < this.film.fence ||
        !this.isSource(word, number, this.textOf(word), placeOf(this.session, word)));
    const seen = this.film.seen(others.map(([word]) => word.name));
    for (const [word, number] of others) this.isSource(word, number, seen.get(word.name), "SEE");
  }

  textOf({ view }) {
    return view ? this.session.sourceFrom(view) : [...this.session.view.history, this.film.line].join("\n");
  }

  // Whether a text has the definition of a word from which its thread was compiled; then that is the word's source.
  isSource(word, number, text, from) {
    const found = definitionOf(text, word.name), isPlain = (name) => (this.plain ||= this.plainNames()).has(name);
    if (!found || !placesIn(found, word.tokens, word.name, isPlain)) return false;
    Object.assign(this.words[number], { source: found.text, from });
    return true;
  }

  plainNames() {
    return new Set(this.film.words.filter((one) => !one.isImmediate).map((one) => one.name.toUpperCase()));
  }

  // The stack effect of a token's word, and what it does.
  sayOf(word) {
    if (!word) return ["", ""];
    const row = word.word < this.film.fence && this.manual.get(word.name);
    if (row)
      return [
        row[1], row[3].replace(/<[^>]*>/g, "").replace(/&lt;/g, "<").replace(/&gt;/g, ">").replace(/&amp;/g, "&")
      ];
    const kind = this.film.machine.cell(word.word), { variable, constant, colon } = DATA.rows;
    if (kind === variable) return ["( -- a )", "Puts the address of its data on the stack."];
    if (kind === constant) return ["( -- n )", "Puts its number on the stack."];
    const maker = kind >= 256 ? this.film.owner(kind) : null;
    if (maker)
      return [
        comment(this.sourceOf(maker), "DOES>"),
        `Made by ${maker.name}: runs its words after DOES>, with the address of its data on the stack.`
      ];
    return [kind === colon ? comment(this.sourceOf(word), "") : "", ""];
  }

  sourceOf(word) {
    const found = this.numbers.has(word)
      ? { text: this.words[this.numbers.get(word)].source }
      : definitionOf(this.textOf(word), word.name);
    return found ? found.text : "";
  }

  // How a call of the line ended, in a sentence, and the place where a fault came.
  ending({ root, how }) {
    const { film } = this, { steps, frames } = film.calls, name = frames[root].made || frames[root].owner?.name || "?";
    if (how === "faulted") return this.faulted(root, name);
    if (how === "returned") return [root, `${name} is done.`, -1];
    if (how === "left") return [root, `${name} was left: the return stack was emptied.`, -1];
    return [
      root,
      steps.length && film.isCut
        ? `The film was cut at its limit, within ${name}.`
        : `The film ends here, within ${name}: ${film.asks}.`,
      -1
    ];
  }

  faulted(root, name) {
    const { steps } = this.film.calls, end = steps.findIndex((one) => one.frame === root && one.ip < 0);
    const before = steps.slice(0, end);
    const own = before.filter((one) => one.frame === root).pop(), inner = before[end - 1], number = steps[end].data[0];
    const text = inner.row === DATA.rows.texts[1] ? `"${inner.token.taken}` : DATA.faults[number] || "a fault";
    const within = own === inner ? "" : `, within it at ${inner.token.name}`;
    return [
      root,
      `${text} (fault ${number}) at ${own.token.name}${within}. It ended ${name}: both stacks were emptied, ` +
        "and the fault's number was pushed.",
      this.place(own)
    ];
  }

  // The film's steps: of each its place, its call, what changed on both stacks, how many bytes were shown, and its
  // loops.
  steps(loops) {
    let data = [], returns = [];
    return this.film.calls.steps.map((one) => {
      const row = [
        one.ip < 0 ? -1 : this.place(one), one.frame, changes(data, one.data), changes(returns, one.returns),
        one.shown, loops.at(one.ip < 0 ? -1 : one.row, one.returns.length)
      ];
      [data, returns] = [one.data, one.returns];
      return row;
    });
  }

  frames() {
    const { frames } = this.film.calls, { fence } = this.film;
    return frames.map(
      ({ parent, begins, base, back, made, owner, line }) =>
        [parent, owner ? this.numbers.get(owner) : -1, base, Number(parent < 0 || begins >= fence), back, made, line]);
  }

  data() {
    const { film } = this, { steps, ends, frames } = film.calls, loops = new Loops(), made = this.steps(loops);
    const last = steps[steps.length - 1].shown;
    const said = new Map();
    const number = (word) => {
      const row = this.sayOf(word), key = row.join("\n");
      if (!said.has(key)) said.set(key, [said.size, row]);
      return said.get(key)[0];
    };
    const places = this.places.map(([at, owner, name, taken, word]) => [at, owner, name, taken, number(word)]);
    const memory = film.followed.filter((one) => one.isTouched && one.bytes).map((one) => ({
      name: one.word.name,
      address: one.word.word + 2,
      bytes: [...one.first],
      is_bytes: one.isBytes,
      changes: one.changes
    }));
    return {
      name: frames[0].made || (frames[0].owner ? frames[0].owner.name : "?"),
      words: this.words,
      places,
      says: [...said.values()].map(([, row]) => row),
      frames: this.frames(),
      steps: made,
      output: toBase64(film.output.subarray(0, last)),
      loops: loops.all,
      begins: steps[0].shown,
      base: film.base,
      memory,
      ends: ends.map((one) => this.ending(one)),
      is_cut: Boolean(film.isCut),
      lines: film.lines
    };
  }
}

// The first comment of a text, from a word on.
function comment(text, after) {
  const from = text.indexOf(after), at = from < 0 ? -1 : text.indexOf("( ", from);
  return at < 0 ? "" : text.slice(at, text.indexOf(")", at) + 1);
}

// The depths in the return stack at which counted loops keep their three cells.
class Loops {
  constructor() { Object.assign(this, { open: [], all: [[]], loopDepth: null }); }

  // The number of the depths before a step of this row, when the return stack has this depth.
  at(row, depth) {
    if (this.loopDepth !== null && depth >= this.loopDepth + 3) this.open = [...this.open, this.loopDepth];
    while (this.open.length && depth < this.open[this.open.length - 1] + 3) this.open = this.open.slice(0, -1);
    this.loopDepth = row === DATA.rows.do ? depth : null;
    const found = this.all.findIndex((one) => String(one) === String(this.open));
    return found < 0 ? this.all.push(this.open) - 1 : found;
  }
}
