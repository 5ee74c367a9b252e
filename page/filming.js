// A film while it is made: lines are typed at a copy of the machine and of the disk, one tick after the other, and
// each step of your words, or of one word, and of what they call, is read from the machine before it is done.

import { decode, encode, signed } from "./bytes.js";
import { Calls, TABLE_ROWS, effectOf } from "./calls.js";
import { COLUMNS, Disk, linesOf } from "./disk.js";
import { named } from "./faults.js";
import { Host } from "./host.js";
import { SYSTEM } from "./cells.js";
import { ASKS } from "./machine.js";

const MOST_TICKS = 400000, MOST_STEPS = 20000, MOST_OUTPUT = 1 << 20, MOST_BYTES = 4096, LONGEST_FILMED = 1024;
const WORKS_FOR = 30, RETURN = 10;

export class Filming {
  // record: the machine before the lines. name: the word whose calls are filmed, or none for all of your words; ticks
  // and steps: the most.
  constructor(machine, session, line, record, { name = "", ticks = MOST_TICKS, steps = MOST_STEPS } = {}) {
    Object.assign(this, {
      machine,
      line,
      most: { ticks, steps },
      typed: encode(`${line}\n`),
      entered: "",
      ticks: 0,
      pieces: [],
      shown: 0,
      why: "",
      words: [],
      followed: [],
      lines: []
    });
    this.host = new Host(machine, this, new Disk(session.disk.name, session.disk.bytes.slice()));
    Object.assign(this.host, { places: session.places, texts: session.texts });
    machine.restore(record);
    this.fence = machine.cell(SYSTEM.fence);
    this.subject = name
      ? [name, name.toUpperCase()].map((one) => this.host.tokenOf(one)).find((one) => one !== null)
      : null;
    this.calls = new Calls();
    this.learn();
  }

  // Makes all of it. From time to time the page draws, and `report` is called.
  async make(report) {
    for (let began = performance.now(); this.goesOn(); ) {
      if (this.ticks % 100 !== 0 || performance.now() - began < WORKS_FOR) continue;
      report();
      await new Promise((resolve) => setTimeout(resolve));
      began = performance.now();
    }
    this.calls.finish();
    this.learn();
  }

  // Types what the machine asks for, a byte or a line or a part of one; whether there was any left.
  types(asked) {
    const { host, machine, typed } = this;
    if (!typed.length || asked === "h" || (asked === "k" && host.service)) return false;
    const isKey = asked === "k", end = typed.indexOf(RETURN);
    const most = isKey ? 1 : host.isPrompt ? Infinity : machine.field("asked");
    const isWhole = !isKey && end < most, bytes = typed.slice(0, isWhole ? end : most);
    this.typed = typed.subarray(isWhole ? end + 1 : most);
    if (isKey) host.give("k", bytes);
    else this.enter(bytes, isWhole);
    return true;
  }

  enter(bytes, isWhole) {
    const { host } = this;
    this.entered = decode(bytes);
    if (host.isPrompt) host.begin(bytes.subarray(0, LONGEST_FILMED));
    else host.answer(bytes, isWhole);
  }

  // All that was shown.
  get output() {
    const output = new Uint8Array(this.shown);
    this.pieces.reduce((at, piece) => (output.set(piece, at), at + piece.length), 0);
    return output;
  }

  show(bytes) {
    this.pieces.push(bytes);
    this.shown += bytes.length;
  }
  say(text) { this.show(encode(text)); }
  fault(text) { this.say(text); }
  isAtLineStart() {
    const last = this.pieces.filter((one) => one.length).pop();
    return !last || last[last.length - 1] === 10;
  }
  edit() {}
  retype() {}

  // The words, also those that the line has made by now. Variables and arrays of yours are followed.
  learn() {
    const { machine, fence } = this, known = new Map(this.words.map((one) => [`${one.word} ${one.name}`, one]));
    this.words = machine.words().map((one) => known.get(`${one.word} ${one.name}`) || one);
    this.names = new Map(this.words.map((one) => [one.word, one]));
    this.here = machine.cell(SYSTEM.dp);
    this.last = machine.cell(SYSTEM.last);
    this.words.forEach((one, at) => {
      one.end = at + 1 < this.words.length ? this.words[at + 1].header - 2 : this.here;
    });
    const isFollowed = (one) => one.word >= fence && machine.cell(one.word) === TABLE_ROWS.variable &&
      !this.followed.some(({ word }) => word === one);
    this.followed.push(...this.words.filter(isFollowed)
      .map((word) => ({ word, bytes: null, changes: [], isTouched: false, isBytes: false })));
  }

  // The word in whose bytes an address is: the last that begins before it.
  owner(address) {
    let low = 0, high = this.words.length;
    while (low < high) {
      const middle = (low + high) >> 1;
      if (this.words[middle].word < address) low = middle + 1;
      else high = middle;
    }
    const end = low === this.words.length ? this.machine.cell(SYSTEM.dp) : low && this.words[low - 1].end;
    return address < end ? this.words[low - 1] : null;
  }

  // Does a tick; whether there is more.
  goesOn() {
    const { machine } = this;
    if (machine.asks === ASKS.NOTHING && !machine.field("has_pending")) this.look(machine.field("ip"));
    const next = this.host.act(1);
    this.ticks++;
    if (next !== "-") return this.types(next) || this.ends(next);
    if (this.calls.steps.length < this.most.steps && this.ticks < this.most.ticks && this.shown < MOST_OUTPUT)
      return true;
    this.why = "; the line takes longer, and the film ends there";
    this.isCut = true;
    return false;
  }

  ends(next) {
    this.asks = { k: "it asks for a key", l: "it asks for a line", h: "the machine has halted" }[next];
    if (next === "k") this.why = "; the film ends where the program asks for a key";
    return false;
  }

  // Notes a step. Of steps outside your calls, only what they do to the calls is kept.
  look(ip) {
    const { machine, calls } = this, here = machine.cell(SYSTEM.dp);
    if (machine.cell(SYSTEM.last) !== this.last || here < this.here) this.learn();
    const codeField = this.executed(ip), effect = effectOf(machine, codeField);
    if (calls.open.length || (calls.begins(ip) && this.isWanted(ip, here))) this.take(ip, codeField, here);
    calls.last = effect;
  }

  // Whether a call that begins here is filmed: one of the word that is wanted, or of a word that it made; or else one
  // of your words.
  isWanted(ip, here) {
    const { subject, fence, calls } = this;
    if (subject === null) return ip >= fence && ip < here;
    return calls.last.codeField === subject || this.owner(ip)?.word === subject;
  }

  // The word that a step executes: its token's word or, for EXECUTE, the one on the stack.
  executed(ip) {
    const { machine } = this;
    let codeField = machine.cell(ip);
    for (let values = null; machine.cell(codeField) === TABLE_ROWS.execute; ) {
      values ||= machine.values;
      if (!values.length) break;
      codeField = values.pop();
    }
    return codeField;
  }

  take(ip, codeField, here) {
    const { machine, calls } = this, data = machine.values.map(signed), owner = this.owner(ip);
    const number = calls.steps.length;
    this.here = here;
    this.base ??= machine.cell(SYSTEM.base);
    const step = {
      ip,
      owner,
      data,
      returns: machine.returns,
      shown: this.shown,
      row: machine.cell(machine.cell(ip)),
      token: this.tokenAt(ip)
    };
    calls.take(step, (frame) => this.noteCall(frame));
    if (calls.steps.length > number) this.follow(codeField, data[data.length - 1] & 0xffff);
  }

  // A call begins: what its word is, and for a call of the line the word that is interpreted, and where.
  noteCall(frame) {
    const made = this.machine.cell(frame.codeField) >= 256 ? this.names.get(frame.codeField) : null;
    const back = this.owner(frame.back);
    Object.assign(
      frame, { owner: this.owner(frame.begins), made: made ? made.name : "", back: back ? back.name : "?" });
    if (frame.parent >= 0) return;
    frame.line = this.lines.length;
    this.lines.push(this.interpreted());
  }

  // The word that is interpreted, and the line or the screen's line in which it is.
  interpreted() {
    const { machine, host } = this, blk = machine.cell(SYSTEM.blk), end = machine.cell(SYSTEM.toIn);
    const line = host.textLine(blk);
    const number = blk && !line ? Math.floor(Math.max(0, end - 1) / COLUMNS) : 0, to = end - COLUMNS * number;
    const text = line ? decode(line.text) : blk ? linesOf(host.page(blk))[number] || "" : this.entered;
    const word = /(\S+)\s*$/.exec(text.slice(0, to));
    const where = line && line.name ? `${named(line)}:` : blk && !line ? `screen ${blk} line ${number}:` : "typed:";
    return [where, text, word ? word.index : 0, word ? word.index + word[1].length : 0];
  }

  // What has changed in your variables and arrays since the step before, and which of them the step runs or takes a
  // byte of.
  follow(codeField, top) {
    const { machine } = this, number = this.calls.steps.length - 1, { memory } = machine;
    const isOfBytes = TABLE_ROWS.bytes.includes(machine.cell(codeField));
    for (const one of this.followed) {
      const from = one.word.word + 2, end = Math.min(one.word.end, from + MOST_BYTES), isIn = top >= from && top < end;
      if (one.word.word === codeField) one.isTouched = true;
      if (isOfBytes && isIn) one.isTouched = one.isBytes = true;
      if (!one.bytes || one.bytes.length < end - from)
        Object.assign(one, { bytes: memory.slice(from, end), first: memory.slice(from, end), changes: [] });
      for (let at = 0; at < one.bytes.length; at++) {
        if (one.bytes[at] === memory[from + at]) continue;
        one.isTouched = true;
        one.bytes[at] = memory[from + at];
        one.changes.push([number, at, one.bytes[at]]);
      }
    }
  }

  // A token of a thread: its word's name, the number, address or text after it, how long it is, and where a jump leads.
  tokenAt(at) {
    const { machine } = this, codeField = machine.cell(at), word = this.names.get(codeField);
    const row = word ? machine.cell(codeField) : -1;
    const next = machine.cell(at + 2);
    const one = { at, word, row, name: word ? word.name : String(codeField), taken: "", size: 2 };
    if (row === TABLE_ROWS.literal) return { ...one, taken: String(signed(next)), size: 4 };
    if (TABLE_ROWS.branches.includes(row)) return { ...one, taken: `to ${next}`, target: next, size: 4 };
    if (row === TABLE_ROWS.compile)
      return { ...one, taken: (this.names.get(next) || { name: String(next) }).name, size: 4 };
    if (!TABLE_ROWS.texts.includes(row)) return one;
    const size = machine.byte(at + 2), letters = Uint8Array.from({ length: size }, (_, i) => machine.byte(at + 3 + i));
    return { ...one, taken: `${decode(letters)}"`, size: 3 + size };
  }

  // The tokens of a colon word up to its last EXIT: the one that no branch jumps past.
  thread(word) {
    const tokens = [];
    for (let at = word.word + 2, farthest = 0; at < word.end; ) {
      const token = this.tokenAt(at);
      tokens.push(token);
      if (token.target > at && token.target < word.end) farthest = Math.max(farthest, token.target);
      at += token.size;
      if (token.row === TABLE_ROWS.exit && farthest < at) break;
    }
    return tokens;
  }

  // SEE's text of each word, or an empty one.
  seen(names) { return new Map(names.map((name) => [name, this.host.seeOf(name) ?? ""])); }
}
