// The machine: its record in the memory of the WebAssembly module, and what it is asked: the requests of
// docs/FORMATS.md (Frames), by the calls of include/forth83.h.

import { decode, encode } from "./bytes.js";
import { CODES } from "./cells.js";

export const ASKS = { NOTHING: 0, KEY: 1, LINE: 2, READ: 3, WRITE: 4 };
export const PAGE_SIZE = 1024, MEMORY = 65536, STACK = 256;
// How many blocks a machine has: those of its disk are answered, and lines of texts are the others.
const ALL_BLOCKS = 65536, ROOM = 131072, BODY = 2048, REPORT = 16384, SAID = 512, TEXT = 4096, SHORT_ROOM = 3;
const LONG_REPLY = 22, NOT_READ = 23, REFUSED = "!".charCodeAt(0), SHOWN = "s".charCodeAt(0);
// What is wrong with a text of screens, by the numbers of include/forth83.h; other numbers are that of a byte.
const TEXT_CAUSES = [
  "OutOfMemory", "BadEscape", "LongLine", "FullScreen", "BadHeading", "LateHeading", "NamedTwice", "NoScreen"
];
const BAD_BYTE = "BadByte";
// A request that was refused, and why.
export class Refused extends Error {
  constructor(cause) { super(`cause ${cause} of docs/FORMATS.md`).cause = cause; }
}

export const cellsOf = (bytes) => Array.from(
  {length: bytes.length >> 1}, (_, at) => bytes[2 * at] + 256 * bytes[2 * at + 1]);
// Whether a word has a thread: `:` or DOES> made it.
export const hasThread = ({ code }) => code === CODES.colon || code > 255;
export const cellBytes = (...cells) => Uint8Array.from(cells.flatMap((cell) => [cell & 255, (cell >> 8) & 255]));

// A record as the calls want it. Pages of versions 1.0.0 and 2.0.0 kept records of layouts 1 and 2, which end soon
// after memory; later ones also of layout 3 without the place of the last fault.
export function inLayout3(record, { size, abi, memory }) {
  const end = memory + MEMORY, sizes = { 1: end + 2, 2: end + 18, 3: size - 4 };
  const isOld = record.length >= end &&
    record.length === sizes[new DataView(record.buffer, record.byteOffset).getUint32(abi, true)];
  if (!isOld) return record;
  const made = new Uint8Array(size);
  made.set(record.subarray(0, end));
  new DataView(made.buffer).setUint32(abi, 3, true);
  return made;
}

export class Machine {
  // calls: what the module exports. layout: where the fields of its records are.
  constructor(calls, layout) {
    Object.assign(this, { calls, layout });
    [this.record, this.body, this.size, this.dialect] = [layout.size, BODY, 8, 2].map((size) => calls.malloc(size));
    this.bytes(this.record, layout.size).fill(0);
    this.makeRoom(ROOM);
  }

  makeRoom(size) {
    if (this.reply) this.calls.free(this.reply);
    Object.assign(this, { reply: this.calls.malloc(size), room: size });
  }

  // Memory may grow with each call, and then needs new views.
  bytes(at, size) { return new Uint8Array(this.calls.memory.buffer, at, size); }
  view() { return new DataView(this.calls.memory.buffer); }

  must(status, what) {
    if (status !== 0) throw new Error(`${what}: status ${status}`);
  }

  load(image) {
    const at = this.calls.malloc(image.length);
    this.bytes(at, image.length).set(image);
    this.must(this.calls.forth83_load_3(at, BigInt(image.length), ALL_BLOCKS, this.record), "load");
    this.calls.free(at);
  }

  // Obeys a request: what is shown, and the bytes of the reply. Refused if it is refused.
  ask(kind, body = new Uint8Array(0)) {
    this.bytes(this.body, body.length).set(body);
    const words = [
      this.record, kind.charCodeAt(0), this.body, BigInt(body.length), this.reply, BigInt(this.room), this.size
    ];
    const status = this.calls.forth83_serve(...words), size = Number(this.view().getBigUint64(this.size, true));
    if (status === LONG_REPLY) {
      this.makeRoom(size);
      return this.ask(kind, body);
    }
    this.must(status, kind);
    return this.replied(this.bytes(this.reply, size).slice());
  }

  // The frames of a reply.
  replied(bytes) {
    const shown = [], pieces = [];
    for (let at = 0; at < bytes.length; ) {
      const kind = bytes[at], end = at + 3 + bytes[at + 1] + 256 * bytes[at + 2];
      if (kind === REFUSED) throw new Refused(bytes[at + 3]);
      (kind === SHOWN ? shown : pieces).push(bytes.subarray(at + 3, end));
      at = end;
    }
    return { shown: wholeOf(shown), bytes: wholeOf(pieces) };
  }

  // A request after which the machine may do something else: what is shown, the ticks that were done, and what it does
  // now, as a letter with a number.
  move(kind, body) {
    const { shown, bytes } = this.ask(kind, body), view = new DataView(bytes.buffer, bytes.byteOffset);
    return {
      shown,
      ticks: view.getUint32(0, true),
      how: String.fromCharCode(bytes[4]),
      number: view.getUint16(5, true)
    };
  }

  run(ticks) { return this.move("r", cellBytes(ticks, ticks >>> 16)); }
  enter(word) { return this.move("n", cellBytes(word)); }

  // What the machine knows of a word. Refused if there is no such word.
  token(name) { return cellsOf(this.ask("y", encode(name)).bytes)[0]; }
  viewOf(name) { return cellsOf(this.ask("i", encode(name)).bytes)[0]; }
  see(name) { return decode(this.ask("z", encode(name)).bytes); }
  // Bytes as a call wants them: a copy in the module's memory, and how many there are.
  lent(bytes) {
    const at = this.calls.malloc(bytes.length);
    this.bytes(at, bytes.length).set(bytes);
    return [at, BigInt(bytes.length)];
  }

  // The report on old screens, for this Forth, and the number of the dialect that is to be loaded before them: 0 for
  // none.
  survey(name, blocks, room = REPORT) {
    const named = this.lent(encode(name)), screens = this.lent(blocks), text = this.calls.malloc(room);
    const status = this.calls.forth83_survey(
      this.record, ...named, ...screens, text, BigInt(room), this.size, this.dialect);
    const size = status ? 0 : Number(this.view().getBigUint64(this.size, true));
    const report = decode(this.bytes(text, size));
    for (const at of [named[0], screens[0], text]) this.calls.free(at);
    if (status === SHORT_ROOM) return this.survey(name, blocks, 4 * room);
    this.must(status, "survey");
    return { report, dialect: this.view().getUint16(this.dialect, true) };
  }

  // A screen as text.
  text(number, page) {
    const bytes = this.lent(page), text = this.calls.malloc(TEXT);
    this.must(this.calls.forth83_text(number, ...bytes, text, BigInt(TEXT), this.size), "text");
    const made = decode(this.bytes(text, this.sized()));
    for (const at of [bytes[0], text]) this.calls.free(at);
    return made;
  }

  // The screens of a text, { block, page }; or { line, cause, byte }, what is wrong with it and where.
  screens(text, most = 2 + (text.filter((byte) => byte === 10).length >> 4)) {
    const bytes = this.lent(text), sizes = [2 * most, PAGE_SIZE * most, 8, 2];
    const [numbers, pages, line, cause] = sizes.map((size) => this.calls.malloc(size));
    const status = this.calls.forth83_screens(
      ...bytes, numbers, BigInt(most), pages, BigInt(PAGE_SIZE * most), this.size, line, cause);
    const count = status ? 0 : this.sized(), blocks = cellsOf(this.bytes(numbers, 2 * count));
    const read = blocks.map((block, at) => ({ block, page: this.bytes(pages + PAGE_SIZE * at, PAGE_SIZE).slice() }));
    const number = this.view().getUint16(cause, true);
    const wrong = { line: this.sized(line), cause: TEXT_CAUSES[number] || BAD_BYTE, byte: number & 255 };
    for (const at of [bytes[0], numbers, pages, line, cause]) this.calls.free(at);
    if (status === SHORT_ROOM) return this.screens(text, 4 * most);
    if (status !== NOT_READ) this.must(status, "screens");
    return status ? wrong : read;
  }

  // The name of the format that a file of another system may have.
  guess(container) {
    const bytes = this.lent(container), said = this.calls.malloc(SAID);
    const status = this.calls.forth83_guess_format(...bytes, said, BigInt(SAID), this.size);
    const name = decode(this.bytes(said, this.sized()));
    for (const at of [bytes[0], said]) this.calls.free(at);
    this.must(status, "guess_format");
    return name;
  }

  // The blocks of a file of another system, by options as on a command line: their bytes, the number of the first one
  // and what is said of them, or { wrong } with why it is not read.
  unpack(container, options, room = 2 * container.length + PAGE_SIZE) {
    const words = this.lent(encode(options)), bytes = this.lent(container);
    const [blocks, said, count, first] = [room, SAID, 8, 2].map((size) => this.calls.malloc(size));
    this.view().setBigUint64(count, 0n, true);
    const status = this.calls.forth83_unpack(
      ...words, ...bytes, blocks, BigInt(room), this.size, first, said, BigInt(SAID), count);
    const size = this.sized(), text = decode(this.bytes(said, this.sized(count)));
    const made = {
      bytes: status ? null : this.bytes(blocks, size).slice(),
      first: this.view().getUint16(first, true),
      said: text
    };
    for (const at of [words[0], bytes[0], blocks, said, count, first]) this.calls.free(at);
    if (status === SHORT_ROOM) return this.unpack(container, options, size);
    if (status === NOT_READ) return { wrong: text };
    this.must(status, "unpack");
    return made;
  }

  // What is said of a case, of lines with a name and the rest: docs/FORMATS.md describes them.
  advise(lines) {
    const text = encode(lines.map(([name, rest]) => `${name} ${rest}`.replaceAll("\n", " ")).join("\n"));
    const room = 2 * text.length + TEXT;
    const given = this.lent(text), reply = this.calls.malloc(room);
    const status = this.calls.forth83_advise(...given, reply, BigInt(room), this.size);
    const said = status ? "" : decode(this.bytes(reply, this.sized()));
    for (const at of [given[0], reply]) this.calls.free(at);
    this.must(status, "advise");
    return said;
  }

  // What the lessons of a course come to, one after the other, by what a pupil wrote: of each its number, screen and
  // title, the mark, the word that it is about and the text. FILES are an image that has loaded the course's checkers,
  // what is said of faults, and the blocks of the course and of the pupil.
  *judge(files, ticks) {
    const lent = files.map((bytes) => this.lent(bytes)), progress = this.calls.malloc(4);
    let room = SAID, place = this.calls.malloc(room);
    this.view().setUint32(progress, 0, true);
    try {
      for (;;) {
        const status = this.calls.forth83_judge(
          ...lent.flat(), BigInt(ticks), progress, progress + 2, place, BigInt(room), this.size);
        const size = this.sized();
        if (status === SHORT_ROOM) {
          this.calls.free(place);
          [room, place] = [size, this.calls.malloc(size)];
          continue;
        }
        this.must(status, "judge");
        if (!size) return;
        const [number, screen, title, mark, word, text] = decode(this.bytes(place, size - 1)).split("\t");
        yield { number: Number(number), screen: Number(screen), title, mark, word, text };
      }
    } finally {
      for (const at of [...lent.map(([begins]) => begins), progress, place]) this.calls.free(at);
    }
  }

  // A size that a call has put into its place.
  sized(at = this.size) { return Number(this.view().getBigUint64(at, true)); }

  // An image of memory up to HERE that starts with a word.
  image(word) { return this.ask("t", cellBytes(word)).bytes; }

  // The whole machine, to be restored or kept. A record that isn't a machine's is refused by the next call.
  copy() { return this.bytes(this.record, this.layout.size).slice(); }
  restore(copy) { this.bytes(this.record, this.layout.size).set(copy); }

  field(name) { return this.view().getUint16(this.record + this.layout[name], true); }
  get asks() { return this.field("asks"); }
  get halted() { return this.field("halts") !== 0; }
  // A record that an older page kept may have fewer blocks.
  haveAllBlocks() { this.view().setUint32(this.record + this.layout.block_count, ALL_BLOCKS, true); }

  get memory() { return this.bytes(this.record + this.layout.memory, MEMORY); }
  byte(at) { return this.memory[at & 0xffff]; }
  cell(at) {
    const memory = this.memory;
    return memory[at & 0xffff] + 256 * memory[(at + 1) & 0xffff];
  }
  setCell(at, x) {
    const memory = this.memory;
    memory[at & 0xffff] = x & 255;
    memory[(at + 1) & 0xffff] = x >> 8;
  }

  // A stack of the record, the top last.
  stack(array, top) {
    const view = this.view(), cells = [];
    for (let i = STACK - 1; i >= this.field(top); i--)
      cells.push(view.getUint16(this.record + this.layout[array] + 2 * i, true));
    return cells;
  }

  // While a line is asked for, EXPECT's two cells are on top of what the lines before left.
  get values() {
    const cells = this.stack("values", "values_top");
    return this.asks === ASKS.LINE ? cells.slice(0, -2) : cells;
  }
  get depth() { return STACK - this.field("returns_top"); }
  get returns() { return this.stack("returns", "returns_top"); }

  // The block buffers: of each its bytes in memory, the number of its block (null for none), and whether that was
  // changed.
  get buffers() {
    const view = this.view(), count = this.field("buffer_count");
    const { size, has_block, block, updated } = this.layout.buffer, found = [];
    for (let i = 0; i < count; i++) {
      const at = this.record + this.layout.buffers + size * i, read = (place) => view.getUint16(at + place, true);
      const slot = read(0);
      const place = MEMORY - PAGE_SIZE * (count - slot);
      found.push({ at, slot, place, block: read(has_block) ? read(block) : null, updated: read(updated) === 1,
        bytes: this.bytes(this.record + this.layout.memory + place, PAGE_SIZE) });
    }
    return found;
  }

  // Makes a buffer forget its block, or only that it was changed.
  release(buffer) {
    const view = this.view(), { has_block, block, updated } = this.layout.buffer;
    for (const part of [has_block, block, updated]) view.setUint16(buffer.at + part, 0, true);
  }
  settle(buffer) { this.view().setUint16(buffer.at + this.layout.buffer.updated, 0, true); }

  // All words, in the order of their addresses: of each its header, name, compilation address, code field and view
  // cell. None if a chain is broken.
  words() {
    let bytes;
    try {
      ({ bytes } = this.ask("a"));
    } catch (error) {
      if (error instanceof Refused) return [];
      throw error;
    }
    const found = [];
    for (let at = 0; at < bytes.length; ) {
      const [word, view, code] = cellsOf(bytes.subarray(at, at + 6)), size = bytes[at + 6] & 31;
      const name = decode(bytes.subarray(at + 7, at + 7 + size));
      found.push({
        header: word - 3 - size,
        name,
        word,
        view,
        code,
        isImmediate: (bytes[at + 6] & 64) !== 0,
        isHidden: (bytes[at + 6] & 32) !== 0
      });
      at += 7 + size;
    }
    return found;
  }
}

function wholeOf(pieces) {
  const all = new Uint8Array(pieces.reduce((sum, piece) => sum + piece.length, 0));
  pieces.reduce((at, piece) => (all.set(piece, at), at + piece.length), 0);
  return all;
}
