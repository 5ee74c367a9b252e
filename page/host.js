// A host of a machine, as commands/served is one at a terminal: it runs it, answers what it asks, does what its words
// ask for, and reports its faults. Its words ask by a number in a cell, and KEY: the door.

import { decode, encode } from "./bytes.js";
import { Catching } from "./catching.js";
import { DATA } from "./data.js";
import { COLUMNS, linesOf } from "./disk.js";
import { FAULTS, lineAt, named, nextWord, placeLines, plain, trimmedEnd, faultWord } from "./faults.js";
import { SYSTEM } from "./cells.js";
import { ASKS, cellBytes, Machine, PAGE_SIZE, Refused } from "./machine.js";
import { OWN_SERVICES } from "./own.js";
import { MOVED, Refusal, SERVICES, visible, WAITS } from "./services.js";
import { FIRST_TEXT, Texts, Unreadable } from "./texts.js";

const HERE = "this line", QUOTE = 34, LINE_ROOM = 127, MOST_NOTED = 20000, MOST_LOADS = 16, PROMPT = 1;
export const DOOR = DATA.door;
// The words of the image that a host uses: the name of each among the places, and what is added to its compilation
// address.
const OWN = {
  BREAK: ["break", 0],
  COLD: ["cold", 0],
  TELL: ["handler", 2],
  DOOR: ["door", 2],
  "#LOADS": ["loads", 2],
  LOADERS: ["loaders", 2],
  "HIDDEN-TOOL": ["hidden", 2],
  DIALECT: ["dialect", 2],
  LIMIT: ["limit", 2],
  "'BOOT": ["boot", 2],
  CAPS: ["caps", 2],
  SHADOW: ["shadow", 2],
  SERVE: ["serve", 0]
};

function unlessRefused(asked) {
  try {
    return asked();
  } catch (error) {
    if (error instanceof Refused) return null;
    throw error;
  }
}

// Lines of a source, each a name and a text, as lines of a case.
const sourceOf = (lines) => lines.flatMap(([name, text]) => [["line", name], ["text", text]]);

export class Host {
  // view: show(bytes, isTyped), say(text), isAtLineStart(), fault(text, place), edit(block, place), retype(text).
  constructor(machine, view, disk) {
    Object.assign(
      this, {
        machine,
        view,
        places: {},
        texts: new Texts(),
        allTicks: 0,
        catching: new Catching(this),
        openLines: [],
        ...this.fresh()
      },
      disk && { disk });
  }

  // What belongs to the line that is being done.
  fresh() { return { log: [], ticks: 0, opened: [], refused: "", breaks: 0, isPolled: false, before: null }; }

  // Starts an image. places: those of its words, if they are known.
  load(image, places) {
    this.machine.load(image);
    this.places = places ? { ...places } : this.placesOf();
    Object.assign(this, this.fresh());
    this.greet();
  }

  // Lets the machine's words know that there is a host.
  greet() { if (!this.isForeign) this.machine.setCell(DOOR.mark, DOOR.host); }

  // The places of the image's own words, of the newest of each name, and where its words end. They are found before
  // anyone gives these names to other words.
  placesOf() {
    const words = this.machine.words(), names = new Map(words.map((one) => [one.word, one.name])), { own } = this;
    // An image that a page has saved has its words, and others of these names.
    if (own && Object.entries(OWN).every(([name, [place, offset]]) => names.get(own[place] - offset) === name))
      return { ...own };
    const found = new Map(words.map((one) => [one.name, one.word])), places = { fence: this.machine.cell(SYSTEM.dp) };
    const isServed = Object.keys(OWN).every((name) => found.has(name));
    for (const [name, [place, offset]] of Object.entries(OWN))
      if (isServed || (name === "BREAK" && found.has(name))) places[place] = found.get(name) + offset;
    return places;
  }

  // Whether an image runs that has no door.
  get isForeign() { return this.places.serve === undefined; }

  // What the machine's words ask for: a number of the table of services, or 0.
  get service() {
    const asked = !this.isForeign && this.machine.asks === ASKS.KEY ? this.machine.cell(DOOR.service) : 0;
    return (asked > PROMPT && asked <= DOOR.names.length) || asked >= DOOR.own ? asked : 0;
  }

  // Whether the Forth asks for a line, and not a program.
  get isPrompt() {
    const { machine, isForeign } = this;
    return !isForeign && machine.asks === ASKS.LINE && machine.field("asked") === LINE_ROOM &&
      machine.cell(DOOR.service) === PROMPT;
  }

  // One act: a run of so many ticks, a block or a service. What comes next, as a letter: - it goes on; l and k a
  // person types a line, or a key; h the machine has halted. Or a promise of that.
  act(ticks) {
    const { machine } = this;
    if (machine.halted) return "h";
    if (machine.asks === ASKS.LINE) return "l";
    if (machine.asks === ASKS.KEY) return this.service ? this.serve() : "k";
    if (machine.asks === ASKS.NOTHING) this.took(machine.run(ticks));
    else this.block(machine.field("asked"));
    return "-";
  }

  // What a request has led to.
  took(stop) {
    this.ticks += stop.ticks;
    this.allTicks += stop.ticks;
    if (stop.shown.length) this.view.show(stop.shown, false);
    if (stop.how === "f") this.fault(stop.number);
  }

  // Notes what the machine is given, so that WHY can give the same again; of a line that is given very much, nothing
  // is kept.
  note(kind, body) { if (this.log && this.log.push([kind, body]) > MOST_NOTED) this.log = null; }

  // Gives the machine an answer, or sets a cell.
  give(kind, body) {
    this.note(kind, body);
    this.took(this.machine.move(kind, body));
  }

  set(address, number) { this.give("c", cellBytes(address, number)); }

  results(first, second) {
    this.set(DOOR.first, first);
    this.set(DOOR.second, second);
  }

  // A line for the prompt begins: one that the buffer of typed lines has no room for is a block.
  begin(bytes) {
    Object.assign(this, this.fresh(), { before: this.machine.copy() });
    this.catching.caught = [];
    this.greet();
    const isLong = bytes.length >= LINE_ROOM;
    if (isLong) this.set(DOOR.second, this.roomForTexts().add("", bytes).first);
    this.set(DOOR.service, 0);
    this.answer(isLong ? new Uint8Array(0) : bytes, true, bytes);
    const before = this.machine.cell(SYSTEM.state) ? this.openLines.map(([, text]) => ["", text]) : [];
    this.openLines = [...before, [HERE, decode(bytes)]];
    this.lookAt(this.openLines);
    if (decode(bytes).trim().toUpperCase() === "QUIT")
      this.view.say(`${this.view.isAtLineStart() ? "" : "\n"}${DATA.faults.quit}\n`);
  }

  // Says so if EXIT is in a counted loop of these lines.
  lookAt(lines) {
    if (this.isForeign || !lines.some(([name, text]) => name && /EXIT/i.test(text))) return;
    const said = this.machine.advise(
      [["loop", ""], ...this.marks({ dialect: this.machine.cell(this.places.dialect) }), ...sourceOf(lines)]);
    if (said) this.view.say(`${this.view.isAtLineStart() ? "" : "\n"}${said}\n`);
  }

  // Marks that are set, as lines of a case.
  marks(marks) { return Object.keys(marks).filter((name) => marks[name]).map((name) => ["mark", name]); }

  // Answers a line; isWhole: a return ended it. EXPECT shows the line first.
  answer(bytes, isWhole, typed = bytes) {
    const body = Uint8Array.from([isWhole ? 1 : 0, ...bytes]), stop = this.machine.move("l", body);
    this.note("l", body);
    this.view.show(typed, true);
    this.took({ ...stop, shown: stop.shown.subarray(bytes.length) });
  }

  // Answers a request for a block: the disk's, or a line of a text.
  block(block) {
    const { machine, disk } = this, isRead = machine.asks === ASKS.READ;
    const page = block < disk.count ? disk.page(block) : this.textPage(block);
    if (isRead && page) return this.give("p", page.slice());
    if (!isRead && block < disk.count) {
      this.write(block, machine.buffers.find((one) => one.block === block).bytes.slice());
      return this.give("w");
    }
    this.refused = `there is no screen ${block} in ${disk.name}; it has 0 to ${disk.count - 1}`;
    this.give(isRead ? "f" : "g");
  }

  write(block, page) { this.disk.put(block, page); }

  // Lines of texts are blocks, of which a big disk leaves none.
  get hasRoomForTexts() { return this.disk.count <= FIRST_TEXT; }
  roomForTexts() {
    if (!this.hasRoomForTexts)
      throw new Unreadable(
        `${this.disk.name} has more than ${FIRST_TEXT} screens, and leaves no numbers for the lines of a text`);
    return this.texts;
  }
  textLine(block) { return this.hasRoomForTexts ? this.texts.place(block) : undefined; }
  textPage(block) { return this.hasRoomForTexts ? this.texts.page(block) : undefined; }

  // Does a service, and answers it: 0, or the fault by which it refuses.
  serve() {
    if (OWN_SERVICES[this.service]) return this.serveOwn(this.service);
    const name = DOOR.names[this.service - 1], done = (result) => {
      if (result === WAITS) return "k";
      if (result === MOVED || this.service) this.set(DOOR.service, 0);
      if (result === MOVED) return "-";
      this.give("k", Uint8Array.of(0));
      return "-";
    };
    try {
      if (!name) throw new Refusal(`nobody has registered service ${this.service}`);
      const result = SERVICES[name](this);
      return result instanceof Promise ? result.then((isDone) => (isDone ? done() : "-")) : done(result);
    } catch (error) {
      return this.refuse(error);
    }
  }

  // Does a service of the page's own, which answers with the fault that the word takes, or 0; or with a promise of
  // that.
  serveOwn(number) {
    const done = (fault) => {
      this.set(DOOR.service, 0);
      this.give("k", Uint8Array.of(fault || 0));
      return "-";
    };
    const failed = (error) => this.refuse(
      error instanceof Refused ? error : new Refusal(`service ${number} failed: ${error}`));
    try {
      const result = OWN_SERVICES[number](this);
      return result instanceof Promise ? result.then(done).catch(failed) : done(result);
    } catch (error) {
      return failed(error);
    }
  }

  refuse(error) {
    if (!(error instanceof Refusal || error instanceof Unreadable || error instanceof Refused)) throw error;
    this.refused = error instanceof Refused
      ? `the machine cannot be asked for that (${error.message}); its memory may be damaged`
      : error.message;
    this.set(DOOR.service, 0);
    this.give("k", Uint8Array.of(error.fault ?? FAULTS.said));
    return "-";
  }

  // Gives up what runs, by the word BREAK: what is asked is answered first. Returns whether the image has that word.
  interrupt() {
    const { machine, places } = this;
    if (places.break === undefined) return false;
    if (machine.asks === ASKS.KEY) this.give("k", Uint8Array.of(0));
    else if (machine.asks === ASKS.LINE) machine.move("l", Uint8Array.of(1));
    else if (machine.asks !== ASKS.NOTHING) this.block(machine.field("asked"));
    if (machine.halted || machine.asks !== ASKS.NOTHING) return true;
    if (!this.isForeign) machine.setCell(DOOR.service, 0);
    this.took(machine.enter(places.break));
    return true;
  }

  // A fault was taken: it is reported, unless a program handles it.
  fault(number) {
    const { machine, refused } = this;
    this.refused = "";
    if (this.isForeign || machine.cell(SYSTEM.fault) !== this.places.handler || this.catching.throw(number)) return;
    machine.setCell(DOOR.mark, DOOR.host);
    const { block, text, offset } = this.input(), isOnScreen = block && !this.textLine(block);
    const byte = faultWord(number, { text, offset })[0];
    if (isOnScreen) machine.setCell(SYSTEM.scr, block);
    if (this.before) this.failed = { before: this.before, ticks: this.ticks, log: this.log && this.log.slice() };
    this.faulty = isOnScreen ? { block, byte: Math.min(byte, PAGE_SIZE - 1) } : null;
    const isShown = number === FAULTS.said && !refused && !this.view.isAtLineStart();
    const report = this.report(number, refused);
    this.view.fault(isShown ? report : `${this.view.isAtLineStart() ? "" : "\n"}${report.trimStart()}`, this.faulty);
  }

  // A fault in words, without its place.
  described(number) { return this.machine.advise([["fault", number], ...this.known(number, this.input())]); }

  // What is known of a fault, as lines of a case.
  known(number, { text, offset }) {
    const { machine, places } = this, [start, end] = faultWord(number, { text, offset });
    const name = text.subarray(start, end), [from, to] = nextWord(text, offset);
    const isName = number === FAULTS.unknown && this.lookUp(decode(name)) !== null;
    const isSet = (place) => machine.cell(place) !== 0;
    const isOpen = name[name.length - 1] === QUOTE && !text.subarray(end).includes(QUOTE);
    const marks = this.marks(
      { texts: true, name: isName, hidden: isSet(places.hidden), dialect: isSet(places.dialect), open: isOpen });
    const names = number === FAULTS.unknown && !isName
      ? visible(this, [machine.cell(SYSTEM.context), SYSTEM.forthVoc])
      : [];
    const newest = machine.words().pop();
    return [
      ["word", plain(name)], ["follows", plain(text.subarray(from, to))], ["base", machine.cell(SYSTEM.base)],
      ["left", machine.cell(places.limit) - machine.cell(SYSTEM.dp)], ...marks,
      ...(newest && newest.isHidden ? [["defining", newest.name]] : []), ...names.map((one) => ["name", one.name])
    ];
  }

  // A fault in words, with its place; SAID is what the program or a service has said of it.
  report(number, said) {
    const input = this.input(), [start, end] = faultWord(number, input), line = this.textLine(input.block);
    const isPlaced = line ? line.name !== "" : input.block !== 0;
    const name = plain(input.text.subarray(start, end));
    const lines = number === FAULTS.said && name === ";" ? this.sourceLines(input) : [];
    let text = said +
      this.machine.advise(
        [["report", number], ...this.marks({ said }), ...this.known(number, input), ...sourceOf(lines)]);
    if (number !== FAULTS.unknown && !isPlaced && end > start) text += ` at ${name}`;
    return `${[text, ...placeLines(input, line, start), ...this.loaderLines(input.block)].join("\n")}\n`;
  }

  // The source of the open definition, each line with what it is called.
  sourceLines({ block, text, offset }) {
    const header = this.machine.words().pop(), line = this.textLine(block), before = text.subarray(0, offset);
    const lines = [];
    if (!header || !header.isHidden) return [];
    if (line)
      for (let at = header.view >= FIRST_TEXT && header.view <= block ? header.view : block; at < block; at++)
        lines.push([`line ${this.textLine(at).number}`, this.textLine(at).text]);
    for (let at = 0; block && !line && at < offset; at += COLUMNS)
      lines.push([`line ${at / COLUMNS}`, before.subarray(at, at + COLUMNS)]);
    if (line || !block) lines.push([line ? `line ${line.number}` : HERE, before]);
    return lines.map(([name, bytes]) => [name, decode(bytes)]);
  }

  // From where the text or the screen of a fault was loaded.
  loaderLines(block) {
    const { machine, places } = this, found = [];
    for (let at = Math.min(machine.cell(places.loads), MOST_LOADS) - 1; at >= 0; at--) {
      const offset = machine.cell(places.loaders + 4 * at), loader = machine.cell(places.loaders + 4 * at + 2);
      const line = this.textLine(loader);
      const how = this.textLine(block) ? "included" : "loaded";
      if (line && line.number) found.push(`${how} by ${named(line)}`);
      else if (loader && !line) found.push(`${how} by screen ${loader} line ${lineAt(Math.max(offset - 1, 0))}`);
      block = loader;
    }
    return found;
  }

  // What is being interpreted: BLK, >IN, and a copy of the bytes, since memory may move with each call.
  input() {
    const { machine } = this, block = machine.cell(SYSTEM.blk), offset = machine.cell(SYSTEM.toIn);
    const text = block
      ? (this.page(block) || new Uint8Array(0)).slice()
      : machine.memory.slice(SYSTEM.tib, SYSTEM.tib + Math.min(machine.cell(SYSTEM.numberTib), 128));
    return { block, offset, text };
  }

  // The bytes of a block: those of its buffer, if it has one; undefined for no block.
  page(block) {
    const buffer = this.machine.buffers.find((one) => one.block === block);
    return buffer ? buffer.bytes : block < this.disk.count ? this.disk.page(block) : this.textPage(block);
  }

  // Takes the next word of the input; one between two quotes may have blanks.
  word() {
    const { text, offset } = this.input(), [start] = nextWord(text, offset), isQuoted = text[start] === 34;
    const from = start + (isQuoted ? 1 : 0);
    const found = text.indexOf(isQuoted ? 34 : 32, from), end = found < 0 ? text.length : found;
    this.set(SYSTEM.toIn, Math.min(end + 1, Math.max(text.length, offset)));
    return decode(text.subarray(from, end));
  }

  // Takes the rest of the line, without the blanks at its end.
  rest() {
    const { text, offset } = this.input();
    this.set(SYSTEM.toIn, text.length);
    return trimmedEnd(text.subarray(offset));
  }

  // The compilation address of a word, or null; SEE's text of it, or null.
  tokenOf(name) { return unlessRefused(() => this.machine.token(name)); }
  seeOf(name) { return unlessRefused(() => this.machine.see(name)); }

  // The name by which the machine finds a word: as it is typed, or in capitals if CAPS is on; or null.
  lookUp(name) {
    return (this.machine.cell(this.places.caps) ? [name, name.toUpperCase()] : [name])
      .find((one) => this.tokenOf(one) !== null) ??
      null;
  }

  // The numbers that a word left for its service, the top last.
  numbers(count) {
    const cells = this.machine.values;
    if (cells.length < count) throw new Refusal("", 1);
    return cells.slice(cells.length - count);
  }

  // The text from the line or the screen on where a word was made; an empty one for a word that was typed.
  sourceFrom(view) {
    const line = this.textLine(view), { lines } = this.texts;
    if (line)
      return lines.slice(lines.indexOf(line))
        .filter((one) => one.name === line.name)
        .map((one) => decode(one.text))
        .join("\n");
    return view && view < this.disk.count ? linesOf(this.page(view)).join("\n") : "";
  }

  // Writes changed buffers to the disk.
  settle() {
    for (const buffer of this.machine.buffers) {
      if (buffer.updated && buffer.block < this.disk.count) this.write(buffer.block, buffer.bytes);
      if (buffer.updated) this.machine.settle(buffer);
    }
  }

  // Types a line, and does it; what comes next then, as `act` says it, or "-" if it takes longer than so many ticks.
  async line(text, most, piece) {
    this.begin(encode(text));
    return this.through(most, piece);
  }

  async through(most, piece = most) {
    for (let end = this.ticks + most; this.ticks < end; ) {
      const { ticks } = this, next = await this.act(piece);
      if (next !== "-") return next;
      if (this.ticks - ticks === piece) await new Promise((resolve) => setTimeout(resolve));
    }
    return "-";
  }

  // What services ask of a host without a person: pauses are not waited for, and no key comes.
  sleep() {}
  hasKey() { return false; }
  key() { return null; }
  debug() {}
  undo() { throw new Refusal("UNDO needs a person's session"); }

  // A machine for WHY.
  spare() { return (this.spareMachine ??= new Machine(this.machine.calls, this.machine.layout)); }
}

// What a host without a person shows.
export class Shown {
  constructor() { this.text = ""; }
  show(bytes) { this.text += decode(bytes); }
  say(text) { this.text += text; }
  fault(text) { this.text += text; }
  isAtLineStart() { return !this.text || this.text.endsWith("\n"); }
  edit() {}
  retype() {}
}
