// A session: a machine with the disk that is in. It runs in slices of time, so that the page still responds, and any
// program can be stopped.

import { encode } from "./bytes.js";
import { DATA } from "./data.js";
import { Host } from "./host.js";
import { SYSTEM } from "./cells.js";
import { ASKS, inLayout3, Machine } from "./machine.js";
import { Texts } from "./texts.js";

const SLICE = 12, LONG = 2000, LONGEST_LINE = 1024, HALTED_BY_FAULT = 4;

const numbers = (places) => Object.fromEntries(Object.entries(places).map(([name, place]) => [name, Number(place)]));

export class Session extends Host {
  // view: the page. Besides what a host asks of its view: note(text), started(isAnswer), changed(), steps(line,
  // record), looks() and keeps().
  constructor(calls, layout, image, view) {
    super(new Machine(calls, layout), view);
    Object.assign(this, { calls, layout, image, outer: null, program: "" });
    this.lines = []; // typed lines that aren't read yet
    this.keys = []; // bytes for KEY that aren't read yet
    this.slice = 200000;
    this.isStopped = false;
    this.isRunning = false;
    this.machine.load(image);
    this.own = this.placesOf();
  }

  // The disk that is in: the work has it.
  get disk() { return this.work.disk; }

  // Another person's work begins.
  forget() { this.texts = new Texts(); }

  // Starts a machine as the image has it.
  start() {
    if (this.waits(() => this.start())) return;
    this.anew();
    this.go();
  }

  // A new Forth, which knows the files that were opened, and has read none of them.
  anew() {
    Object.assign(this, { outer: null, program: "", texts: new Texts({ files: [...this.texts.files] }) });
    this.load(this.image, this.own);
  }

  // Runs an image in place of the Forth, which continues where it was when the image ends; returns whether it is an
  // image.
  runImage(program, image) {
    this.settle();
    const record = this.machine.copy(), outer = this.outer || { record, places: this.places };
    const before = this.work.snapshot(program);
    try {
      this.load(image);
    } catch {
      this.machine.restore(record);
      return false;
    }
    this.work.push(before);
    Object.assign(this, { outer, program });
    this.view.note(
      `${program} runs now. Stop interrupts it. When it ends, or after Undo, the Forth goes on where it was.`);
    this.go();
    return true;
  }

  // When the program has ended, continues with the Forth from before. A record that isn't a machine's is refused, and
  // a new Forth starts.
  leave(why) {
    const { program, outer } = this;
    this.settle();
    try {
      this.restore(outer.record);
      Object.assign(this, { places: outer.places, outer: null, program: "", ...this.fresh() });
      this.change();
    } catch {
      this.anew();
    }
    this.view.note(`${program} ${why}. The Forth goes on where it was.`);
  }

  // Takes a record; throws if it isn't a machine's.
  restore(record) {
    this.machine.restore(record);
    this.machine.haveAllBlocks();
    this.machine.run(0);
  }

  // Continues with a machine that was kept; returns whether it is valid.
  resume(kept) {
    const { places, outer, program, texts } = this, before = { places, outer, program, texts };
    const record = this.machine.copy();
    try {
      this.take(kept);
      this.machine.run(0);
    } catch {
      this.machine.restore(record);
      Object.assign(this, before);
      return false;
    }
    return true;
  }

  // Goes on with it, on the disk that is in. A program that was running is interrupted.
  goOn() {
    if (this.isForeign && this.places.wait) this.machine.setCell(this.places.wait, 0);
    if (this.machine.asks === ASKS.NOTHING || this.service) this.interrupt() || this.leave("was stopped");
    this.go();
  }

  // Restores what was kept; throws if the sizes differ.
  take({ record, places, outer, program, sources }) {
    const { size } = this.layout, now = inLayout3(record, this.layout);
    const before = outer ? inLayout3(outer.record, this.layout) : null;
    if (now.length !== size || (before && before.length !== size)) throw new Error("other sizes");
    Object.assign(this, {
      places: numbers(places),
      program: String(program || ""),
      texts: new Texts(sources),
      ...this.fresh(),
      outer: before ? { record: before, places: numbers(outer.places) } : null });
    this.machine.restore(now);
    this.machine.haveAllBlocks();
  }

  kept() {
    const { machine, places, outer, program, texts } = this;
    return { record: machine.copy(), places: { ...places }, outer, program, sources: texts.kept() };
  }

  // An image of the Forth with its words, which starts with a word or, if none is named, with the Forth itself: {
  // image } or { wrong }.
  saved(name) {
    const { machine, places } = this, sought = name.toUpperCase();
    if (!this.isPrompt || this.isRunning)
      return {
        wrong: this.isForeign && this.waitsForLine
          ? "the Forth of an older page makes none"
          : "the Forth must wait for a line"
      };
    if (machine.cell(SYSTEM.state)) return { wrong: "a definition is unfinished" };
    const word = name && machine.words().filter((one) => one.name.toUpperCase() === sought).pop();
    const record = machine.copy();
    if (name && !word) return { wrong: `there is no word ${name}` };
    machine.setCell(places.boot, word ? word.word : 0);
    machine.setCell(DATA.door.mark, 0);
    const image = machine.image(places.cold);
    machine.restore(record);
    return { image };
  }

  get waitsForLine() {
    return !this.isRunning && (this.machine.asks === ASKS.LINE || (this.takesLines && this.machine.asks === ASKS.KEY));
  }
  get waitsForKey() { return !this.isRunning && !this.takesLines && this.machine.asks === ASKS.KEY; }
  // Whether a program asks for the line, and not the Forth itself. The Forth of an older page has the same depth of
  // the return stack then.
  get waitsForAnswer() { return this.waitsForLine && this.isAnswer; }
  get isAnswer() {
    return !this.isPrompt && (this.places.depth === undefined || this.machine.returns.length > this.places.depth);
  }
  // Whether keys are typed in whole lines, as at a terminal: for an image that knows nothing of a page.
  get takesLines() { return this.isForeign && this.places.notes === undefined; }
  // Whether a key that is pressed is for the program.
  get takesKeys() { return this.waitsForKey || (this.isRunning && this.isPolled); }

  // Types lines, one after the other; a fault drops the lines after it.
  type(lines) {
    this.lines.push(...lines);
    this.go();
  }

  press(bytes) {
    this.keys.push(...bytes);
    this.go();
  }

  stop() {
    this.drop("");
    if (this.isRunning) return void (this.isStopped = true);
    if (!this.waitsForKey && !this.waitsForAnswer) return;
    this.breakOff();
    this.go();
  }

  // Gives up what runs. If no prompt has come since the last time, the machine is put back as it was before the line.
  breakOff() {
    this.isStopped = false;
    if (this.breaks++ ? this.outer : !this.interrupt()) this.leave("was stopped");
    else if (this.breaks > 1) this.wish = () => this.putBack("The Forth does not come back to its prompt");
  }

  // Takes the line back, with all that it did, and what was edited since then.
  putBack(why) {
    const { undos } = this.work, at = undos.map(({ what }) => what).lastIndexOf("line");
    if (at < 0) this.anew();
    while (at >= 0 && undos.length > at) this.work.undo();
    this.view.note(
      `${why}. ${at < 0 ? "A new one starts; the screens are kept." : "All is as it was before that line."}`);
    if (at < 0) this.go();
  }

  drop(why) {
    const count = this.lines.length;
    if (count && why)
      this.view.note(`${count} more ${count === 1 ? "line was" : "lines were"} not interpreted: ${why}.`);
    this.lines = [];
    this.keys = [];
  }

  // Runs until a person is needed. After each slice of time the page draws and takes events.
  async go() {
    if (this.isRunning) return;
    this.isRunning = true;
    this.view.changed();
    for (let since = performance.now(), kept = since, goesOn = true; goesOn && !this.wish; ) {
      goesOn = this.step();
      if (goesOn instanceof Promise) goesOn = await goesOn;
      if (performance.now() - since < SLICE) continue;
      await pause();
      since = performance.now();
      this.view.looks();
      if (this.isStopped && !this.wish) this.breakOff();
      if (since - kept < LONG) continue;
      kept = since;
      this.view.keeps();
    }
    this.end();
  }

  // An act of the machine, or what a person has typed for it; whether it goes on, or a promise of that.
  step() {
    const began = performance.now(), { ticks, slice } = this, next = this.act(slice);
    if (this.ticks - ticks === slice) this.measure(performance.now() - began);
    return next instanceof Promise ? next.then((one) => this.isFed(one)) : this.isFed(next);
  }

  isFed(next) {
    if (next === "h") this.ended();
    return next === "l" ? this.feedLine() : next === "k" ? this.feedKey() : true;
  }

  // The next line that was typed; whether there was one.
  feedLine() {
    if (this.takesLines && this.keys.length) return this.feedRest();
    if (this.isPrompt) this.lookAtHere();
    this.keys = [];
    if (!this.lines.length) return false;
    const bytes = encode(this.lines[0]), { isPrompt } = this;
    const most = isPrompt ? LONGEST_LINE : this.machine.field("asked");
    if (bytes.length > most) {
      this.drop(`a line here has at most ${most} bytes, and this one has ${bytes.length}`);
      return false;
    }
    this.work.remember("line");
    this.typed = this.lines.shift();
    this.view.started(this.isAnswer);
    if (!isPrompt) this.answer(bytes, bytes.length < most);
    else this.begin(bytes);
    return true;
  }

  // Says once that the dictionary ends within the words of the Forth, as after -5000 ALLOT.
  lookAtHere() {
    const { machine, isInside } = this;
    this.isInside = machine.cell(SYSTEM.dp) < machine.cell(SYSTEM.fence);
    if (this.isInside && !isInside)
      this.view.note("HERE is inside the Forth, so what is compiled now overwrites it; UNDO goes back.");
  }

  // What KEY has left of a line that was typed is the next line.
  feedRest() {
    const { keys } = this, most = this.machine.field("asked"), end = keys.indexOf(10), isWhole = end < most;
    const bytes = Uint8Array.from(keys.splice(0, Math.min(end, most)));
    if (isWhole) keys.shift();
    this.answer(bytes, isWhole);
    return true;
  }

  // The next byte that was typed; whether there was one.
  feedKey() {
    if (!this.keys.length && this.lines.length) {
      this.work.remember("line");
      this.keys.push(...encode(`${this.lines.shift()}\n`));
      if (this.takesLines) this.view.started(true);
      if (this.takesLines) this.view.show(Uint8Array.from(this.keys), true);
    }
    if (!this.keys.length) return false;
    // A service takes it itself.
    if (!this.service) this.give("k", Uint8Array.of(this.keys.shift()));
    return true;
  }

  end() {
    this.isRunning = false;
    this.isStopped = false;
    const { wish } = this;
    this.wish = null;
    if (wish) wish();
    this.view.changed();
  }

  // As many ticks in one call as take a slice of time.
  measure(took) {
    this.slice = Math.round(Math.min(20e6, Math.max(10000, this.slice * Math.min(2, SLICE / Math.max(took, 0.5)))));
  }

  // Whether something has to wait until the run has stopped. This does not need BREAK, which may be gone if memory was
  // overwritten.
  waits(wish) {
    if (!this.isRunning) return false;
    this.drop("");
    this.wish = wish;
    return true;
  }

  // What services ask of a session.

  // Waits; whether all of the time has passed.
  async sleep(wait) {
    const until = performance.now() + wait;
    this.view.looks();
    while (performance.now() < until && !this.isStopped && !this.wish)
      await new Promise((resolve) => setTimeout(resolve, Math.min(20, Math.max(1, until - performance.now()))));
    return !this.isStopped && !this.wish;
  }

  hasKey() { return this.keys.length + this.lines.length > 0; }
  key() { return this.keys.shift() ?? null; }

  // The film of the line that was typed, without the word DEBUG.
  debug() { this.view.steps(this.typed.replace(/(^|\s)DEBUG\s+/i, "$1"), this.before); }

  // UNDO takes back the line before its own.
  undo() {
    const { before, work } = this;
    this.drop("");
    this.wish = () => {
      work.undos.pop();
      this.restore(before);
      if (work.undos.length) work.undo();
      else this.view.note("There is no line before this one.");
    };
    return Promise.resolve(false);
  }

  // BYE, or a fault that nothing handles.
  ended() {
    const { machine } = this, isFault = machine.field("halts") === HALTED_BY_FAULT;
    this.drop("the Forth had ended");
    if (this.outer) return this.leave("ended");
    if (isFault)
      return void (
        this.wish = () => this.putBack(
          `Fault ${machine.field("fault")}, which no fault thread handled, has stopped the Forth`));
    this.settle();
    this.anew();
    this.view.note("The Forth ended and started again: its words are gone, the screens are kept.");
  }

  write(block, page) { this.work.write(block, page); }

  // Stores a block's bytes on the disk and in the machine.
  put(block, page) {
    this.work.write(block, page);
    this.page(block).set(page);
  }

  // Forgets the blocks of the disk that was in, and takes the one that is in now; the machine and its words stay.
  change() {
    for (const buffer of this.machine.buffers) this.machine.release(buffer);
    this.view.changed();
  }
}

// Lets the page draw and take events; a timer would wait some milliseconds.
let channel = null, resume = null;
function pause() {
  if (!channel) {
    channel = new MessageChannel();
    channel.port1.onmessage = () => resume();
  }
  return new Promise((resolve) => {
    resume = resolve;
    channel.port2.postMessage(0);
  });
}
