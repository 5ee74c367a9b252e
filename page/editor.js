// The editor of screens: sixteen lines of 64 characters, kept as they are typed; the index of the screens, their
// order, and a search.

import { element } from "./bytes.js";
import { piecesOf } from "./colors.js";
import { COLUMNS, isData, LINES, lineOf, linesOf, MOST_SCREENS, pageOf, replaced, search } from "./disk.js";
import { PLACED } from "./work.js";

const MOST_LISTED = 1000, MOST_FOUND = 200, NUMBERS = "Numbers in LOAD and THRU stay as they were.";

// What Ctrl+Shift and a letter make of the line at the cursor.
const CHANGES = { k: () => [], d: (line) => [line, line] };

// A text as a screen has it, without blanks at the ends of its lines, and without blank lines at its end.
const plainly = (text) => text.replace(/\t/g, " ").replace(/ +$/gm, "").replace(/\n+$/, "");

export class Editor {
  constructor(session, parts) {
    Object.assign(this, { session, parts, block: 0, written: [], fault: null, found: null });
    const { text, number, gutter, mark, index } = parts;
    gutter.append(...Array.from({ length: LINES }, (_, line) => element("span", String(line))));
    text.addEventListener("beforeinput", (event) => this.history(event));
    text.addEventListener("input", () => this.keep());
    text.addEventListener("keydown", (event) => this.press(event));
    text.addEventListener("scroll", () => (mark.scrollLeft = parts.colors.scrollLeft = text.scrollLeft));
    number.addEventListener("change", () => this.go(Number(number.value)));
    const acts = {
      back: () => this.go(this.block - 1),
      on: () => this.go(this.block + 1),
      shadow: () => this.go(this.shadowed()),
      load: () => this.load(),
      copy: () => this.copy(),
      paste: () => this.paste(),
      insert: () => this.insert(),
      earlier: () => this.move(this.block - 1),
      later: () => this.move(this.block + 1),
      move: () => this.askWhere(),
      next: () => this.next(),
      replace: () => this.replace(),
      all: () => this.replaceAll()
    };
    for (const [name, act] of Object.entries(acts)) parts[name].addEventListener("click", act);
    index.addEventListener("change", () => this.go(Number(index.value)));
    for (const name of ["find", "whole"]) parts[name].addEventListener("input", () => this.seek());
    for (const [name, act] of [["find", acts.next], ["instead", acts.replace]])
      parts[name].addEventListener("keydown", (event) => event.key === "Enter" && act());
    parts.found.addEventListener("click", (event) => this.goTo(event.target.closest("button")));
  }

  press(event) {
    const keys = {
      PageUp: () => this.go(this.block - 1),
      PageDown: () => this.go(this.block + 1),
      F3: () => this.next()
    };
    const isControl = event.ctrlKey || event.metaKey;
    const isUndo = isControl && event.key.toLowerCase() === "z", isRedo = event.ctrlKey && event.key === "y";
    const change = isControl && event.shiftKey && CHANGES[event.key.toLowerCase()];
    if (event.ctrlKey && event.key === "Enter") this.load();
    else if (change) this.changeLine(change);
    else if (isUndo || isRedo) this.back(isRedo || event.shiftKey);
    else if (keys[event.key]) keys[event.key]();
    else return;
    event.preventDefault();
  }

  // The screen beside this one: as far away as SHADOW says, or else half of the disk.
  shadowed() {
    const { machine, places, disk, isForeign } = this.session;
    const far = (isForeign ? 0 : machine.cell(places.shadow)) || Math.floor(disk.count / 2);
    return this.block < far ? this.block + far : this.block - far;
  }

  // Undo and Redo of the browser, from its menu.
  history(event) {
    if (event.inputType !== "historyUndo" && event.inputType !== "historyRedo") return;
    event.preventDefault();
    this.back(event.inputType === "historyRedo");
  }

  // Takes back what was typed last into this screen, or brings it again.
  back(isAgain) {
    const { work } = this.session, list = isAgain ? work.redos : work.undos, last = list[list.length - 1];
    if (!last || !(last.what === PLACED || last.what.startsWith(`screen ${this.block} `)))
      return this.say(`There is nothing more to ${isAgain ? "bring back" : "take back"} in this screen.`);
    if (isAgain) work.redo();
    else work.undo();
  }

  go(block) {
    const { number, text } = this.parts, last = this.session.disk.count - 1;
    this.block = Math.max(0, Math.min(last, Number.isFinite(block) ? Math.floor(block) : 0));
    this.found = null;
    number.value = this.block;
    number.max = last;
    this.parts.count.textContent = `of 0 to ${last}`;
    this.refresh(true);
    text.setSelectionRange(0, 0);
    text.scrollLeft = 0;
    this.report();
  }

  // Shows the screen again if a word has changed it, or its draft.
  refresh(isOther) {
    const { text } = this.parts, { work, disk } = this.session;
    if (this.block >= disk.count) return this.go(0);
    const page = this.session.page(this.block), draft = work.draft(this.block);
    const shown = work.lines(this.block).join("\n");
    this.written = draft ? draft.before : linesOf(page);
    this.wrong = draft ? pageOf(draft.text.split("\n"), page) : null;
    text.readOnly = !work.isOurs || isData(page);
    if (isOther || plainly(shown) !== plainly(text.value)) this.put(shown);
    this.list();
    this.draw();
  }

  // Puts a text into the frame; the cursor goes where it differs from the one before.
  put(shown) {
    const { text } = this.parts, before = text.value, isIn = document.activeElement === text, end = text.selectionStart;
    let front = 0, rear = 0;
    while (front < shown.length && shown[front] === before[front]) front++;
    while (rear < Math.min(shown.length, before.length) - front &&
           shown[shown.length - 1 - rear] === before[before.length - 1 - rear])
      rear++;
    text.value = shown;
    const at = isIn && Math.abs(before.length - shown.length) < 64 ? shown.length - rear : Math.min(end, shown.length);
    text.setSelectionRange(at, at);
    this.report();
  }

  // Keeps what is in the frame: on the disk if it fits, and else as a draft.
  keep() {
    const { text } = this.parts, line = text.value.slice(0, text.selectionStart).split("\n").length;
    if (this.fault && this.fault.block === this.block) this.fault = null;
    this.found = null;
    this.wrong = this.session.work.edit(this.block, text.value.split("\n"), this.written, line);
    if (!this.wrong) this.written = linesOf(this.session.page(this.block));
    this.session.view.persist();
    this.report();
    this.draw();
  }

  // Says what is wrong with the text in the frame.
  report() {
    const isPicture = isData(this.session.page(this.block));
    this.say(
      this.wrong
        ? `Not on the disk yet, but kept as a draft: ${this.wrong.wrong}.`
        : isPicture ? "This block is a picture or other data, not text: it is only shown."
        : "",
      Boolean(this.wrong));
  }

  // Copies the screen, to be put onto another one, of this disk or of another.
  copy() {
    this.copied = this.parts.text.value;
    this.parts.paste.disabled = false;
    this.say(`Screen ${this.block} is copied.`);
  }

  // Puts the copied screen here; Undo takes it back.
  paste() {
    if (this.parts.text.readOnly) return;
    this.put(this.copied);
    this.keep();
  }

  // Inserts a blank screen here: the next blank one, or a new one at the end of the disk.
  insert() {
    const from = this.session.work.blankFrom(this.block);
    if (from === null) return this.say(`The disk has ${MOST_SCREENS} screens, and no blank one after this.`);
    if (from === this.block) return this.say(`Screen ${from} is blank already.`);
    const moved = from === this.block + 1
      ? `screen ${this.block} became ${from}`
      : `screens ${this.block} to ${from - 1} became ${this.block + 1} to ${from}`;
    if (this.arrange(from, this.block)) this.say(`Screen ${this.block} is blank now, and ${moved}. ${NUMBERS}`);
  }

  // Moves this screen to another number.
  move(to) {
    const from = this.block, last = this.session.disk.count - 1;
    if (!Number.isInteger(to) || to < 0 || to > last)
      return this.say(`Screens of this disk have numbers from 0 to ${last}.`);
    if (to !== from && this.arrange(from, to)) this.say(`Screen ${from} is ${to} now. ${NUMBERS}`);
  }

  async askWhere() {
    const answer = await this.session.view.ask(
      `Move screen ${this.block} to which number? The screens between make room.`, ["Move it"],
      { given: String(this.block) });
    if (answer !== null) this.move(answer.trim() ? Number(answer) : NaN);
  }

  arrange(from, to) {
    if (this.fault) this.fault = null;
    const isDone = this.session.work.move(from, to);
    if (isDone) this.go(to);
    return isDone;
  }

  // Changes the line at the cursor; the cursor stays in its column.
  changeLine(change) {
    const { text } = this.parts, before = text.value.slice(0, text.selectionStart).split("\n");
    const line = before.length - 1, lines = text.value.split("\n");
    if (text.readOnly) return;
    lines.splice(line, 1, ...change(lines[line]));
    text.value = lines.join("\n");
    this.select(line, Math.min(before[line].length, (lines[line] || "").length));
    this.keep();
  }

  load() {
    if (this.wrong) this.say(`LOAD needs a screen that fits: ${this.wrong.wrong}.`, true);
    else this.session.view.load(this.block);
  }

  // Shows where a fault was, and goes there.
  show(fault) {
    this.fault = fault;
    this.go(fault.block);
    const line = Math.floor(fault.byte / COLUMNS);
    this.select(line, fault.byte % COLUMNS);
    this.say(`There was a fault in line ${line}: ${fault.text.trim()}`, true);
  }

  select(line, column, length = 0) {
    const { text } = this.parts;
    const before = text.value.split("\n").slice(0, line).reduce((sum, one) => sum + one.length + 1, 0);
    text.setSelectionRange(before + column, before + column + length);
  }

  // The place that is marked: of a fault, or of the text that was sought.
  get marked() {
    const { fault, found } = this;
    if (!fault || fault.block !== this.block) return found;
    const line = Math.floor(fault.byte / COLUMNS), column = fault.byte % COLUMNS;
    return { line, column, text: /^\S*/.exec((this.parts.text.value.split("\n")[line] || "").slice(column))[0] };
  }

  draw() {
    const { gutter, text, mark, colors } = this.parts, { marked, found } = this;
    const at = marked && marked !== found ? marked.line : this.wrong ? this.wrong.line : -1;
    for (const [line, span] of [...gutter.children].entries()) span.classList.toggle("at-fault", line === at);
    if (marked)
      mark.replaceChildren("\n".repeat(marked.line) + " ".repeat(marked.column), element("mark", marked.text || " "));
    mark.hidden = !marked;
    mark.scrollLeft = text.scrollLeft;
    if (colors.textContent !== text.value + "\n")
      colors.replaceChildren(
        ...piecesOf(text.value).map(([kind, piece]) => (kind ? element("span", piece, { class: kind }) : piece)),
        "\n");
  }

  // The first line of each screen that has one; of a big disk only of those around this screen.
  list() {
    const { index } = this.parts, { disk, machine } = this.session, titles = [];
    const from = Math.max(0, this.block - MOST_LISTED), to = Math.min(disk.count, from + 2 * MOST_LISTED);
    const changed = new Map(machine.buffers.map((buffer) => [buffer.block, buffer.bytes]));
    const width = String(disk.count - 1).length;
    for (let block = from; block < to; block++) {
      const title = changed.has(block) ? lineOf(changed.get(block).subarray(0, COLUMNS)) : disk.title(block);
      if (title || block === this.block) titles.push(`${String(block).padStart(width)}  ${title}`);
    }
    const all = titles.join("\n");
    if (all !== this.titles) {
      this.titles = all;
      index.replaceChildren(...titles.map((title) => new Option(title, parseInt(title, 10))));
    }
    if (index.value !== String(this.block)) index.value = this.block;
  }

  get wanted() { return { text: this.parts.find.value, isWhole: this.parts.whole.checked }; }

  // The lines of a screen, as the frame would show them; none if it can't have the text.
  linesWith({ text }) {
    const sought = text.toUpperCase(), isPlain = /^[ -~]*$/.test(text), { session } = this, { work } = session;
    const canHave = (page) => !isPlain ||
      String.fromCharCode(...page).replace(/\0/g, " ").toUpperCase().includes(sought);
    return (block) => (work.draft(block) || canHave(session.page(block)) ? work.lines(block) : []);
  }

  // The places of a text, from a screen on and around the disk.
  places(from = 0) { return search(this.session.disk.count, this.linesWith(this.wanted), this.wanted, from); }

  // The screens with a text.
  seek() {
    const { found } = this.parts, buttons = [];
    found.hidden = !this.wanted.text;
    for (const { block, line, columns, text } of this.wanted.text ? this.places() : []) {
      const one = element("button", `${block} line ${line}: ${text}`, { type: "button" });
      Object.assign(one.dataset, { block, line, column: columns[0] });
      if (buttons.push(one) === MOST_FOUND) break;
    }
    found.replaceChildren(...buttons);
    if (!buttons.length) found.textContent = "No screen has this text.";
  }

  goTo(button) {
    if (!button) return;
    const { block, line, column } = button.dataset;
    this.find({ block: Number(block), line: Number(line), column: Number(column) });
    this.parts.text.focus();
  }

  // Shows a place of the text that is sought, and selects it.
  find({ block, line, column }) {
    const { text } = this.parts, { length } = this.wanted.text;
    if (block !== this.block) this.go(block);
    this.select(line, column, length);
    this.found = { line, column, text: text.value.slice(text.selectionStart, text.selectionEnd) };
    this.say(`Screen ${block}, line ${line}.`);
    this.draw();
  }

  // Goes to the next place after the cursor, around the disk.
  next() {
    const { text, find } = this.parts, lines = text.value.slice(0, text.selectionEnd).split("\n");
    const here = [lines.length - 1, lines[lines.length - 1].length];
    if (!this.wanted.text) return find.focus();
    let first = null;
    for (const { block, line, columns } of this.places(this.block))
      for (const column of columns) {
        const isBefore = block === this.block && (line < here[0] || (line === here[0] && column < here[1]));
        if (!isBefore) return this.find({ block, line, column });
        first ??= { block, line, column };
      }
    if (first) this.find(first);
    else this.say("No screen has this text.");
  }

  // Replaces the place that was found, and goes to the next.
  replace() {
    const { text, instead } = this.parts;
    const isAt = this.found && text.value.slice(text.selectionStart, text.selectionEnd) === this.found.text;
    if (isAt && text.readOnly) return this.report();
    if (isAt) {
      text.setRangeText(instead.value, text.selectionStart, text.selectionEnd, "end");
      this.keep();
    }
    if (!this.wrong || !isAt) this.next();
  }

  // What replacing the text in all screens makes: the pages, in how many places, and what stays as it is.
  replacement() {
    const { wanted, session } = this, { work } = session, pages = new Map(), stay = [];
    let count = 0;
    for (const block of new Set([...this.places()].map((place) => place.block))) {
      const page = session.page(block), isDraft = Boolean(work.draft(block));
      if (isDraft || isData(page)) stay.push(`screen ${block} is ${isDraft ? "a draft" : "no text"}`);
      else {
        const made = replaced(page, wanted, this.parts.instead.value);
        if (made.count) pages.set(block, made.page);
        count += made.count;
        stay.push(...made.full.map((line) => `line ${line} of screen ${block} has no room`));
      }
    }
    return {
      pages,
      count,
      others: stay.length
        ? ` Not replaced: ${stay.slice(0, 6).join(", ")}${stay.length > 6 ? `, and ${stay.length - 6} more` : ""}.`
        : ""
    };
  }

  // Replaces it in all screens of the disk that have room for it, if a person wants that.
  async replaceAll() {
    const { work, view } = this.session, instead = this.parts.instead.value;
    const { pages, count, others } = this.replacement();
    if (!count) return this.say(others.trim() || "No screen has this text.");
    const counted = (number, one) => `${number} ${one}${number === 1 ? "" : "s"}`;
    const places = `${counted(count, "place")} in ${counted(pages.size, "screen")} of ${work.disk.name}`;
    const question = `Replace ${this.wanted.text} by ${instead || "nothing"}: ${places}?${others}`;
    if (!(await view.ask(question, ["Replace all"]))) return;
    // A program may have changed screens meanwhile.
    if (!work.place(this.replacement().pages)) return;
    this.go(this.block);
    this.seek();
    this.say(`Replaced: ${places}.${others}`);
  }

  say(text, isWrong = false) {
    const { said } = this.parts;
    said.textContent = text;
    said.classList.toggle("at-fault", isWrong);
  }
}
