// The map of the machine's memory: its parts from address 0 up, your words with their sizes, and the block buffers.

import { element, hexadecimal } from "./bytes.js";
import { CODES, SYSTEM } from "./cells.js";
import { MEMORY, PAGE_SIZE } from "./machine.js";

const DICTIONARY = 256, FIRST_LESSON = 21;
const KINDS = {
  [CODES.colon]: "colon word",
  [CODES.variable]: "variable",
  [CODES.constant]: "constant",
  [CODES.vocabulary]: "vocabulary"
};

export class MemoryMap {
  constructor(page, parts) {
    Object.assign(this, { page, parts });
    parts.again.addEventListener("click", () => this.draw());
    parts.words.addEventListener("click", (event) => this.see(event.target.closest("button")));
  }

  get machine() { return this.page.session.machine; }

  // SEE of a word; the focus goes to the line if the tab goes away.
  see(button) {
    if (!button) return;
    this.page.enter(`SEE ${button.textContent}`);
    if (!button.offsetParent) this.page.focusLine();
  }

  // An address in the Forth's BASE, as the film and the Forth itself show it.
  address(at) { return this.machine.cell(SYSTEM.base) === 16 ? hexadecimal(at) : String(at); }

  draw() {
    const { session } = this.page;
    if (session.isRunning) return void (this.parts.said.textContent = "The Forth is busy: stop it to see its memory.");
    this.parts.said.textContent = "";
    this.drawParts();
    this.drawWords(session.places.fence);
  }

  // All of memory in a few parts, each with its addresses.
  regions() {
    const { machine } = this, here = machine.cell(SYSTEM.dp), { fence } = this.page.session.places;
    const buffers = machine.buffers.sort((a, b) => a.place - b.place);
    const limit = buffers.length ? buffers[0].place : MEMORY;
    const rows = [
      ["system cells", 0, SYSTEM.tib, "system"], ["the line that is typed (TIB)", SYSTEM.tib, DICTIONARY, "system"],
      ["the Forth's own words", DICTIONARY, fence, "own"], ["your words", fence, Math.max(fence, here), "yours"],
      ["free", Math.max(fence, here), limit, "free"]
    ];
    for (const one of buffers) {
      const what = one.block === null ? "empty" : `block ${one.block}${one.updated ? ", changed" : ""}`;
      rows.push([`buffer ${one.slot}: ${what}`, one.place, one.place + PAGE_SIZE, "buffer"]);
    }
    return rows.filter(([, from, to]) => to > from);
  }

  drawParts() {
    const regions = this.regions();
    this.parts.bar.replaceChildren(...regions.map(([what, from, to, kind]) => {
      const part = element("span", "", { class: kind, title: `${what}: ${to - from} bytes` });
      part.style.flexGrow = to - from;
      return part;
    }));
    this.parts.parts.replaceChildren(...regions.map(([what, from, to, kind]) => {
      const row = element("tr");
      row.append(
        element("td", "", { class: `key ${kind}` }), element("td", what), element("td", this.address(from)),
        element("td", this.address(to - 1)), element("td", String(to - from)));
      return row;
    }));
  }

  // Your words, the newest first.
  drawWords(fence) {
    const words = this.machine.words(), here = this.machine.cell(SYSTEM.dp);
    const isOfCourse = words.some(({ name, view }) => name === "CHECK-ONE" && view), found = { own: [], others: [] };
    for (const [at, word] of words.entries()) {
      const row = this.row(word, words[at + 1] ? words[at + 1].header - 2 : here, fence);
      if (row) found[isOfCourse && word.view && word.view < FIRST_LESSON ? "others" : "own"].unshift(row);
    }
    this.parts.words.replaceChildren(...found.own);
    this.parts.others.replaceChildren(...found.others);
    this.parts.fold.hidden = !found.others.length;
    this.parts.none.hidden = found.own.length > 0;
  }

  row(word, end, fence) {
    if (word.header < fence) return null;
    const code = this.machine.cell(word.word), row = element("tr"), name = element("td");
    name.append(element("button", word.name, { type: "button", title: `SEE ${word.name}` }));
    const kind = KINDS[code] || (code < 256 ? `primitive ${code}` : "made by a word with DOES>");
    row.append(
      name, element("td", this.address(word.header)), element("td", String(end - word.header + 2)),
      element("td", kind), element("td", word.view ? `screen ${word.view}` : "typed"));
    return row;
  }
}
