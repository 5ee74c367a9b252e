// Old disks: shows a file of another system in a format, reports on its screens, adds them as a disk, and loads their
// dialect.

import { DATA } from "./data.js";
import { linesOf } from "./disk.js";
import { Machine, PAGE_SIZE } from "./machine.js";
import { screensOf } from "./screens.js";

// By their numbers in include/forth83.h, the texts of screens/dialects.
const DIALECTS = [null, "fig", "f79", "f83", "poly"], BLANK = 32;

// Blocks as a disk from screen 0 on: before the first one are blank ones.
function withFront({ bytes, first }) {
  const made = new Uint8Array(first * PAGE_SIZE + bytes.length).fill(BLANK);
  made.set(bytes, first * PAGE_SIZE);
  return made;
}

export class OldDisk {
  constructor(page, parts) {
    Object.assign(this, { page, parts, name: "", container: null, blocks: null, machine: null, best: null });
    parts.format.append(...DATA.formats.map((one) => new Option(`${one.name}: ${one.what}`, one.name)));
    parts.choose.addEventListener("click", () => parts.file.click());
    parts.file.addEventListener("change", () => this.read(parts.file.files[0]));
    for (const control of
           [parts.format, parts.clean, parts.half, parts.ebcdic, parts.offset, parts.sector, parts.skew, parts.first])
      control.addEventListener("change", () => this.draw());
    parts.screen.addEventListener("input", () => this.show());
    parts.insert.addEventListener("click", () => this.insert());
    parts.dialect.addEventListener("click", () => this.load());
  }

  async read(file) {
    this.parts.file.value = "";
    if (file) this.open(file.name, new Uint8Array(await file.arrayBuffer()));
  }

  open(name, container) {
    const { format, half, ebcdic, offset, sector, skew, first, shown } = this.parts;
    Object.assign(this, { name, container });
    format.value = this.forth.guess(container);
    for (const box of [half, ebcdic]) box.checked = false;
    for (const text of [offset, sector, skew, first]) text.value = "";
    shown.hidden = false;
    this.draw();
    shown.scrollIntoView();
  }

  // What was chosen, as options of a command line.
  options() {
    const { format, clean, half, ebcdic, offset, sector, skew, first } = this.parts;
    const order = skew.value.trim().split(/[\s,]+/).join(",");
    const valued = [
      ["offset", offset.value.trim()], ["sector", sector.value.trim()], ["skew", order], ["first", first.value.trim()]
    ];
    const flags = [["clean", clean], ["half", half], ["ebcdic", ebcdic]]
      .filter(([, box]) => box.checked)
      .map(([name]) => `--${name}`);
    return [
      `--format ${format.value}`, ...valued.filter(([, text]) => text).map(([name, text]) => `--${name} ${text}`),
      ...flags
    ].join(" ");
  }

  // Reads the container in the chosen format.
  draw() {
    if (!this.container) return;
    const { said, screen, insert } = this.parts, made = this.forth.unpack(this.container, this.options());
    this.blocks = made.wrong ? null : withFront(made);
    insert.disabled = !this.blocks;
    const size = `${this.name}, ${this.container.length.toLocaleString("en")} bytes`;
    if (made.wrong) said.textContent = `${size}: ${made.wrong}.`;
    else {
      const count = this.blocks.length / PAGE_SIZE;
      said.textContent = `${size}: ${count} screens${made.said && `; ${made.said}`}.`;
      screen.max = count - 1;
      screen.value = this.firstScreen(count);
    }
    this.survey();
    this.show();
  }

  pageAt(block) { return this.blocks.subarray(block * PAGE_SIZE, (block + 1) * PAGE_SIZE); }

  // The first screen that has something in it.
  firstScreen(count) {
    for (let block = 0; block < count; block++)
      if (linesOf(this.pageAt(block)).some((line) => line && /[^\xe5]/.test(line))) return block;
    return 0;
  }

  show() {
    const { preview, screen } = this.parts, block = Math.floor(Number(screen.value));
    const isThere = this.blocks && block >= 0 && block < this.blocks.length / PAGE_SIZE;
    preview.textContent = isThere
      ? linesOf(this.pageAt(block)).map((line, at) => `${String(at).padStart(2)} ${line}`).join("\n")
      : "";
  }

  // Reports on the screens as `./forth survey` does, for the Forth that a page begins with, and offers the dialect
  // that they need.
  survey() {
    const { report, dialect } = this.parts;
    const made = this.blocks ? this.forth.survey(this.name, this.blocks) : { report: "", dialect: 0 };
    this.best = DIALECTS[made.dialect];
    dialect.disabled = !this.best;
    report.textContent = made.report;
  }

  get forth() {
    if (!this.machine) {
      const { machine, layout } = this.page.session;
      this.machine = new Machine(machine.calls, layout);
      this.machine.load(DATA.image);
    }
    return this.machine;
  }

  // Loads the words of the dialect from its disk.
  async load() {
    const name = `dialect ${this.best}.blk`, [first] = screensOf(DATA.disks[name].text).screens;
    if (this.page.session.disk.name !== name && !(await this.page.work.putIn(name))) return;
    this.page.enter(`${first.block} LOAD`);
    await this.page.idle();
  }

  async insert() {
    const name = `${this.name.replace(/\.[^.]*$/, "")}.blk`;
    if (await this.page.work.insert(name, this.blocks.slice())) this.page.tab("screens");
  }
}
