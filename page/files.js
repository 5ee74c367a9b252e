// Files and disks: what is opened, dropped on the page, saved and printed, and the disks under their names.

import { decode, element, encode } from "./bytes.js";
import { DATA } from "./data.js";
import { Disk } from "./disk.js";
import { PAGE_SIZE } from "./machine.js";
import { by } from "./parts.js";
import { isScreens, screensOf } from "./screens.js";
import { sessionOf } from "./work.js";

const IMAGE = "FTH83IMG", SESSION = '{"format":"forth83"', MOST_TEXT = 200000, MOST_LINE = 127;
const SOURCE = /\.(f|fs|fth|4th|fr)$/i;

// Whether a file is blocks, and not the image of a disk of another system, which may have whole blocks too.
const isBlocks = (name, bytes, machine) =>
  bytes.length > 0 && bytes.length % PAGE_SIZE === 0 && (/\.blk$/i.test(name) || machine.guess(bytes) === "blocks");

const linesOfText = (text) => text.replace(/\r\n?/g, "\n").replace(/\n$/, "").split("\n");

// Whether a text is lines for the Forth, and not a listing or the like, by the length of its lines, or by its name.
function isTyped(name, bytes, text, machine) {
  const isText = bytes.length > 0 && bytes.length < MOST_TEXT && !text.includes("\0") &&
    machine.guess(bytes) === "blocks";
  return isText && (SOURCE.test(name) || linesOfText(text).every((line) => encode(line).length <= MOST_LINE));
}

const asFileName = (name) => name.replace(/[/\\]/g, "-").slice(0, 60);

export class Files {
  constructor(page) { this.page = page; }

  get session() { return this.page.session; }
  get work() { return this.page.work; }

  // Prints all screens that aren't empty.
  print() {
    const { session } = this, sheets = [];
    for (let block = 0; block < session.disk.count; block++) {
      const lines = decode(session.page(block).map((byte) => byte || 32)).match(/.{1,64}/gs) || [];
      if (!lines.some((line) => line.trim())) continue;
      const sheet = element("section", undefined, { class: "sheet" });
      const numbered = lines.map((line, at) => `${String(at).padStart(2)} ${line.trimEnd()}`);
      sheet.append(element("h2", `${session.disk.name}, screen ${block}`), element("pre", numbered.join("\n")));
      sheets.push(sheet);
    }
    by("sheets").replaceChildren(...sheets);
    document.body.classList.add("printing");
    print();
    document.body.classList.remove("printing");
  }

  // Opens the files that are dropped on the page.
  dropFile(event) {
    const types = event.dataTransfer ? [...event.dataTransfer.types] : [];
    if (!types.includes("Files")) return;
    event.preventDefault();
    if (event.type === "drop") this.openAll([...event.dataTransfer.files]);
  }

  // Opens files, one after the other.
  async openAll(files) {
    by("file").value = "";
    for (const file of files) {
      await this.open(file);
      await this.page.idle();
    }
  }

  // Files: blocks are another disk, images run, screens as text go onto this disk, other texts are included.
  async open(file) {
    const bytes = new Uint8Array(await file.arrayBuffer()), text = decode(bytes), { machine } = this.session;
    if (this.session.isRunning || !this.work.isOurs) this.work.refuse();
    else if (text.startsWith(SESSION)) await this.resume(file.name, text);
    else if (decode(bytes.subarray(0, IMAGE.length)) === IMAGE) this.runImage(file.name, bytes);
    else if (isScreens(text)) await this.merge(file.name, text);
    else if (isBlocks(file.name, bytes, machine)) await this.work.insert(asFileName(file.name), bytes);
    else if (isTyped(file.name, bytes, text, machine)) this.include(file.name, bytes);
    else this.openOldDisk(file.name, bytes);
  }

  // Interprets a text. Its name stays known to INCLUDE.
  include(name, bytes) {
    const known = asFileName(name).replace(/["\p{C}]/gu, "'");
    this.session.texts.files.set(known, bytes);
    this.page.enter(`INCLUDE ${/ /.test(known) ? `"${known}"` : known}`);
  }

  // Neither blocks nor a text for the Forth: it may be a disk of another system, or a listing.
  openOldDisk(name, bytes) {
    if (!bytes.length) return this.page.note(`${name} is empty.`);
    this.page.note(
      `${name} looks like an old disk or a listing. Disks shows it; choose its format there, and put it in.`);
    this.page.tab("disk");
    this.page.oldDisk.open(name, bytes);
  }

  // Runs the program of an image.
  runImage(name, image) {
      if (!this.work.isOurs || !this.session.runImage(name, image))
        return this.page.note(`${name} is an image that this machine can't run: it is damaged, or not complete.`);
    this.page.tab("forth", true);
    by("line").focus();
  }

  // Saves an image of the Forth with your words.
  async saveImage() {
      const name = await this.askForName(
        "Which word does the program start with? Leave this empty for the Forth itself.", "");
    if (name === null) return;
    const made = this.session.saved(name);
    if (made.wrong) this.page.note(`No image was saved: ${made.wrong}.`);
    else this.saveBlob("img", new Blob([made.image]), name.toLowerCase());
  }

  // The whole work as a file, to continue elsewhere.
  async saveAll() {
    const whole = { ...(await this.work.whole()), texts: this.page.transcript.mark() };
    this.saveBlob("forth", new Blob([JSON.stringify(whole)]));
    this.work.saved = Date.now();
    this.page.changed();
  }

  async resume(name, text) {
    const kept = sessionOf(text), isIn = kept && (await this.work.adopt(name, kept));
    if (isIn === false) return;
    if (!isIn) return this.page.note(`${name} isn't a whole session that this page can go on with.`);
    this.page.transcript.back(kept.texts || []);
    this.page.note(`This is ${name} now, with its words, its stack and its screens. Undo brings yours back.`);
  }

  async merge(name, text) {
    const read = screensOf(text);
    if (read.wrong) return this.page.note(`${name}: ${read.wrong}.`);
    if (!(await this.work.merge(name, read.screens))) return;
    this.page.note(
      `${name}: ${read.screens.length} ${read.screens.length === 1 ? "screen is" : "screens are"} on the disk now.`);
  }

  async newDisk() {
    const { work } = this;
    const name = await this.askForName(
      "Name of the new disk of 64 screens:", work.disks.has("my.blk") ? work.freeName("my.blk") : "my.blk");
    if (name) await work.insert(name, Disk.blank(name, 64).bytes);
  }

  async renameDisk() {
    const { disk, disks } = this.work, name = await this.askForName(`New name of ${disk.name}:`, disk.name);
    if (!name || name === disk.name) return;
    if (disks.has(name)) this.page.note(`There is a disk ${name} already.`);
    else this.work.rename(name);
  }

  // Removes a disk of the user's; restores one of the page's own.
  async removeDisk() {
    const { name } = this.work.disk, isOwn = Boolean(DATA.disks[name]);
    const question = isOwn
      ? `Put ${name} back as the page brings it? Your changes to its screens will be gone; Undo brings them back.`
      : `Remove ${name} from this browser? Undo brings it back.`;
    if (await this.page.ask(question, [isOwn ? "Put it back" : "Remove it"])) await this.work.remove();
  }

  async askForName(question, given) {
    const name = await this.page.ask(question, ["OK"], { given });
    return name === null ? null : asFileName(name.trim());
  }

  save(ending, content) {
    this.session.settle();
    this.saveBlob(ending, new Blob([content()]));
  }

  saveBlob(ending, blob, name) {
    const link = document.createElement("a");
    const stem = name ? asFileName(name) : this.session.disk.name.replace(/\.(blk|txt)$/i, "");
    link.href = URL.createObjectURL(blob);
    link.download = `${this.work.name ? `${this.work.name} ` : ""}${stem}.${ending}`;
    link.click();
    setTimeout(() => URL.revokeObjectURL(link.href), 10000);
  }
}
