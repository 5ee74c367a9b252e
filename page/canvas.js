// The canvas that the words of the disk draw.blk draw on: 320 by 200 points of 16 colors, in 32 blocks; and their
// tones.

import { DATA } from "./data.js";
import { SYSTEM } from "./cells.js";
import { PAGE_SIZE } from "./machine.js";

const WIDE = 320, HIGH = 200, ROW = WIDE / 2, BLOCKS = 32, TONES = 1000, VARIABLE = 2, MOST_SECONDS = 10;

export class Canvas {
  constructor(page, parts) {
    Object.assign(this, { page, parts, here: -1, tones: null });
    this.image = new ImageData(WIDE, HIGH);
    parts.save.addEventListener("click", () => this.save());
    parts.try.addEventListener("click", () => this.try());
    parts.lines.addEventListener("click", ({ target }) => target.dataset.line && page.send(target.dataset.line));
  }

  get session() { return this.page.session; }

  // The first block of the canvas, or null if there is no variable CANVAS or the disk does not have the whole canvas.
  first() {
    const { machine, disk } = this.session, here = machine.cell(SYSTEM.dp);
    if (here !== this.here) {
      const found = this.session.tokenOf("CANVAS");
      Object.assign(this, { here, place: found !== null && machine.cell(found) === VARIABLE ? found + 2 : null });
    }
    const first = this.place === null ? null : machine.cell(this.place);
    return first !== null && first + BLOCKS <= disk.count ? first : null;
  }

  // Called often: draws if the canvas is visible, and plays a new tone.
  look() {
    const first = this.first();
    this.play(first);
    const { tab } = document.body.dataset;
    const isSeen = tab === "canvas" || (tab === "course" && this.page.course.isDrawing);
    if (!isSeen || this.isAsked) return;
    this.isAsked = true;
    requestAnimationFrame(() => {
      this.isAsked = false;
      this.draw(this.first());
    });
  }

  // The blocks, as buffers and the disk have them.
  bytes(first) {
    const bytes = new Uint8Array(BLOCKS * PAGE_SIZE), { machine, disk } = this.session;
    bytes.set(disk.bytes.subarray(first * PAGE_SIZE, (first + BLOCKS) * PAGE_SIZE));
    for (const { block, bytes: own } of machine.buffers)
      if (block !== null && block >= first && block < first + BLOCKS) bytes.set(own, (block - first) * PAGE_SIZE);
    return bytes;
  }

  draw(first) {
    const { none, picture, save, lines } = this.parts;
    none.hidden = first !== null;
    picture.hidden = save.hidden = lines.hidden = first === null;
    if (first === null) return;
    const bytes = this.bytes(first), { data } = this.image;
    for (let at = 0; at < ROW * HIGH; at++) {
      this.point(data, 8 * at, bytes[at] >> 4);
      this.point(data, 8 * at + 4, bytes[at] & 15);
    }
    picture.getContext("2d").putImageData(this.image, 0, 0);
  }

  point(data, at, color) {
    const [red, green, blue] = DATA.palette[color];
    data[at] = red;
    data[at + 1] = green;
    data[at + 2] = blue;
    data[at + 3] = 255;
  }

  // If the count of tones is new, plays the last one. An empty canvas has the count 0.
  play(first) {
    if (first === null) return void (this.tones = null);
    const block = first + BLOCKS - 1, page = this.session.page(block);
    const cell = (at) => page[TONES + at] + 256 * page[TONES + at + 1];
    const before = this.tones;
    this.tones = cell(0);
    if (before !== null && before !== this.tones && this.tones !== 0)
      this.sound(cell(2), Math.min(MOST_SECONDS, cell(4) / 1000));
  }

  sound(hertz, seconds) {
    const Audio = window.AudioContext || window.webkitAudioContext;
    if (!Audio) return;
    this.audio = this.audio || new Audio();
    const from = Math.max(this.audio.currentTime, this.until || 0), tone = this.audio.createOscillator();
    const volume = this.audio.createGain();
    this.until = from + seconds;
    tone.frequency.value = hertz;
    volume.gain.value = 0.1;
    tone.connect(volume).connect(this.audio.destination);
    tone.start(from);
    tone.stop(this.until);
  }

  // Opens the disk with the words for the canvas, and draws something.
  async try() {
    if (this.session.disk.name !== "draw.blk" && !(await this.page.work.putIn("draw.blk"))) return;
    this.page.send("1 LOAD 8 LOAD ROSE");
  }

  save() {
    this.parts.picture.toBlob((blob) => this.page.files.saveBlob("png", blob));
  }
}
