// What was typed and shown, as texts of these kinds: typed, shown, fault, note (the page's own) and screen (where a
// program moves the cursor).

import { element } from "./bytes.js";
import { Terminal, needsScreen } from "./terminal.js";

const MOST_SHOWN = 60000, MOST_LINES_SHOWN = 1500, SMALLEST = 12, LISTED = 69, WIDTH_OF_LETTER = 0.605;

// The end of a text: not so many characters, nor so many lines, that drawing them takes long.
function tail(text) {
  text = text.slice(-MOST_SHOWN);
  let at = text.length;
  for (let lines = 0; lines <= MOST_LINES_SHOWN && at > 0; lines++) at = text.lastIndexOf("\n", at - 1);
  return at > 0 ? text.slice(at + 1) : text;
}

export class Transcript {
  constructor(place) {
    this.place = place;
    this.texts = []; // [kind, text]
    this.waiting = [];
    this.decoder = new TextDecoder();
    this.started = 0;
    this.terminal = null;
  }

  // Shows a text; what comes in quick succession is drawn at once.
  add(kind, text) {
    if (!text) return;
    if (!this.waiting.length) requestAnimationFrame(() => this.draw());
    const last = this.waiting[this.waiting.length - 1];
    if (last && last[0] === kind) last[1] = tail(last[1] + text);
    else this.waiting.push([kind, tail(text)]);
    if (this.waiting.length > 500) this.waiting.splice(0, 100);
  }

  show(bytes, isTyped) { this.add(isTyped ? "typed" : "shown", this.decoder.decode(bytes, { stream: true })); }
  note(text) { this.add("note", (this.isAtLineStart() ? "" : "\n") + text + "\n"); }

  isAtLineStart() {
    const last = this.waiting[this.waiting.length - 1] || this.texts[this.texts.length - 1];
    return !last || last[1].endsWith("\n");
  }

  // Adds the waiting pieces to the texts.
  draw() {
    for (const [kind, text] of this.waiting.splice(0)) {
      if (kind === "note" || kind === "fault") this.terminal = null;
      if (kind !== "note" && kind !== "fault" && (this.terminal || needsScreen(text))) this.drawScreen(text);
      else this.drawText(kind, text);
    }
    this.trim();
    this.toEnd();
  }

  // A program that moves the cursor has a screen of its own, up to the next line of the Forth's.
  drawScreen(text) {
    if (!this.terminal) {
      this.terminal = new Terminal();
      this.append("screen", "\n");
    }
    this.terminal.take(text);
    this.replace(this.texts.length - 1, this.terminal.text());
  }

  drawText(kind, text) {
    text = text.replace(/\r\n/g, "\n").replace(/\x1b\[[0-9;]*[A-Za-z]/g, "").replace(/[\x00\x07\x0b\x0c\x1b]/g, "");
    while (text.includes("\b") && !text.startsWith("\b")) text = text.replace(/[^\b]\b/, "");
    for (; text.startsWith("\b"); text = text.slice(1)) this.rub();
    if (text) this.append(kind, text.replace(/\r/g, "\n"));
  }

  toEnd() { this.place.scrollTop = this.place.scrollHeight; }

  // Makes the letters so small that a line of LIST fits, if they are still readable then.
  fit() {
    const { place } = this, room = place.clientWidth - 20, { fontSize } = getComputedStyle(document.documentElement);
    const most = 0.95 * parseFloat(fontSize);
    const fitting = Math.min(most, room / (LISTED * WIDTH_OF_LETTER));
    if (room > 0) place.style.fontSize = `${Math.max(Math.min(most, SMALLEST), fitting)}px`;
    this.toEnd();
  }

  append(kind, text) {
    const last = this.texts[this.texts.length - 1];
    if (last && last[0] === kind && kind !== "typed" && kind !== "screen") return this.lengthen(last, text);
    this.texts.push([kind, text]);
    this.place.append(element("span", text, { class: kind }));
  }

  // Adds to a text. What was shown before stays as it is, so that a screen reader doesn't read it again.
  lengthen(last, text) {
    const whole = last[1] + text;
    if (tail(whole) !== whole) return this.replace(this.texts.length - 1, tail(whole));
    last[1] = whole;
    this.place.lastChild.append(text);
  }

  replace(at, text) {
    this.texts[at][1] = text;
    this.place.childNodes[at].textContent = text;
  }

  rub() {
    const last = this.texts[this.texts.length - 1];
    if (last && last[0] !== "typed") this.replace(this.texts.length - 1, last[1].slice(0, -1));
  }

  trim() {
    let size = this.texts.reduce((sum, [, text]) => sum + text.length, 0);
    while (size > MOST_SHOWN && this.texts.length > 1) {
      size -= this.texts.shift()[1].length;
      this.place.firstChild.remove();
      this.started--;
    }
    if (size > MOST_SHOWN) this.replace(0, tail(this.texts[0][1]));
  }

  // Begins the line that is typed now: what follows belongs to it, and not to the screen of a program before it.
  begin(isAnswer) {
    this.draw();
    if (!isAnswer) this.terminal = null;
    this.started = this.texts.length;
  }

  // What was shown since the last line was typed, without that line.
  answer() {
    this.draw();
    return this.texts.slice(Math.max(0, this.started))
      .filter(([kind]) => kind !== "typed" && kind !== "note")
      .map(([, text]) => text)
      .join("")
      .trim();
  }

  text() {
    this.draw();
    return this.place.textContent;
  }

  clear() {
    this.texts = [];
    this.waiting = [];
    this.terminal = null;
    this.place.textContent = "";
  }

  mark() {
    this.draw();
    return this.texts.map((one) => one.slice());
  }
  back(texts) {
    this.clear();
    for (const [kind, text] of texts) {
      this.texts.push([String(kind), String(text)]);
      this.place.append(element("span", String(text), { class: String(kind) }));
    }
    this.toEnd();
  }
}
