// The tab with the film of a line: each step of your words, on a copy of the machine and of the disk. It is shown by
// the page of `./forth film`, whole, in a frame.

import { Book, MADE } from "./book.js";
import { decode, escapeHtml } from "./bytes.js";
import { DATA } from "./data.js";
import { Filming } from "./filming.js";
import { Machine } from "./machine.js";

export class Film {
  constructor(session, calls, parts, pressed) {
    Object.assign(this, { session, parts, data: null });
    this.machine = new Machine(calls, session.layout);
    parts.form.addEventListener("submit", (event) => {
      event.preventDefault();
      this.make(parts.line.value);
    });
    parts.frame.addEventListener("load", () => {
      parts.frame.contentDocument.addEventListener("keydown", pressed);
      this.size();
      if (this.parts.form.contains(document.activeElement)) parts.frame.contentWindow.focus();
      this.isShown = Boolean(this.data);
    });
    parts.full.hidden = !document.fullscreenEnabled;
    parts.full.addEventListener(
      "click", () => parts.frame.requestFullscreen().then(() => parts.frame.contentWindow.focus()));
  }

  // Types the line at the copy, tick by tick, and shows the film.
  async make(line, record = this.session.machine.copy()) {
    if (!this.session.waitsForLine) return this.say("The Forth is busy. Make the film when it waits for a line.");
    if (this.session.isForeign)
      return this.say(`${this.session.program} runs, and films are of the Forth's words. End it first.`);
    const film = new Filming(this.machine, this.session, line, record);
    this.isShown = false;
    await film.make(() => {});
    const { steps, frames } = film.calls;
    const none = `This line runs no word of yours${film.why}. A film shows the steps of your own words, ` +
      "and of what they call.";
    const calls = `${frames.length} ${frames.length === 1 ? "call" : "calls"}`;
    this.data = steps.length ? new Book(film, this.session).data() : null;
    this.say(steps.length ? `${steps.length} steps${film.why}, of ${calls}; each call counts its own.` : none);
    this.show(line);
  }

  show(line) {
    const { frame, full } = this.parts;
    frame.hidden = !this.data;
    full.disabled = !this.data;
    if (!this.data) return;
    const data = JSON.stringify(this.data).replace(/[&<>]/g, (letter) => `\\u00${letter.charCodeAt(0).toString(16)}`);
    const places = { TITLE: escapeHtml(this.data.name), LINE: escapeHtml(line), MADE: `<p>${MADE}</p>`, DATA: data };
    frame.srcdoc = decode(DATA.film).replace(/\{\{([A-Z]+)\}\}/g, (_, name) => places[name]);
  }

  // The film's letters are at least as large as the page's.
  size() {
    this.parts.frame.contentDocument.documentElement.style.setProperty(
      "--least", getComputedStyle(document.documentElement).fontSize);
  }

  say(text) { this.parts.said.textContent = text; }
}
