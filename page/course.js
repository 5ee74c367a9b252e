// The course: its lessons, whose lines are typed by a click, and CHECK; and the lessons of a disk that has its own in
// the same form.

import { escapeHtml, withoutOk } from "./bytes.js";
import { DATA } from "./data.js";
import { linesOf } from "./disk.js";
import { builtIn } from "./editions.js";
import { typeLine } from "./start.js";

// The course's disk; a lesson's checker is so many screens after the pupil's.
export const COURSE = "course.blk", CHECKERS = 20;
const TASK = /^\( (.*?) \)$/;
// How much of a disk may have lessons, as `./forth83 judge` has it.
const MOST_OF_DISK = 8000000;

export class Course {
  constructor(page, parts) {
    Object.assign(this, { page, parts, at: -1, lessons: DATA.lessons });
    parts.lesson.addEventListener("change", () => this.choose(Number(parts.lesson.value)));
    parts.back.addEventListener("click", () => this.choose(this.at - 1));
    parts.on.addEventListener("click", () => this.choose(this.at + 1));
    parts.check.addEventListener("click", () => this.check());
    parts.disk.addEventListener("click", () => this.insert());
    parts.text.addEventListener("click", (event) => this.press(event.target.closest("button")));
  }

  get lesson() { return this.lessons[this.at]; }
  get isIn() { return this.page.session.disk.name === this.lesson.disk; }
  // Whether the pupil's screen of this lesson can be edited now.
  get isOpen() { return Boolean(this.lesson && this.lesson.screen && this.isIn); }

  get isDrawing() { return Boolean(this.lesson && this.lesson.disk === "draw.blk" && this.isIn); }

  // The lessons of the present disk come first, if it isn't one of the page's course.
  list() {
    const { disk } = this.page.session, isOwn = DATA.lessons.every((lesson) => lesson.disk !== disk.name);
    const title = this.lesson && this.lesson.title;
    this.lessons = [...(isOwn ? lessonsOf(this.page.session.machine, disk) : []), ...DATA.lessons];
    this.parts.lesson.replaceChildren(...this.lessons.map((lesson, at) => new Option(lesson.title, at)));
    this.go(Math.max(0, this.lessons.findIndex((lesson) => lesson.title === title)));
  }

  // Opens the lesson's disk, and loads its words.
  async insert() {
    if (this.lesson.disk === COURSE) await this.askName();
    if (!this.isIn && !(await this.page.work.putIn(this.lesson.disk))) return;
    this.page.send("1 LOAD");
    this.go(this.at);
  }

  // Asks once for a pupil's name, under which the work is kept and saved.
  async askName() {
    const { page } = this;
    if (page.work.name || (await page.work.setting("named"))) return;
    page.work.set("named", true);
    const name = await page.files.askForName(
      "Your name? Your work is kept under it, and files that you save begin with it. You may leave this empty.", "");
    if (name) await page.changeWork(name);
  }

  async type(button, line) {
    if (!this.isIn) await this.insert();
    await this.page.idle();
    typeLine(this.page, button, line);
  }

  // Checks the lesson with the page's checkers; if those on the disk differ, they are restored first.
  async check() {
    const { page, parts } = this;
    if (!this.isIn) await this.insert();
    await page.idle();
    this.sendCheck();
    await page.idle();
    parts.said.textContent = withoutOk(page.transcript.answer());
  }

  sendCheck() {
    if (this.restore()) {
      this.page.note("Screens with the checkers were changed on this disk. They have been put back.");
      this.page.send("1 LOAD", `${this.lesson.number} CHECK`);
    } else this.page.send(`${this.lesson.number} CHECK`);
  }

  // Restores changed checkers, in the screens before the first lesson's and 20 after each lesson's; returns whether
  // there were any.
  restore() {
    const { session } = this.page, { disk } = session;
    if (!DATA.disks[disk.name]) return false;
    const own = builtIn(disk.name), pupils = lessonsOf(session.machine, own).map((lesson) => lesson.screen);
    const changed = [];
    for (let block = 1; block < Math.min(own.count, disk.count); block++) {
      const text = linesOf(own.page(block)).join("\n");
      const isChecker = block < Math.min(...pupils) || (pupils.includes(block - CHECKERS) && !pupils.includes(block));
      if (isChecker && text.trim() && text !== linesOf(session.page(block)).join("\n")) changed.push(block);
    }
    if (changed.length) this.page.work.remember("checkers");
    for (const block of changed) session.put(block, own.page(block));
    return changed.length > 0;
  }

  press(button) {
    if (!button) return;
    if (button.dataset.line) this.type(button, button.dataset.line);
    if (button.dataset.film) this.page.showFilm(button.dataset.film);
  }

  // Shows a lesson by its place in the list.
  go(at) {
    const { lesson, text, disk, check, said } = this.parts, before = this.lesson;
    this.at = Math.max(0, Math.min(this.lessons.length - 1, Math.floor(at) || 0));
    lesson.value = this.at;
    if (before !== this.lesson || !text.innerHTML) Object.assign(text, { innerHTML: this.lesson.html, scrollTop: 0 });
    if (before !== this.lesson) said.textContent = "";
    disk.hidden = this.isIn && !this.lesson.isOwn;
    disk.textContent = this.isIn ? "Load the lessons: 1 LOAD" : `Put in ${this.lesson.disk}`;
    check.hidden = !this.lesson.screen;
    this.page.placeDesk();
    if (this.isOpen && before !== this.lesson && document.body.dataset.tab === "course")
      this.page.editor.go(this.lesson.screen);
  }

  choose(at) {
    this.go(at);
    this.page.remember("lesson", this.lesson.title);
  }

  // Shows the lesson of that title, if there is one.
  find(title) { this.go(this.lessons.findIndex((lesson) => lesson.title === title)); }
}

// The lessons that a disk has in its screens, in the order of their numbers, and what to do: the comments below a
// title. The library finds them as it judges a pupil who has written nothing.
export function lessonsOf(machine, disk) {
  const bytes = disk.bytes.subarray(0, MOST_OF_DISK);
  return [...machine.judge([DATA.image, new Uint8Array(0), bytes, bytes], 0)].map((lesson) => {
    const { number, screen } = lesson, lines = linesOf(disk.page(screen)), title = `${number}. ${lesson.title}`;
    const end = lines.findIndex((line, at) => at > 0 && !TASK.test(line));
    const tasks = lines.slice(1, end < 0 ? lines.length : end);
    const rows = tasks.map((line) => `<li>${escapeHtml(TASK.exec(line)[1])}</li>`).join("");
    const html = `<h2>${escapeHtml(title)}</h2><ul>${rows}</ul>` +
      `<p>Your screen is ${screen}. Write into it, and then choose CHECK.</p>`;
    return { number, title: `${title} (${disk.name})`, html, disk: disk.name, screen, isOwn: true };
  });
}
