// A class list: what pupils wrote for the lessons of a course, as the library judges it.

import { decode, element, encode, fromBase64 } from "./bytes.js";
import { COURSE, lessonsOf } from "./course.js";
import { DATA } from "./data.js";
import { builtIn } from "./editions.js";
import { Host, Shown } from "./host.js";
import { Machine, PAGE_SIZE } from "./machine.js";
import { diskOfText, isScreens, screensOf } from "./screens.js";

const MOST_TICKS_OF_LOADING = 30000000, TICKS_OF_SLICE = 1000000;
const SIGNS = { right: "✓", wrong: "✗", missing: "?", endless: "∞", empty: "·" };

export class ClassList {
  constructor(page, calls, parts) {
    Object.assign(this, { page, parts, rows: [], machine: new Machine(calls, page.session.layout) });
    parts.choose.addEventListener("click", () => parts.files.click());
    parts.files.addEventListener("change", () => this.check([...parts.files.files]));
    parts.csv.addEventListener("click", () => this.page.files.saveBlob("csv", new Blob([this.csv()])));
    parts.rows.addEventListener("click", ({ target }) => this.show(target.closest("button")));
    this.learn();
    const titles = ["file", ...this.taught.map(({ number }) => number), "right", "written"], head = element("tr");
    head.append(...titles.map((title) => element("th", String(title), { scope: "col" })));
    parts.head.replaceChildren(head);
  }

  // Whose lessons are checked: those of the disk that the page was made with, or else the course's.
  learn() {
    const own = lessonsOf(this.machine, builtIn(DATA.first));
    this.course = own.length ? DATA.first : COURSE;
    this.taught = own.length ? own : lessonsOf(this.machine, builtIn(COURSE));
  }

  // Checks files, one after the other, and shows each as soon as it is done.
  async check(files) {
    const { rows, said, csv, table } = this.parts;
    this.rows = [];
    rows.replaceChildren();
    table.hidden = false;
    for (const file of files) {
      said.textContent = `Checking ${file.name} …`;
      const result = await this.judged(new Uint8Array(await file.arrayBuffer()));
      const row = { name: file.name, when: new Date().toISOString().slice(0, 16).replace("T", " "), ...result };
      this.rows.push(row);
      rows.append(this.row(row));
    }
    said.textContent = `${files.length} ${files.length === 1 ? "file is" : "files are"} checked.`;
    csv.disabled = !files.length;
    this.parts.files.value = "";
  }

  // The results of a pupil's file, or { wrong }. Between two lessons the window has its turn.
  async judged(bytes) {
    const course = builtIn(this.course), blocks = blocksOfFile(bytes, course.count), results = [];
    if (!blocks) return { wrong: "neither blocks, nor a text of screens, nor a whole session" };
    this.image ??= await this.imageOfCourse();
    const texts = Object.entries(DATA.faults).map((said) => said.join(" ")).join("\n");
    for (const result of this.machine.judge([this.image, encode(texts), course.bytes, blocks], DATA.ticks)) {
      results.push(result);
      await new Promise((resolve) => setTimeout(resolve));
    }
    return { results };
  }

  // An image of a Forth that has loaded the course's checkers.
  async imageOfCourse() {
    const host = new Host(this.machine, new Shown(), builtIn(this.course));
    host.load(DATA.image, this.page.session.own);
    await host.through(TICKS_OF_SLICE);
    await host.line("1 LOAD", MOST_TICKS_OF_LOADING, TICKS_OF_SLICE);
    return this.machine.image(host.places.cold);
  }

  row({ name, results, wrong }) {
    const row = element("tr");
    row.append(element("th", name, { scope: "row" }));
    if (!results) {
      row.append(element("td", wrong, { colspan: this.taught.length + 2 }));
      return row;
    }
    row.append(...results.map(({ number, mark, text }) => {
      const cell = element("td", undefined, { class: mark, title: text });
      cell.append(element("button", SIGNS[mark], {
        type: "button",
        "aria-label": `${name}, lesson ${number}: ${mark}`,
        "data-message": `${name}, lesson ${number}, ${mark}: ${text}`
      }));
      return cell;
    }));
    const count = (wanted) => results.filter(({ mark }) => mark === wanted).length;
    row.append(element("td", String(count("right"))), element("td", String(results.length - count("empty"))));
    return row;
  }

  // Shows what the checker says of a lesson.
  show(button) {
    if (button) Object.assign(this.parts.message, { hidden: false, textContent: button.dataset.message });
  }

  csv() {
    const quoted = (text) => `"${text.replace(/"/g, '""')}"`;
    const head = ["file", ...this.taught.map(({ number }) => `lesson ${number}`), "right", "checked", "messages"];
    const lines = this.rows.map(
      ({ name, results = [], when }) =>
        [name, ...results.map(({ mark, word }) => (word ? `${mark} ${word}` : mark)),
         String(results.filter(({ mark }) => mark === "right").length), when,
         results.filter(({ mark }) => !["right", "empty"].includes(mark))
           .map(({ number, text }) => `${number} ${text}`)
           .join(" / ")]);
    return [head, ...lines].map((line) => line.map(quoted).join(",") + "\r\n").join("");
  }
}

// The blocks of a pupil's file: blocks, a text of screens or a session that a page saved; null for another file. COUNT
// is how many a text has.
function blocksOfFile(bytes, count) {
  const text = decode(bytes), isText = isScreens(text) && !screensOf(text).wrong;
  const blocks = isText ? diskOfText("", count, text).bytes : diskOfSession(text) || bytes;
  return blocks.length && blocks.length % PAGE_SIZE === 0 ? blocks : null;
}

function diskOfSession(text) {
  try {
    const { format, disk } = JSON.parse(text);
    return format === "forth83" && fromBase64(disk);
  } catch {
    return null;
  }
}
