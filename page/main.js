// Starts the page.

import { Canvas } from "./canvas.js";
import { ClassList } from "./class.js";
import { Course } from "./course.js";
import { DATA } from "./data.js";
import { Editor } from "./editor.js";
import { Film } from "./film.js";
import { Manual } from "./manual.js";
import { Machine } from "./machine.js";
import { MemoryMap } from "./map.js";
import { OldDisk } from "./olddisk.js";
import { Page } from "./page.js";
import { by, parts } from "./parts.js";
import { useLibrary } from "./screens.js";
import { Session } from "./session.js";
import { Start } from "./start.js";
import { Store } from "./store.js";
import { Transcript } from "./transcript.js";

async function begin() {
  const { instance } = await WebAssembly.instantiate(DATA.wasm, {}), calls = instance.exports;
  useLibrary(new Machine(calls, DATA.layout));
  const page = new Page(new Transcript(by("transcript")), await Store.open(DATA.place));
  page.session = new Session(calls, DATA.layout, DATA.image, page);
  page.session.work = page.work;
  page.editor = new Editor(
    page.session,
    parts(
      "screen-text", "screen-gutter", "screen-mark", "screen-colors", "screen-number", "screen-count", "screen-back",
      "screen-on", "screen-shadow", "screen-load", "screen-copy", "screen-paste", "screen-insert", "screen-earlier",
      "screen-later", "screen-move", "screen-index", "screen-said", "screen-find", "screen-found", "screen-whole",
      "screen-next", "screen-instead", "screen-replace", "screen-all"));
  page.film = new Film(
    page.session, calls, parts("film-form", "film-line", "film-said", "film-full", "film-frame"),
    (event) => page.pressAnywhere(event));
  page.start = new Start(page, parts("door-rose", "door-lesson", "door-old", "start-lines"));
  page.map = new MemoryMap(
    page, parts("map-bar", "map-parts", "map-words", "map-fold", "map-others", "map-none", "map-again", "map-said"));
  page.canvas = new Canvas(page, parts("canvas-picture", "canvas-none", "canvas-save", "canvas-try", "canvas-lines"));
  page.oldDisk = new OldDisk(
    page,
    parts(
      "old-choose", "old-file", "old-format", "old-clean", "old-half", "old-ebcdic", "old-offset", "old-sector",
      "old-skew", "old-first", "old-said", "old-report", "old-screen", "old-preview", "old-insert", "old-dialect",
      "old-shown"));
  page.course = new Course(
    page,
    parts("course-lesson", "course-text", "course-check", "course-back", "course-on", "course-said", "course-disk"));
  page.classList = new ClassList(
    page, calls,
    parts(
      "class-choose", "class-files", "class-said", "class-table", "class-head", "class-rows", "class-message",
      "class-csv"));
  page.manual = new Manual(parts("words-sought", "words-table"), (word) => page.take(word));
  await page.begin();
  Object.assign(window, { page, ready: performance.now() }); // for those who look inside, and for tests
}

begin().catch((error) => {
  by("transcript").textContent = `The page can't start: ${error.message}. It needs a browser of 2021 or later.`;
});
