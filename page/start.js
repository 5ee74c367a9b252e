// The start page: three doors, and lines to click. Lines of lessons are typed here, too.

import { element } from "./bytes.js";

// Types the line of a button, and shows below it what the Forth shows.
export async function typeLine(page, button, line) {
  const shown = button.nextElementSibling;
  page.send(line);
  await page.idle();
  if (shown && shown.matches("pre")) shown.remove();
  button.after(element("pre", page.transcript.answer() || "…", { class: "got" }));
}

export class Start {
  constructor(page, { rose, lesson, old, lines }) {
    rose.addEventListener("click", () => (page.tab("canvas"), page.canvas.try()));
    lesson.addEventListener("click", () => page.tab("course"));
    old.addEventListener("click", () => (page.tab("disk"), page.oldDisk.parts.choose.click()));
    lines.addEventListener("click", ({ target }) => target.dataset.line && typeLine(page, target, target.dataset.line));
  }
}
