"use strict";
// Keys and pointer of a map: the chosen word shows what it is, and its chain is drawn.
const space = "http://www.w3.org/2000/svg";
const drawings = [...document.querySelectorAll(".wide, .narrow")];

function made(kind, values, text) {
  const one = document.createElementNS(space, kind);
  for (const [name, value] of Object.entries(values)) one.setAttribute(name, value);
  if (text !== undefined) one.textContent = text;
  return one;
}

// The words of the same image.
const beside = (word) => [...word.parentNode.querySelectorAll(".word")];

function drawChain(word) {
  const all = new Map(beside(word).map((one) => [one.dataset.at, one])), chained = new Set();
  for (let one = word; one && !chained.has(one.dataset.at); one = all.get(one.dataset.link))
    chained.add(one.dataset.at);
  for (const arc of word.parentNode.querySelectorAll(".link"))
    arc.classList.toggle("on", chained.has(arc.dataset.from));
}

function describe(word) {
  const box = word.getBBox(), lines = word.dataset.about.split("|");
  const width = 7.4 * Math.max(...lines.map((line) => line.length)) + 14;
  const group = word.closest(".wide, .narrow").querySelector(".about");
  const limit = word.ownerSVGElement.viewBox.baseVal.width;
  const x = Math.max(2, Math.min(box.x, limit - width - 4)), y = box.y + box.height + 4;
  group.replaceChildren(made("rect", { x, y, width, height: 17 * lines.length + 8, rx: 4 }),
    ...lines.map((line, number) => made("text", { x: x + 7, y: y + 17 * (number + 1) - 1 }, line)));
}

function choose(word) {
  drawChain(word);
  describe(word);
}

function follow(word) {
  const before = beside(word).find((one) => one.dataset.at === word.dataset.link);
  if (before) before.focus();
}

function step(word, by) {
  const all = beside(word), next = all[Math.max(0, Math.min(all.length - 1, by(all.indexOf(word), all.length)))];
  next.focus();
}

const keys = {
  ArrowRight: (word) => step(word, (at) => at + 1), ArrowDown: (word) => step(word, (at) => at + 1),
  ArrowLeft: (word) => step(word, (at) => at - 1), ArrowUp: (word) => step(word, (at) => at - 1),
  PageDown: (word) => step(word, (at) => at + 20), PageUp: (word) => step(word, (at) => at - 20),
  Home: (word) => step(word, () => 0), End: (word) => step(word, (at, count) => count - 1), Enter: follow,
};

function first() {
  const drawing = drawings.find((one) => getComputedStyle(one).display !== "none");
  const words = drawing ? drawing.querySelectorAll(".word") : [];
  return words[words.length - 1];
}

document.addEventListener("keydown", (event) => {
  const act = keys[event.key];
  if (!act || event.ctrlKey || event.altKey || event.metaKey) return;
  const word = document.activeElement && document.activeElement.closest
    ? document.activeElement.closest(".word")
    : null;
  if (!word && !first()) return;
  event.preventDefault();
  if (word) act(word); else first().focus();
});
for (const kind of ["focusin", "mouseover"]) {
  document.addEventListener(kind, (event) => {
    const word = event.target.closest ? event.target.closest(".word") : null;
    if (word) choose(word);
  });
}
