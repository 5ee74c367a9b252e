// Search in the pages that tools/make-site made: SECTIONS of index.js has of each its place, its titles and its text.
"use strict";

const MOST = 30;

// The sections that have all these words, those that have them in their titles first.
function found(words, sections) {
  const asked = words.toLowerCase().split(/\s+/).filter((word) => word);
  if (!asked.length) return [];
  const having = sections.filter(
    ({ title, text }) => asked.every((word) => `${title} ${text}`.toLowerCase().includes(word)));
  const isTitled = ({ title }) => asked.every((word) => title.toLowerCase().includes(word));
  return [...having.filter(isTitled), ...having.filter((one) => !isTitled(one))];
}

function show(input, list) {
  const all = found(input.value, SECTIONS);
  list.replaceChildren(...all.slice(0, MOST).map(({ place, title }) => {
    const item = document.createElement("li"), link = document.createElement("a");
    link.href = ROOT + place;
    link.textContent = title;
    item.append(link);
    return item;
  }));
  if (input.value.trim() && !all.length) list.append("No page has these words.");
}

if (typeof document !== "undefined") {
  const input = document.getElementById("search"), list = document.getElementById("found");
  input.addEventListener("input", () => show(input, list));
} else module.exports = { found };
