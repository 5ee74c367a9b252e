// The film's data, and which step is shown. All texts come into the page as texts, never as HTML.
const film = JSON.parse(document.getElementById("film").textContent);
const EVERY = 256;
const part = (id) => document.getElementById(id);
const steps = film.steps, frames = film.frames;
const bytes = Uint8Array.from(atob(film.output), (letter) => letter.charCodeAt(0));
const open = frames.map((frame) => frame[3] === 1);
const endings = new Map(film.ends.map(([call, how]) => [call, how]));
const faults = new Map(film.ends.map(([call, , place]) => [call, place]));
const child = steps.map((step, number) => {
  const next = steps[number + 1];
  return next && next[1] !== step[1] && frames[next[1]][0] === step[1] ? next[1] : -1;
});
const snapshots = [];
let visible = [], at = 0, hex = film.base === 16, isTimed = false;

function element(name, text, kind) {
  const made = document.createElement(name);
  if (text !== undefined) made.textContent = text;
  if (kind) made.className = kind;
  return made;
}

function changed(cells, change) {
  cells.length = change[0];
  for (let place = 1; place < change.length; place++) cells.push(change[place]);
}

function takeSnapshots() {
  const data = [], returns = [];
  steps.forEach((step, number) => {
    changed(data, step[2]);
    changed(returns, step[3]);
    if (number % EVERY === 0) snapshots.push([data.slice(), returns.slice()]);
  });
}

// Both stacks before a step.
function stacks(number) {
  const from = Math.floor(number / EVERY);
  const [data, returns] = snapshots[from].map((cells) => cells.slice());
  for (let step = from * EVERY + 1; step <= number; step++) {
    changed(data, steps[step][2]);
    changed(returns, steps[step][3]);
  }
  return [data, returns];
}

// Which steps are visible: those of calls that are unfolded, each in one that is.
function seeSteps(kept) {
  const seen = [];
  frames.forEach((frame, number) => seen.push(frame[0] < 0 || (open[number] && seen[frame[0]])));
  visible = [];
  at = 0;
  steps.forEach((step, number) => {
    if (!seen[step[1]]) return;
    if (number <= kept) at = visible.length;
    visible.push(number);
  });
  part("slider").max = Math.max(0, visible.length - 1);
}

const word = (frame) => (frames[frame][1] < 0 ? null : film.words[frames[frame][1]]);

// A call's name. Of a word that DOES> made it is that word's own, and after it the word that made it.
function wordName(frame) {
  const name = word(frame) ? word(frame).name : "?", made = frames[frame][5];
  return made ? `${made} (made by ${name})` : name;
}

function chain(frame) {
  const found = [];
  for (let one = frame; one >= 0; one = frames[one][0]) found.unshift(one);
  return found;
}

// The address at which a step is; after the end of a call, the address at which it ended.
function placeOf(number) {
  const step = steps[number];
  if (step[0] >= 0) return step[0];
  const failed = faults.get(step[1]);
  if (failed >= 0) return failed;
  for (let before = number - 1; before >= 0; before--)
    if (steps[before][1] === step[1] && steps[before][0] >= 0) return steps[before][0];
  return -1;
}

// Of each word its definition, with the word of the source that each address of its thread was compiled from.
const plainNames = new Set(film.places.map((place) => place[2].toUpperCase()));
const definitions = film.words.map((one, number) => {
  const found = one.source ? definitionOf(one.source, one.name) : null;
  if (!found) return null;
  const thread = film.places.filter((place) => place[1] === number).map((place) => ({ at: place[0], name: place[2] }));
  const places = placesIn(found, thread, one.name, (name) => plainNames.has(name.toUpperCase()));
  return places && { ...found, places };
});

// The definition that a place is in, and the number of its word there; -1 if that is not known.
function sourceAt(place) {
  const found = place >= 0 && film.places[place][1] !== null ? definitions[film.places[place][1]] : null;
  const now = found ? found.places.get(film.places[place][0]) : undefined;
  return [found, now === undefined ? -1 : now];
}

// What a place's token was compiled from, as the source has it; or null.
function spelled(place) {
  const [found, now] = sourceAt(place);
  return now < 0 ? null : found.text.slice(found.words[now].from, found.words[now].to).replace(/\s+/g, " ");
}

function unsigned(value) {
  return hex ? ((value + 65536) % 65536).toString(16).toUpperCase().padStart(4, "0") : String((value + 65536) % 65536);
}

function cell(value) { return hex ? unsigned(value) : String(value); }

// A token as the thread has it: its name, and the number, the address or the text after it.
function token(place) {
  const [, , name, taken] = film.places[place];
  if (!taken) return name;
  const to = /^to (\d+)$/.exec(taken);
  if (to && name !== '(.")' && name !== '(ABORT")') return `${name} to ${unsigned(Number(to[1]))}`;
  return name === "(LIT)" && hex ? `${name} ${unsigned(Number(taken))}` : `${name} ${taken}`;
}

function text(from, to) {
  const shown = new TextDecoder().decode(bytes.subarray(from, to));
  return shown.replace(/[^\n\P{Cc}]/gu, "·");
}

// Where the return stack has cells of the word itself, above those of the Forth that called it.
function ownReturns(step) { return Math.max(0, frames[chain(step[1])[0]][2] + 1); }
