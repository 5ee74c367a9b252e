// What is shown of a step.
const MOST_CELLS = 60, MOST_SHOWN = 48, PATH_ENDS = 4;

// What words of structures do when they run, by the word of the source.
const PLAIN = {
  IF: "Takes a flag. If it is 0, jumps to the words after ELSE, or else to THEN.",
  ELSE: "The first branch is done: jumps to THEN.",
  BEGIN: "The loop begins.", WHILE: "Takes a flag. If it is 0, the loop ends: jumps to the word after REPEAT.",
  REPEAT: "Jumps back to BEGIN.",
  AGAIN: "Jumps back to BEGIN.",
  UNTIL: "Takes a flag. If it is 0, jumps back to BEGIN.",
  DO: "Takes the limit and the first index, and begins the loop.",
  "?DO": "Takes the limit and the first index. If they are equal, skips the loop.",
  LOOP: "Adds 1 to the index. If it isn't at the limit yet, jumps back to the word after DO.",
  "+LOOP":
    "Takes a number and adds it to the index. Jumps back to the word after DO, until the index crosses the limit.",
  OF: "Compares the two top numbers. If they differ, jumps to the word after ENDOF.",
  ENDOF: "Jumps to the word after ENDCASE.",
  ENDCASE: "Drops the number that CASE looked at.", ";": "The word ends. The word that called it continues.",
  "DOES>": "Ends the making of a new word, which will run what follows.", RECURSE: "Calls the word itself.",
};
// What a number in a thread is, by the word of the source that compiled it.
const LITERAL_OF = {
  "[']": "Puts the address of this word on the stack.",
  ASCII: "Puts the code of this character on the stack."
};

function marked(found, now, kind) {
  const outer = around(found.words, now), made = [];
  let from = 0;
  found.words.forEach((one, number) => {
    if (number !== now && !outer.has(number)) return;
    const span = element("span", found.text.slice(one.from, one.to), number === now ? `now ${kind}` : "around");
    if (number === now) span.setAttribute("aria-current", "step");
    made.push(found.text.slice(from, one.from), span);
    from = one.to;
  });
  return [...made, found.text.slice(from)];
}

// Scrolls a box so that a part of it is in its middle, if it doesn't all fit.
function center(box, one) {
  if (one) box.scrollTop = one.offsetTop + one.offsetHeight / 2 - box.clientHeight / 2;
}

function showSource(number) {
  const step = steps[number], place = placeOf(number), [found, now] = sourceAt(place);
  const current = place < 0 ? frames[step[1]][1] : film.places[place][1];
  const shown = film.words[current] || { name: "?", source: "", from: "" };
  const kind = step[0] < 0 && faults.get(step[1]) >= 0 ? "failed" : "";
  const made = frames[step[1]][5] ? `${wordName(step[1])}` : shown.name;
  part("name").textContent = shown.from ? `${made}, ${shown.from === "SEE" ? "as SEE shows it" : shown.from}` : made;
  part("source").replaceChildren(...(found && now >= 0 ? marked(found, now, kind) : [shown.source]));
  center(part("source"), part("source").querySelector(".now"));
}

function showThread(number) {
  const step = steps[number], here = step[0], place = placeOf(number);
  const current = place < 0 ? frames[step[1]][1] : film.places[place][1], failed = here < 0 ? faults.get(step[1]) : -1;
  const rows = [...film.places.entries()].filter(([one, it]) => (it[1] !== null && it[1] === current) || one === here);
  const made = rows.map(([one, it]) => {
    const row = element("li", undefined, one === here ? "here" : "");
    row.append(element("i", unsigned(it[0])), element("span", token(one)));
    if (one === here) row.setAttribute("aria-current", "step");
    if (one === failed) {
      row.className = "failed";
      row.append(element("em", "the fault came here"));
    }
    return row;
  });
  part("thread").replaceChildren(...made);
  center(part("thread"), part("thread").querySelector(".here, .failed"));
}

// In a sentence what a word of a structure does, or a number; an empty text for others.
function plainly(source, as) {
  const key = (source || as).toUpperCase(), first = key.split(" ")[0];
  if (as.startsWith("(LIT)")) return LITERAL_OF[first] || (first === "?DO" ? "" : "Puts this number on the stack.");
  if (as === "EXIT") return PLAIN[";"];
  return Object.hasOwn(PLAIN, key) ? PLAIN[key] : "";
}

// The next word as the source has it, what it was compiled as, and what it does.
function described(number) {
  const place = steps[number][0], source = spelled(place), as = token(place);
  const [effect, says] = film.says[film.places[place][4]];
  const isSame = source === null || source.toUpperCase() === as.toUpperCase();
  const [name, compiled] = isSame ? [as, ""] : [source, `compiled as ${as}`];
  return { name, as: compiled, effect, says: plainly(source, as) || says };
}

function showNext(number) {
  const step = steps[number], box = part("next");
  if (step[0] < 0) {
    box.replaceChildren(element("b", "end"), document.createTextNode(` ${endings.get(step[1]) || ""}`));
    return;
  }
  const { name, as, effect, says } = described(number), line = element("div");
  line.append("next: ", element("b", name), ` ${effect}`);
  const parts = [line, element("small", says || " ")];
  if (as) parts.push(element("small", as));
  if (child[number] >= 0) {
    parts.push(element("small", open[child[number]] ? "a call, unfolded" : "a call, folded: ↓ unfolds it"));
  }
  if (at === visible.length - 1 && (film.is_cut || endings.size)) {
    parts.push(
      element("small", film.is_cut ? "The film ends here; the run continued." : endings.get(chain(step[1])[0]) || ""));
  }
  box.replaceChildren(...parts);
}

// A stack as cells, the top first; those that the step before did not have are new.
function showStack(place, cells, before, labels, lowest) {
  const list = document.querySelector(`#${place} ol`), made = [];
  const first = Math.max(0, cells.length - MOST_CELLS, part("system").checked ? 0 : lowest);
  let same = 0;
  while (same < cells.length && same < before.length && cells[same] === before[same]) same++;
  if (cells.length <= first) made.push(element("li", "empty", "none"));
  for (let number = cells.length - 1; number >= first; number--) {
    const one = element(
      "li",
      place === "data" || labels.get(number) === undefined
        ? cell(cells[number])
        : labels.get(number).show(cells[number]));
    one.dataset.cell = number;
    if (number >= same && before !== cells) one.classList.add("new");
    if (number === cells.length - 1) one.classList.add("top");
    if (labels.has(number)) one.append(element("small", labels.get(number).text));
    if (number < lowest) one.classList.add("outer");
    made.push(one);
  }
  if (cells.length - first >= MOST_CELLS && first > lowest) made.push(element("li", `${first} more below`, "none"));
  list.replaceChildren(...made);
  list.scrollTop = 0;
  const count = Math.max(0, cells.length - (part("system").checked ? 0 : lowest));
  document.querySelector(`#${place} h2`).textContent = `${place === "data" ? "Data stack" : "Return stack"}: ${count}`;
}

// What cells of the return stack are: addresses to go back to, and what a counted loop keeps there.
function returnLabels(step) {
  const labels = new Map(
    chain(step[1]).map((one) => [frames[one][2], { text: `back to ${frames[one][4]}`, show: unsigned }]));
  const kept = [["end of loop", unsigned], ["limit", cell], ["index", cell]];
  for (const base of film.loops[step[5]])
    kept.forEach(([text, show], number) => labels.set(base + number, { text, show: (value) => show(signed(value)) }));
  return labels;
}

function signed(value) { return value > 32767 ? value - 65536 : value; }

function showOutput(number, before) {
  const box = part("output"), old = Math.min(steps[before][4], steps[number][4]);
  box.replaceChildren(text(film.begins, old), element("b", text(old, steps[number][4])));
  box.scrollTop = box.scrollHeight;
}

// The bytes of a variable or an array before a step.
function contents(one, number) {
  const now = one.bytes.slice();
  for (const [step, offset, ...values] of one.changes) {
    if (step > number) break;
    values.forEach((value, place) => { now[offset + place] = value; });
  }
  return now;
}

// The cells, or bytes, of a variable or an array: as many as fit, around what has changed.
function cellsOf(one, now, old) {
  const size = one.is_bytes || one.bytes.length % 2 ? 1 : 2, made = [], count = now.length / size;
  const value = (all, place) => (size === 1 ? all[place] : signed(all[2 * place] | all[2 * place + 1] << 8));
  const isNew = (place) => value(now, place) !== value(old, place);
  const change = Array.from({ length: count }, (_, place) => place).find(isNew) || 0;
  const first = count > MOST_SHOWN ? Math.max(0, Math.min(count - MOST_SHOWN, change - MOST_SHOWN / 2)) : 0;
  for (let place = first; place < Math.min(count, first + MOST_SHOWN); place++) {
    const span = element(
      "span",
      size === 1 && hex
        ? value(now, place).toString(16).toUpperCase().padStart(2, "0")
        : size === 1 ? String(value(now, place))
        : cell(value(now, place)),
      isNew(place) ? "new" : "");
    span.title = `${one.name}, at ${unsigned(one.address + size * place)}`;
    made.push(span);
  }
  if (first || count > MOST_SHOWN)
    made.push(element("small", `${first} to ${Math.min(count, first + MOST_SHOWN) - 1} of ${count}`));
  if (size === 1 && now.some((byte) => byte > 32))
    made.push(element("q", new TextDecoder("latin1").decode(Uint8Array.from(now)).replace(/[^ -~]/g, "·")));
  return made;
}

// The variables and arrays of the screens that the film touches.
function showMemory(number, before) {
  part("memory").hidden = !film.memory.length;
  part("cells").replaceChildren(...film.memory.map((one) => {
    const group = element("div"), name = element("dt", one.name), cells = element("dd");
    name.append(element("small", unsigned(one.address)));
    cells.append(...cellsOf(one, contents(one, number), contents(one, before)));
    group.append(name, cells);
    return group;
  }));
  const changed = part("cells").querySelector(".new");
  if (changed) center(part("cells"), changed);
}

// The calls that the step is in; of many the first one and the last ones.
function showPath(frame) {
  const names = chain(frame).map(wordName), most = PATH_ENDS + 2;
  const left = names.length - PATH_ENDS - 1;
  if (names.length > most) names.splice(1, left, `… ${left} calls …`);
  part("path").textContent = names.length > 1 || names[0] !== film.name ? names.join(" › ") : "";
}

// The line that was typed, or the screen's line that was loaded, with its word that the step is in; a film of the page
// knows these.
function showLine(frame) {
  const line = film.lines && film.lines[frames[chain(frame)[0]][6]];
  if (!line) return;
  const [where, source, from, to] = line;
  part("where").textContent = where;
  part("line").replaceChildren(source.slice(0, from), element("b", source.slice(from, to)), source.slice(to));
}

// The step as a sentence, for screen readers.
function say(number, data) {
  const step = steps[number];
  const next = step[0] < 0 ? `The end. ${endings.get(step[1]) || ""}` : `Next: ${described(number).name}.`;
  const cells = data.length ? data.slice(-8).reverse().map(cell).join(", ") : "empty";
  const shown = ` Output: ${text(film.begins, step[4]).trim().slice(-80) || "nothing yet"}.`;
  part("said").textContent = `Step ${at + 1} of ${visible.length}. ${next} Data stack, top first: ${cells}.${shown}`;
}

function showButtons(number) {
  part("slider").value = at;
  part("slider").setAttribute("aria-valuetext", `step ${at + 1} of ${visible.length}`);
  part("count").textContent = `step ${at + 1} of ${visible.length}`;
  part("into").disabled = child[number] < 0;
  part("out").disabled = frames[steps[number][1]][0] < 0;
  part("all").textContent = open.every((one) => one) ? "fold all" : "unfold all";
  part("all").disabled = frames.every((frame) => frame[0] < 0);
  part("base").textContent = hex ? "decimal" : "hexadecimal";
  part("view").setAttribute("aria-pressed", String(isTimed));
}

function show() {
  const number = visible[at], before = at ? visible[at - 1] : number;
  const step = steps[number], [data, returns] = stacks(number);
  const [oldData, oldReturns] = at ? stacks(before) : [data, returns];
  showLine(step[1]);
  showPath(step[1]);
  showSource(number);
  showThread(number);
  showNext(number);
  showStack("data", data, oldData, new Map(), 0);
  showStack("returns", returns, oldReturns, returnLabels(step), ownReturns(step));
  showMemory(number, before);
  showOutput(number, before);
  if (isTimed) showTime();
  showButtons(number);
  say(number, data);
}
