// What is printed: the visible steps as a table. As an exercise the data stack and the output are left blank, and the
// answers come on pages of their own.
const MOST_ROWS = 150, MOST_PRINTED = 12, MOST_LETTERS = 60;

// The cells of a row: the step, its address, the word, the stacks, the output.
function printed(row, isBlank, hasReturns) {
  const number = visible[row], step = steps[number], isEnd = step[0] < 0, [data, returns] = stacks(number);
  const line = element("tr");
  const indent = "  ".repeat(chain(step[1]).length - 1);
  const word = isEnd ? `end of ${wordName(step[1])}` : printedWord(step[0]);
  const add = (text, kind) => line.append(element("td", text, kind));
  add(String(row + 1));
  add(isEnd ? "" : unsigned(film.places[step[0]][0]));
  add(indent + word);
  add(isBlank && row ? "" : data.slice(-MOST_PRINTED).map(cell).join(" "), isBlank && !row ? "room given" : "room");
  if (hasReturns) add(printedReturns(step, returns), "room");
  add(isBlank ? "" : outputSoFar(step), isBlank ? "room" : "");
  return line;
}

// A word as the source has it; with a jump, also what it was compiled as.
function printedWord(place) {
  const source = spelled(place), as = token(place);
  return source === null || source.toUpperCase() === as.toUpperCase()
    ? as
    : film.places[place][3].startsWith("to ") ? `${source}  ${as}`
    : source;
}

function printedReturns(step, returns) {
  const labels = returnLabels(step), own = Math.max(ownReturns(step), returns.length - MOST_PRINTED);
  return returns.map((value, place) => (labels.has(place) ? labels.get(place).show(value) : cell(signed(value))))
    .slice(own)
    .join(" ");
}

// The output before a step; of a long one its end.
function outputSoFar(step) {
  const shown = text(film.begins, step[4]).replace(/^\n+/, "");
  return shown.length > MOST_LETTERS ? `… ${shown.slice(-MOST_LETTERS)}` : shown;
}

function table(isBlank, kind) {
  const made = element("table", undefined, kind), head = element("thead"), titles = element("tr");
  const body = element("tbody");
  const rows = visible.slice(0, MOST_ROWS);
  const hasReturns = !isBlank && rows.some((number) => stacks(number)[1].length > ownReturns(steps[number]));
  const names = [
    "step", "address", "the next word", "data stack before it, top at the right",
    ...(hasReturns ? ["return stack"] : []), "output so far"
  ];
  for (const title of names) titles.append(element("th", title));
  head.append(titles);
  rows.forEach((_, row) => body.append(printed(row, isBlank, hasReturns)));
  made.append(head, body);
  return made;
}

// A line for name and date.
function who() {
  const made = element("p", undefined, "who");
  made.append("Name", element("span"), "Date", element("span"));
  return made;
}

function sources() {
  const seen = new Set(visible.map((number) => frames[steps[number][1]][1]).filter((number) => number >= 0));
  return [...seen].map((number) => element("pre", film.words[number].source));
}

function fillSheet() {
  const isBlank = part("blank").checked, made = [...sources()];
  if (isBlank) made.unshift(who());
  if (isBlank)
    made.push(
      element("p", "What is on the data stack before each step, and what has been shown by then?"),
      table(true, "exercise"));
  if (isBlank) made.push(element("h2", "Answers", "answers"));
  made.push(table(false, ""));
  if (visible.length > MOST_ROWS) made.push(element("p", `The first ${MOST_ROWS} of ${visible.length} steps.`));
  part("sheet").replaceChildren(...made);
}
