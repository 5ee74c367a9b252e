// The second view: the data stack at each visible step, a column a step. A click goes to that step.
const COLUMNS = 120;
let shownFrom = -1, shownOf = null, most = 0;

function column(place) {
  const number = visible[place], [data] = stacks(number), [old] = place ? stacks(visible[place - 1]) : [data];
  const button = element("button"), item = element("li");
  let same = 0;
  while (same < data.length && same < old.length && data[same] === old[same]) same++;
  const low = data.length > most ? data.length - most + 1 : 0;
  for (let one = data.length - 1; one >= low; one--)
    button.append(element("span", cell(data[one]), one >= same && data !== old ? "new" : ""));
  if (low) button.append(element("small", `${low} more`));
  const name = steps[number][0] < 0 ? "end" : described(number).name;
  button.append(element("b", name), element("small", String(place + 1)));
  button.type = "button";
  button.tabIndex = -1;
  button.dataset.at = place;
  button.setAttribute(
    "aria-label", `step ${place + 1}, ${name}, stack ${data.slice(low).reverse().map(cell).join(" ") || "empty"}`);
  button.addEventListener("click", () => go(place));
  item.append(button);
  return item;
}

// How many cells a column has room for, above the word and the step's number.
function roomOf(list) {
  const rem = parseFloat(getComputedStyle(document.documentElement).fontSize);
  return Math.max(2, Math.floor((list.clientHeight - 3.6 * rem) / (1.6 * rem)));
}

// Makes the columns around the step, if others are needed, and marks the step's own column.
function showTime() {
  const wanted = Math.max(0, Math.min(at - COLUMNS / 2, visible.length - COLUMNS)), list = part("columns");
  const isThere = shownOf === visible && at >= shownFrom && at < shownFrom + COLUMNS &&
    list.dataset.hex === String(hex) && most === roomOf(list);
  if (!isThere) {
    most = roomOf(list);
    [shownFrom, shownOf, list.dataset.hex] = [wanted, visible, String(hex)];
    list.replaceChildren(...visible.slice(wanted, wanted + COLUMNS).map((_, place) => column(wanted + place)));
  }
  for (const button of list.querySelectorAll("button")) {
    if (Number(button.dataset.at) === at) button.setAttribute("aria-current", "step");
    else button.removeAttribute("aria-current");
  }
  const now = list.querySelector("[aria-current]").parentNode;
  list.scrollLeft = now.offsetLeft + now.offsetWidth / 2 - list.clientWidth / 2;
}

function changeView() {
  isTimed = !isTimed;
  document.querySelector("main").classList.toggle("timed", isTimed);
  part("time").hidden = !isTimed;
  show();
}
