// Cells that move from one step to the next: SWAP crosses two, ROT turns three. Who prefers reduced motion sees none
// of it.
const MOST_MOTION = 450;

// Of words that move cells: how many of the top cells they take, and from which of these, the top being 0, those come
// that they leave, the new top first.
const CELL_MOVES = {
  DUP: [1, [0, 0]],
  DROP: [1, []],
  SWAP: [2, [1, 0]],
  OVER: [2, [1, 0, 1]],
  ROT: [3, [2, 0, 1]],
  "2DUP": [2, [0, 1, 0, 1]],
  "2DROP": [2, []],
  "2SWAP": [4, [2, 3, 0, 1]],
  "2OVER": [4, [2, 3, 0, 1, 2, 3]],
  "2ROT": [6, [4, 5, 0, 1, 2, 3]],
  "?DUP": [1, [0, 0]],
  NIP: [2, [0]],
  TUCK: [2, [0, 1, 0]],
};

// From which cell of a stack each cell of it comes, by the step's word: numbers from the bottom, null for what is new.
function origins(name, before, after) {
  let [takes, leaves] = Object.hasOwn(CELL_MOVES, name) ? CELL_MOVES[name] : [0, []];
  if (name === "?DUP" && after.length === before.length) leaves = [0];
  if (name === "ROLL" || name === "PICK") return afterNumber(name, before, after);
  if (takes > before.length || before.length - takes + leaves.length !== after.length) [takes, leaves] = [0, []];
  return after.map((value, place) => {
    if (leaves.length && place >= before.length - takes) return before.length - 1 - leaves[after.length - 1 - place];
    return place < before.length && before[place] === value ? place : null;
  });
}

// The same of ROLL and PICK, which take the number of the cell.
function afterNumber(name, before, after) {
  const from = before.length - 2 - before[before.length - 1], top = after.length - 1;
  return after.map((_, place) => (place === top ? from : name === "ROLL" && place >= from ? place + 1 : place));
}

const isStill = matchMedia("(prefers-reduced-motion: reduce)");

// Moves a cell from where it was to its place. A cell that rises over others moves in a bow, so that one can see them
// cross.
function fly(one, from, time) {
  const to = one.getBoundingClientRect(), [x, y] = [from.left - to.left, from.top - to.top];
  if (!x && !y) return;
  const bow = y > 1 ? -0.35 * to.width : 0;
  one.style.zIndex = y > 1 ? 1 : 0;
  one.animate(
    [
      { transform: `translate(${x}px, ${y}px)` }, { transform: `translate(${x / 2 + bow}px, ${y / 2}px)` },
      { transform: "none" }
    ],
    { duration: time, easing: "ease-in-out" });
}

// Fades in a new cell.
function appear(one, time) {
  one.animate([{ opacity: 0, transform: "scale(.7)" }, { opacity: 1, transform: "none" }], { duration: time });
}
