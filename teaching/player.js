// Keys, buttons, a presenter's remote, and playing.
const SPEEDS = () => [...part("speed").options].map((one) => one.value);
let timer = null;

function go(place) {
  const old = at;
  at = Math.max(0, Math.min(visible.length - 1, place));
  if (at === old + 1) showMoved(Math.min(MOST_MOTION, timer ? 500 / Number(part("speed").value) : MOST_MOTION));
  else show();
}

// Any key or click ends the playing.
function goByHand(place) {
  pause();
  go(place);
}

function pause() {
  clearInterval(timer);
  timer = null;
  part("play").textContent = "play";
}

function playOn() {
  if (at < visible.length - 1) go(at + 1);
  if (at === visible.length - 1) pause();
}

function play() {
  if (timer) return pause();
  if (at === visible.length - 1) go(0);
  timer = setInterval(playOn, 1000 / Number(part("speed").value));
  part("play").textContent = "pause";
}

function changeSpeed(by) {
  const all = SPEEDS(), place = all.indexOf(part("speed").value) + by;
  part("speed").value = all[Math.max(0, Math.min(all.length - 1, place))];
  keepPlaying();
}

function keepPlaying() {
  if (!timer) return;
  pause();
  play();
}

// The step that the page's address names after #.
function goToMark() {
  const wanted = Number(location.hash.slice(1));
  goByHand(Number.isInteger(wanted) && wanted > 0 ? wanted - 1 : 0);
}

function refold(kept) {
  pause();
  seeSteps(kept);
  show();
  fillSheet();
}

function unfold() {
  const number = visible[at], called = child[number];
  if (called < 0) return goByHand(at + 1);
  open[called] = true;
  refold(number + 1);
}

function fold() {
  const frame = steps[visible[at]][1];
  if (frames[frame][0] < 0) return;
  open[frame] = false;
  refold(child.indexOf(frame));
}

function foldAll() {
  const kept = visible[at], unfolds = !open.every((one) => one);
  frames.forEach((frame, number) => { open[number] = unfolds || frame[0] < 0; });
  refold(kept);
}

function rebase() {
  hex = !hex;
  show();
  fillSheet();
}

function blacken() { part("black").hidden = !part("black").hidden; }

const keys = {
  ArrowRight: () => goByHand(at + 1), ArrowLeft: () => goByHand(at - 1), ArrowDown: unfold, ArrowUp: fold,
  PageDown: () => goByHand(at + 1),
  PageUp: () => goByHand(at - 1),
  Home: () => goByHand(0),
  End: () => goByHand(visible.length - 1),
  " ": play,
  "+": () => changeSpeed(1),
  "-": () => changeSpeed(-1),
  a: foldAll,
  t: changeView,
  x: rebase,
  p: () => print(),
  b: blacken,
  ".": blacken,
  s: () => part("system").click(), "?": () => { part("help").open = !part("help").open; },
};
const shifted = {
  ArrowRight: () => goByHand(at + 10),
  PageDown: () => goByHand(at + 10),
  ArrowLeft: () => goByHand(at - 10),
  PageUp: () => goByHand(at - 10),
};
const SCROLLING = new Set(["ArrowUp", "ArrowDown", "PageUp", "PageDown", "Home", "End"]);

// Whether a key is for what has the focus: the space bar for a button, the arrows for a choice, and for a box that
// doesn't fit.
function isForFocus({ target, key }) {
  if (!target.closest) return false;
  if (target.closest("select")) return key !== "Escape";
  if (key === " " || key === "Enter") return Boolean(target.closest("button, summary, input[type=checkbox]"));
  const box = SCROLLING.has(key) && target.closest(".scrolls");
  return Boolean(box) && (box.scrollHeight > box.clientHeight + 1);
}

function press(event) {
  const key = event.key.length === 1 ? event.key.toLowerCase() : event.key;
  const act = (event.shiftKey && shifted[key]) || (Object.hasOwn(keys, key) ? keys[key] : null);
  if (!act || event.ctrlKey || event.altKey || event.metaKey || isForFocus(event)) return;
  event.preventDefault();
  if (!part("black").hidden && act !== blacken) blacken();
  act();
}

const buttons = {
  first: "Home",
  back: "ArrowLeft",
  forth: "ArrowRight",
  last: "End",
  into: "ArrowDown",
  out: "ArrowUp",
  all: "a",
  base: "x",
  paper: "p",
  play: " ",
  view: "t", black: "b",
};
for (const [id, key] of Object.entries(buttons)) part(id).addEventListener("click", () => keys[key]());
document.addEventListener("keydown", press);
part("slider").addEventListener("input", () => goByHand(Number(part("slider").value)));
part("speed").addEventListener("change", keepPlaying);
part("blank").addEventListener("change", fillSheet);
part("system").addEventListener("change", show);
takeSnapshots();
seeSteps(0);
goToMark();
window.addEventListener("hashchange", goToMark);
window.addEventListener("resize", () => { if (isTimed) showTime(); });
fillSheet();
