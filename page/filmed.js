// The page that `./forth film` makes: the Forth runs in it without a person, and the page shows the film of the lines
// that it carries.

import { Book, MADE } from "./book.js";
import { decode } from "./bytes.js";
import { DATA } from "./data.js";
import { Disk } from "./disk.js";
import { Filming } from "./filming.js";
import { Host, Shown } from "./host.js";
import { Machine } from "./machine.js";
import { useLibrary } from "./screens.js";

const by = (id) => document.getElementById(id), { asked } = DATA;

const counted = (count, name) => `${count.toLocaleString("en")} ${name}`;

// Where the film was cut, and how to see more.
function cut({ calls, ticks }) {
  if (calls.steps.length >= asked.steps)
    return `The film was cut after ${counted(asked.steps, "steps")}; ./forth film with --steps N takes more.`;
  if (ticks >= asked.ticks)
    return `The film was cut after ${counted(asked.ticks, "ticks")}; ./forth film with --limit TICKS takes more.`;
  return "The film was cut after 1 MB of output.";
}

// What is said in place of a film.
const none = (film) => `This line did not run ${asked.name}. ${film.isCut ? cut(film) : ""} It showed:\n\n` +
  decode(film.output).trim();

function said(text) { by("source").textContent = text; }

async function begin() {
  const { instance } = await WebAssembly.instantiate(DATA.wasm, {}), view = Object.assign(new Shown(), { history: [] });
  const machine = new Machine(instance.exports, DATA.layout);
  const session = new Host(machine, view, new Disk(asked.disk, DATA.blocks));
  useLibrary(machine);
  session.load(DATA.image);
  const film = new Filming(new Machine(instance.exports, DATA.layout), session, asked.line, machine.copy(), asked);
  const progress = () => `${counted(film.ticks, "ticks")} so far, ${counted(film.calls.steps.length, "steps")}`;
  await film.make(() => said(`The line runs: ${progress()} of ${asked.name}.`));
  if (!film.calls.steps.length) return said(none(film));
  const data = new Book(film, session).data();
  by("film").textContent = JSON.stringify(data);
  by("made").append(...[MADE, asked.claim, ...(film.isCut ? [cut(film)] : [])].map(
    (text) => Object.assign(document.createElement("p"), { textContent: text })));
  document.body.append(Object.assign(document.createElement("script"), { textContent: by("player").textContent }));
}

begin().catch((error) => said(`The film can't be made: ${error.message}. It needs a browser of 2021 or later.`));
