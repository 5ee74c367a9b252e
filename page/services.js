// What words of the machine ask their host for: a function for each service of commands/served/table.py, as
// commands/served/services.py has them. What it returns: WAITS if a person is needed first, MOVED if the machine goes
// on elsewhere, or a promise of whether it is done.

import { decode, signed } from "./bytes.js";
import { DATA } from "./data.js";
import { COLUMNS, linesOf } from "./disk.js";
import { builtIn } from "./editions.js";
import { FAULTS, named, placeLines, plain, trimmedEnd } from "./faults.js";
import { CODES, SYSTEM } from "./cells.js";
import { hasThread, PAGE_SIZE, Refused } from "./machine.js";
import { endOfComment, FIRST_TEXT, skipping } from "./texts.js";

export const WAITS = Symbol("a person is needed"), MOVED = Symbol("the machine goes on elsewhere");
const MOST_TEXTS = 15, NOT_COLON = 6, PRIMITIVES = [5, 255], WIDEST = 64;
const ARROW_CODES = "ABCDHF", FIRST_ARROW = 257, UNKNOWN_KEY = 256, ESCAPE_KEY = 269, ESC = 27;
const INTERPRETERS = ["BY-NAMES", "BY-ROWS", "BY-DIALECT", "INTERPRET"];

// A service is refused: what is said, and the fault that the word takes.
export class Refusal extends Error {
  constructor(said, fault = FAULTS.said) { super(said).fault = fault; }
}

const say = (host, text) => host.view.say(text);
// The same, at the beginning of a line.
const sayLine = (host, text) => say(host, (host.view.isAtLineStart() ? "" : "\n") + text);

function screen(host, block) {
  if (block >= host.disk.count) throw new Refusal(`there is no screen ${block} in ${host.disk.name}`, 7);
  return host.page(block);
}

const lineBytes = (page, line) => trimmedEnd(
  page.slice(COLUMNS * line, COLUMNS * (line + 1)).map((byte) => byte || 32));
const allLines = (page) => Array.from({ length: PAGE_SIZE / COLUMNS }, (_, line) => plain(lineBytes(page, line)));
const numbered = (line, at) => `${String(at).padStart(2)} ${line}`.trimEnd();
const listed = (host, block) => `Screen ${block}\n${allLines(screen(host, block)).map(numbered).join("\n")}\n`;

// The blocks from one to another, which a word left.
function blocksFrom(host) {
  const [first, last] = host.numbers(2);
  return Array.from({ length: Math.max(first, last) - first + 1 }, (_, at) => first + at);
}

// The next word of the input: as it is typed, and as the machine finds it.
function foundWord(host) {
  const typed = host.word();
  if (!typed) throw new Refusal("", FAULTS.missing);
  const name = host.lookUp(typed);
  if (name !== null) return [typed, name];
  const { offset } = host.input();
  host.set(SYSTEM.toIn, offset - new TextEncoder().encode(typed).length - 1);
  throw new Refusal("", FAULTS.unknown);
}

// What a word is that is no colon word.
function kindOfWord({ machine }, name) {
  const token = machine.token(name), code = machine.cell(token), body = machine.cell(token + 2);
  if (code === CODES.variable) return `a variable at ${token + 2}, holding ${body}`;
  if (code === CODES.constant) return `a constant, ${body}`;
  if (code === CODES.vocabulary) return `a vocabulary at ${token + 2}`;
  if (code >= PRIMITIVES[0] && code <= PRIMITIVES[1]) return `primitive ${code}`;
  const maker = machine.words().filter((one) => one.word < code).pop();
  return maker ? `made by ${maker.name}, with ${body} first` : `code ${code}`;
}

const isOfSystem = ({ machine }, word) => word < machine.cell(SYSTEM.fence);

// A screen of the system, or its lines that have a name.
function systemSource(block, part = "") {
  const [path, text] = DATA.system[block] ||
    ["screens/kernel.txt", linesOf(builtIn("forth.blk").page(block)).join("\n").trimEnd()];
  const lines = text.split("\n").filter((line) => line.includes(part));
  return text ? `${[`${path}, screen ${block}`, ...lines].join("\n")}\n` : "a word of the system\n";
}

// Where a word was made.
export function placeOf(host, { view, word }) {
  const line = host.textLine(view);
  if (line) return line.name ? `${line.name}:${line.number}` : "line typed";
  return isOfSystem(host, word) ? "a word of the system" : view ? `screen ${view}` : "typed";
}

// The words of vocabularies, the newest first: of those of the same name only the newest of the first vocabulary that
// has it.
export function visible({ machine }, vocabularies) {
  const headers = new Map(machine.words().map((one) => [one.header, one])), found = new Map();
  for (const head of vocabularies.flatMap((one) => [one, one + 2, one + 4, one + 6]))
    for (let link = machine.cell(head), left = headers.size; link && left; link = machine.cell(link), left--) {
      const one = headers.get(link);
      if (one && !one.isHidden && !found.has(one.name)) found.set(one.name, one);
    }
  return [...found.values()].sort((a, b) => b.header - a.header);
}

function inLines(names) {
  const lines = [""];
  for (const name of names) {
    if (lines[lines.length - 1] && lines[lines.length - 1].length + name.length >= WIDEST) lines.push("");
    lines[lines.length - 1] += `${name} `;
  }
  return `${lines.join("\n")}\n`;
}

function dumped(machine, address, count) {
  const rows = [];
  for (let at = 0; at < count; at += 16) {
    const bytes = Array.from({ length: Math.min(16, count - at) }, (_, next) => machine.byte(address + at + next));
    const place = ((address + at) & 0xffff).toString(16).toUpperCase().padStart(5);
    const hex = bytes.map((byte) => `${byte.toString(16).toUpperCase().padStart(2, "0")} `).join("");
    rows.push(
      `${place} ${hex}${bytes.map((byte) => (byte >= 32 && byte <= 126 ? String.fromCharCode(byte) : ".")).join("")}`);
  }
  return `${rows.join("\n")}\n`;
}

// What the manual says of a word.
function helpFor({ machine }, name) {
  const immediate = machine.words().some((one) => one.isImmediate && one.name === name.toUpperCase())
    ? ", immediate"
    : "";
  const found = DATA.manual.filter(([one]) => one === name || one === name.toUpperCase());
  if (!found.length)
    return `the manual has no word ${name}; WORDS ${name} lists the names that contain it, ` +
      "and the tab Words searches in what words do";
  const said = (html) => html.replace(" Example: ", "\n  example: ").replace(/<[^>]*>/g, "")
    .replace(/&lt;/g, "<").replace(/&gt;/g, ">").replace(/&amp;/g, "&");
  const shown = ([one, effect, section, html]) => `${one}  ${effect}${immediate}\n  ${said(html)}\n  in: ${section}`;
  return found.reverse().map(shown).join("\n");
}

// The words from the innermost one to that which the line has: a return address comes after a call, in a word's thread.
function callers(machine, words) {
  const threads = new Set(words.filter(hasThread).map((one) => one.word)), ip = machine.field("ip"), found = [];
  for (const address of [ip, ...machine.returns.reverse()]) {
    const inside = words.filter((one) => one.word < address).pop();
    if (!inside || !hasThread(inside) || !(address === ip || threads.has(machine.cell(address - 2)))) continue;
    if (INTERPRETERS.includes(inside.name)) break;
    found.push(inside);
  }
  return found;
}

// The line of the last fault, run again up to it: on a machine of its own, unseen, with what it was given then.
function runAgain({ before, ticks, log }, machine) {
  let left = ticks - 1;
  machine.restore(before);
  const run = () => {
    for (let how = "-"; left > 0 && "-w".includes(how); ) {
      const stop = how === "w" ? machine.move("w") : machine.run(Math.min(left, 1000000));
      ({ how } = stop);
      left -= stop.ticks;
    }
  };
  for (const [kind, body] of log) {
    if (left < 0) break;
    machine.move(kind, body);
    if (kind !== "c") run();
  }
  return machine;
}

function* linesWith(host) {
  const wanted = decode(host.rest()).trim();
  if (!wanted) throw new Refusal("", FAULTS.missing);
  for (const block of blocksFrom(host))
    for (const [at, line] of allLines(screen(host, block)).entries())
      if (line.includes(wanted)) yield `screen ${block} line ${at} ${line}\n`;
}

export const SERVICES = {
  // Texts

  // A comment doesn't end in its line of a text, or in its screen; its place is on the stack.
  UNCLOSED(host) {
    const { block } = host.input(), line = host.textLine(block);
    if (line && host.texts.takesUntil(block, endOfComment)) return;
    const [begins] = host.numbers(1);
    host.set(SYSTEM.toIn, begins);
    throw new Refusal(line ? "this ( is not closed" : `the ( of line ${Math.floor(begins / COLUMNS)} is not closed`);
  },
  INCLUDE(host) {
    if (host.opened.length > MOST_TEXTS) throw new Refusal("too many files at once");
    const { name, first, count } = host.roomForTexts().open(host.word(), host.machine.cell(SYSTEM.blk));
    host.opened.push(name);
    host.lookAt(Array.from({ length: count }, (_, at) => host.textLine(first + at))
      .map((line) => [named(line), decode(line.text)]));
    host.results(first, first + count);
  },
  // INCLUDE, but of a text that was read it leaves no lines.
  REQUIRE(host) {
    const { offset } = host.input(), name = host.word(), isRead = host.texts.isRead(name);
    if (!isRead) {
      host.set(SYSTEM.toIn, offset);
      return SERVICES.INCLUDE(host);
    }
    host.opened.push(name);
    host.results(0, 0);
  },
  // [IF] or [ELSE] leaves out what follows, up to its [ELSE] or [THEN].
  SKIP(host) {
    const { block, text, offset } = host.input(), endOf = skipping(), end = endOf(text.subarray(offset));
    if (!end && !(host.textLine(block) && host.texts.takesUntil(block, endOf))) throw new Refusal("it has no [THEN]");
    host.set(SYSTEM.toIn, end ? offset + end : text.length);
  },
  EVALUATE(host) {
    const [address, size] = host.numbers(2);
    if (size > PAGE_SIZE) throw new Refusal(`EVALUATE takes at most ${PAGE_SIZE} bytes`);
    host.set(
      DATA.door.second,
      size
        ? host.roomForTexts().evaluated(Uint8Array.from({ length: size }, (_, at) => host.machine.byte(address + at)))
        : 0);
  },
  INCLUDED(host) {
    const name = host.opened.pop() || "";
    if (host.machine.cell(SYSTEM.state)) throw new Refusal(`${name} ended inside ${host.machine.words().pop().name}`);
  },
  RELOAD(host) {
    host.word();
    throw new Refusal("RELOAD reads no file in a page; open the text again, in the tab Disks");
  },

  // Screens

  LIST(host) { sayLine(host, listed(host, host.numbers(1)[0])); },
  INDEX(host) {
    sayLine(host, "");
    for (const block of blocksFrom(host))
      say(host, `${`${String(block).padStart(5)} ${allLines(screen(host, block))[0]}`.trimEnd()}\n`);
  },
  SEARCH(host) {
    sayLine(host, "");
    for (const line of linesWith(host)) say(host, line);
  },
  RETYPE(host) {
    const [line] = host.numbers(1);
    host.view.retype(`${line} PUT ${decode(lineBytes(screen(host, host.machine.cell(SYSTEM.scr)), line))}`);
  },
  EDIT(host) {
    const [block] = host.numbers(1);
    screen(host, block);
    host.view.edit(block, null);
  },
  ED(host) {
    const block = host.machine.cell(SYSTEM.scr);
    screen(host, block);
    host.view.edit(block, host.faulty && host.faulty.block === block ? host.faulty : null);
  },
  SAVE(host) { host.settle(); },
  // The block that was used last: the line of a text that runs has a buffer, too, and it is not meant.
  UPDATE(host) {
    const used = host.machine.buffers.find((one) => one.block !== null && one.block < FIRST_TEXT);
    if (!used) throw new Refusal("no block is in a buffer");
    host.results(used.block, 0);
  },
  "BYE-WITH"(host) {
    host.numbers(1);
    host.settle();
  },
  EMPTY({ machine, view }) {
    const changed = machine.buffers.filter((one) => one.updated).map((one) => one.block).sort((a, b) => a - b);
    if (changed.length)
      view.say(`dropped the unsaved changes of screen ${changed.map((block) => `${block} `).join("")}`);
  },

  "NO-LINE"(host) {
    throw new Refusal(`line ${signed(host.numbers(1)[0])} does not exist, 0 to 15 do; nothing was done`);
  },
  "NO-FIT"(host) {
    const { text, offset } = host.input();
    throw new Refusal(
      `the line has ${trimmedEnd(text.subarray(offset)).length} characters, ${COLUMNS} fit; nothing was done`);
  },
  "LINE-LOST"() { throw new Refusal("line 15 is not blank; it would be lost"); },
  // Shows the line of the word that asks, after its place.
  PLACE(host) {
    const input = host.input(), [where, line] = placeLines(input, host.textLine(input.block), 0, false);
    say(host, `${where === undefined ? "a line that was typed" : [where, line].join(": ")}\n`);
  },

  // Words and memory

  SEE(host) {
    const [typed, name] = foundWord(host);
    try {
      sayLine(host, `${host.machine.see(name)}\n`);
    } catch (error) {
      if (!(error instanceof Refused)) throw error;
      if (error.cause !== NOT_COLON)
        throw new Refusal(`${typed} cannot be shown: ${DATA.see[error.cause] || "it has no source"}`);
      sayLine(host, `${kindOfWord(host, name)}\n`);
    }
  },
  VIEW(host) {
    const name = foundWord(host)[1], view = host.machine.viewOf(name), line = host.textLine(view);
    if (line) sayLine(host, `${placeOf(host, { view })}\n${plain(line.text)}\n`);
    else if (isOfSystem(host, host.machine.token(name))) sayLine(host, systemSource(view));
    else if (!view) say(host, "typed, not on a screen ");
    else {
      host.set(SYSTEM.scr, view);
      sayLine(host, listed(host, view));
    }
  },
  LOCATE(host) {
    const [typed, name] = foundWord(host), view = host.machine.viewOf(name), line = host.textLine(view);
    if (line) sayLine(host, `${placeOf(host, { view })}: ${plain(line.text)}\n`);
    else if (isOfSystem(host, host.machine.token(name))) sayLine(host, systemSource(view, name));
    else if (!view) say(host, "typed, not on a screen ");
    else {
      const at = allLines(screen(host, view)).findIndex((text) => text.includes(name) || text.includes(typed));
      host.set(SYSTEM.scr, view);
      host.view.edit(view, { block: view, byte: COLUMNS * Math.max(at, 0) });
    }
  },
  WORDS(host) {
    const part = host.word();
    const names = visible(host, [host.machine.cell(SYSTEM.context)])
      .map((one) => one.name)
      .filter((name) => name.toUpperCase().includes(part.toUpperCase()));
    sayLine(host, names.length ? inLines(names) : `no word has ${part} in its name\n`);
  },
  HELP(host) {
    const name = host.word();
    sayLine(host, `${name ? helpFor(host, name) : DATA.help.join("\n")}\n`);
  },
  DUMP(host) {
    const [address, count] = host.numbers(2);
    sayLine(host, dumped(host.machine, address, count));
  },
  "SAVE-IMAGE"() { throw new Refusal("it needs a board; the menu saves what is here"); },
  "PORT-FETCH"(host) { throw new Refusal(`there is no port ${host.numbers(1)[0]} here`); },
  "PORT-STORE"(host) { throw new Refusal(`there is no port ${host.numbers(1)[0]} here`); },
  VERSION(host) { say(host, `${DATA.version.text} `); },

  // Time, keys, arguments

  MS(host) { return host.sleep(host.numbers(1)[0]); },
  "KEY?"(host) {
    host.isPolled = true;
    host.results(host.hasKey() ? 0xffff : 0, 0);
  },
  // A whole key: a byte, or a number for an arrow.
  EKEY(host) {
    const first = host.key(), after = first === ESC && host.hasKey() ? [host.key(), host.key()] : [];
    if (first === null) return WAITS;
    const arrow = ARROW_CODES.indexOf(String.fromCharCode(after[1] ?? 0));
    host.results(first !== ESC ? first : !after.length ? ESCAPE_KEY : arrow < 0 ? UNKNOWN_KEY : FIRST_ARROW + arrow, 0);
  },
  // A page is given no arguments, and has no environment.
  ARGUMENT(host) { host.results(0, 0); },
  ENVIRONMENT(host) {
    host.word();
    host.results(0, 0);
  },

  // Puts the second, minute, hour, day, month and year into six cells at an address.
  DATE(host) {
    const [address] = host.numbers(1), now = new Date();
    const parts = [
      now.getSeconds(), now.getMinutes(), now.getHours(), now.getDate(), now.getMonth() + 1, now.getFullYear()
    ];
    for (const [at, number] of parts.entries()) host.set(address + 2 * at, number);
  },
  CLOCK(host) {
    const clock = Math.floor(performance.now());
    host.results(clock & 0xffff, Math.floor(clock / 65536) & 0xffff);
  },
  TICKS(host) { host.results(host.allTicks & 0xffff, Math.floor(host.allTicks / 65536) & 0xffff); },

  // What is thrown, going back, steps

  CATCH(host) {
    const { values, returns } = host.machine;
    if (!values.length || returns.length < 2) throw new Refusal("", values.length ? 3 : 1);
    host.catching.catch();
  },
  CAUGHT(host) { host.catching.done(); },
  THROW(host) {
    const [number] = host.numbers(1);
    if (host.catching.throw(number, host.machine.values.slice(0, -1))) return MOVED;
    if (number > 0 && number < FAULTS.said) throw new Refusal("", number);
    throw new Refusal(`${signed(number)} was thrown, and there is no CATCH`);
  },

  UNDO(host) { return host.undo(); },
  WHY(host) {
    if (!host.failed) throw new Refusal("there was no fault yet");
    if (!host.failed.log) throw new Refusal("the line took too many keys, blocks and services to be run again");
    const machine = runAgain(host.failed, host.spare()), words = machine.words(), ip = machine.field("ip");
    const token = machine.field("has_pending") ? machine.field("pending") : machine.cell(ip);
    const row = (one) => `${one.name.padEnd(16)} ${placeOf(host, one)}\n`;
    sayLine(host, [...words.filter((one) => one.word === token), ...callers(machine, words)].map(row).join(""));
    say(host, `stack: ${machine.values.map(signed).join(" ") || "empty"}\n`);
  },
  DEBUG(host) {
    const [typed, name] = foundWord(host), token = host.machine.token(name);
    if (!hasThread({ code: host.machine.cell(token) }))
      throw new Refusal(`${typed} has no steps: neither : nor DOES> made it`);
    host.results(token, 0);
    host.debug();
  },
  "BREAK-AT"(host) {
    host.rest();
    throw new Refusal("BREAK-AT needs a terminal; the tab Steps shows each step of a line");
  },
  PROFILE(host) {
    host.rest();
    throw new Refusal("PROFILE needs a terminal");
  },
  "FAULT-TEXT"(host) { say(host, `${host.described(host.numbers(1)[0])} `); },
  // Reports a fault that a program handles; of fault 17 the program has shown what it means.
  REPORT(host) {
    const [number] = host.numbers(1), text = host.report(number, "").trimEnd();
    if (number === FAULTS.said) say(host, text);
    else sayLine(host, text.trimStart());
  },
};
