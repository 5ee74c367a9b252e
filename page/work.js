// A person's work: its disks, the drafts of screens that don't fit, and its machine; what the browser keeps of it, and
// Undo. Nothing else touches the store.

import { fromBase64, isSame, toBase64 } from "./bytes.js";
import { DATA } from "./data.js";
import { Disk, linesOf, MOST_SCREENS, pageOf, PIECE } from "./disk.js";
import { areStrangers, builtIn, merged } from "./editions.js";
import { PAGE_SIZE } from "./machine.js";

const MOST_UNDONE = 64 << 20, KEEP_AFTER = 300, PAUSE = 1000;
// What Undo takes back after screens were put in, moved or replaced.
export const PLACED = "placed";

const keyOf = ({ block, disk }) => `${block} ${disk}`;
const pairs = (list, convert) => (list || []).map(([name, bytes]) => [String(name), convert(bytes)]);
const converted = (state, convert) => ({
  ...state,
  record: convert(state.record),
  outer: state.outer ? { ...state.outer, record: convert(state.outer.record) } : null,
  sources: state.sources &&
    { ...state.sources, files: pairs(state.sources.files, convert), read: pairs(state.sources.read, convert) }
});

// A person's own disk; under a name of one of the page's disks it is all that the person changed in this edition.
function ownDisk(name, bytes) {
  const disk = new Disk(name, bytes, undefined, DATA.disks[name] ? builtIn(name).base : null);
  disk.dirty = new Set(disk.pieces);
  return disk;
}

// A disk as the page brings it, whose bytes nobody has asked for yet.
const unread = (name) => new Disk(name, null, DATA.disks[name].count || 0, null, true);

export class Work {
  // page: ask(question, answers), note(text), seen(), back(mark), mark(), changed(), opened(), kept(answer)
  constructor(store, page) {
    Object.assign(this, { store, page, name: "", step: 0, isOurs: false, left: new Map() });
    this.empty();
  }

  get session() { return this.page.session; }
  get names() { return [...this.disks.keys()].sort(); }

  empty() {
    Object.assign(this, {
      disks: new Map(),
      stored: new Map(),
      flying: new Map(),
      drafts: new Map(),
      undos: [],
      redos: [],
      saved: 0,
      version: DATA.version
    });
  }

  // Opens the work of that name: what was kept of it besides its disks, or null for a new one.
  async open(name) {
    this.name = name;
    this.empty();
    await this.store.claim(name, () => this.lose());
    const left = this.left.get(name), kept = left ? left.kept : await this.found();
    if (left) Object.assign(this, left.own);
    this.left.delete(name);
    this.isOurs = true;
    if (kept)
      Object.assign(this, {
        step: kept.step || 0,
        saved: kept.saved || 0,
        version: kept.version || null,
        drafts: new Map(kept.drafts || [])
      });
    this.disk = this.disks.get(kept && kept.disk) || this.disks.get(DATA.first);
    if (this.stored.get(this.disk.name) === this.disk) await this.fetch(this.disk);
    else await this.load(this.disk);
    return kept;
  }

  // The disk that is in comes to the page's edition when the machine goes on: blocks that it has changed belong to the
  // disk as it was.
  goOn() {
    const { disk, session } = this;
    if (!DATA.disks[disk.name] || (disk.base && disk.base.join() === builtIn(disk.name).base.join())) return;
    session.settle();
    this.renew(disk);
    session.change();
  }

  // Lists the disks that are kept and those of the page, and finds the newest state.
  async found() {
    const { store, name, disks } = this, heads = await store.values(`disks/${name}/`);
    for (const one of Object.keys(DATA.disks)) disks.set(one, unread(one));
    for (const [at, one] of (await store.names(`disks/${name}/`)).entries()) {
      disks.set(one, new Disk(one, null, heads[at].count, heads[at].base));
      this.stored.set(one, disks.get(one));
    }
    const kept = await store.get(`work/${name}`), last = store.last(name);
    if (last && last.step > ((kept && kept.step) || 0)) return this.recovered(last);
    return kept || this.older();
  }

  // What was kept as the page was closed, of which the database may have nothing.
  async recovered(last) {
    for (const name of this.names) if (!last.names.includes(name) && !DATA.disks[name]) this.disks.delete(name);
    for (const name of last.fresh) if (DATA.disks[name]) this.disks.set(name, unread(name));
    for (const [name, count, base, piece, text] of last.pieces) {
      const known = this.disks.get(name);
      const isIt = known && known.count === count && (known.bytes || this.stored.get(name) === known);
      const disk = isIt ? await this.fetch(known) : new Disk(name, new Uint8Array(count * PAGE_SIZE), count, base);
      this.disks.set(name, Object.assign(disk, { base }));
      disk.bytes.set(fromBase64(text), piece * PIECE * PAGE_SIZE);
      disk.dirty.add(piece);
    }
    for (const name of new Set(last.pieces.map(([one]) => one)))
      if (DATA.disks[name] && name !== last.disk) this.renew(this.disks.get(name));
    return converted(last, fromBase64);
  }

  // What a page of version 2.0.0 or before has kept: a state with one disk, and other disks that all people share.
  async older() {
    const { store, name } = this;
    const kept = (await store.get(`session/${name}`)) || (await store.elsewhere(name, DATA.first));
    const text = store.last(name, "last");
    const last = text && { ...converted(text, fromBase64), disk: fromBase64(text.disk) };
    const state = last && !(kept && kept.when >= last.when) ? last : kept;
    for (const one of await store.names("disk/")) this.take(one, await store.get(`disk/${one}`));
    if (state) this.take(state.name, state.disk, true);
    return state ? { ...state, disk: String(state.name) } : null;
  }

  take(name, bytes, isIn) {
    if (!(bytes instanceof Uint8Array) || !bytes.length || bytes.length % PAGE_SIZE) return;
    const disk = new Disk(String(name), bytes);
    if (DATA.disks[name] && !isIn) this.renew(disk);
    else this.disks.set(disk.name, disk);
  }

  // The bytes of a disk, as the page brings it or from the store, and then in the page's edition.
  async load(disk) {
    if (disk.bytes) return disk;
    if (this.stored.get(disk.name) !== disk) return Object.assign(disk, builtIn(disk.name));
    await this.fetch(disk);
    if (DATA.disks[disk.name]) this.renew(disk);
    return disk;
  }

  async fetch(disk) {
    if (disk.bytes) return disk;
    const bytes = new Uint8Array(disk.count * PAGE_SIZE);
    const pieces = await this.store.values(`blocks/${this.name}/${disk.name}/`);
    for (const piece of disk.pieces)
      if (pieces[piece])
        bytes.set(pieces[piece].subarray(0, bytes.length - piece * PIECE * PAGE_SIZE), piece * PIECE * PAGE_SIZE);
    return Object.assign(disk, { bytes });
  }

  // Brings a disk of the page's to the page's edition. What is new there comes in, and what the person changed stays.
  renew(disk) {
    const theirs = builtIn(disk.name), made = merged(disk, theirs), { base, bytes, count } = disk;
    this.disks.set(disk.name, disk);
    if (!made) return;
    const isStrange = areStrangers(disk, theirs);
    const isLost = made.kept.length || (!base && made.taken.length) || isStrange;
    const before = isLost && this.freeName(disk.name);
    if (before) this.disks.set(before, new Disk(before, bytes, count));
    if (before) for (const entry of [...this.undos, ...this.redos]) entry.disks.push([before, this.disks.get(before)]);
    Object.assign(
      disk, isStrange ? theirs : made.disk,
      { dirty: new Set((isStrange ? theirs : made.disk).pieces), isFresh: false });
    const what = isStrange
      ? "is another disk in this page"
      : `has a new edition in this page: screens ${made.taken.join(" ") || "none"} are new, and what you changed stays`;
    if (made.taken.length || before)
      this.page.note(`${disk.name} ${what}.${before ? ` Your disk as it was is ${before}.` : ""}`);
  }

  // A name that no disk has: mine 2.blk.
  freeName(name) {
    const [, stem, ending] = /^(.*?)(\.\w+)?$/.exec(name);
    for (let number = 2;; number++)
      if (!this.disks.has(`${stem} ${number}${ending || ""}`)) return `${stem} ${number}${ending || ""}`;
  }

  // Puts in the disk of that name; returns whether it is another one.
  async putIn(name) {
    const disk = this.disks.get(name);
    return Boolean(disk && disk !== this.disk) && this.change(await this.load(disk));
  }

  // Puts a disk in: under its name, or the name that it gets.
  change(disk, act = () => {}, what = `disk ${disk.name}`) {
    if (this.session.isRunning || !this.isOurs) return this.refuse();
    this.session.settle();
    this.remember(what);
    act();
    this.disks.set(disk.name, disk);
    this.disk = disk;
    this.session.change();
    this.page.opened();
    return true;
  }

  refuse() {
    this.page.note(
      this.isOurs ? "The Forth is busy: stop it first." : "This window only shows your work: another one has it now.");
    this.page.opened();
    return false;
  }

  // Puts in a new disk. If another one has its name, asks: nothing is replaced by itself.
  async insert(name, bytes) {
    const known = this.disks.get(name);
    this.session.settle();
    if (known && isSame((await this.load(known)).bytes, bytes)) return known === this.disk || this.change(known);
    const isFresh = known && DATA.disks[name] && isSame(known.bytes, builtIn(name).bytes);
    return this.replace(ownDisk(name, bytes), known && !isFresh);
  }

  async replace(disk, isAsked) {
    const both = this.freeName(disk.name), answers = [`Keep both: it becomes ${both}`, "Replace the one here"];
    const answer = isAsked
      ? await this.page.ask(`There is a disk ${disk.name} here already, with other screens.`, answers)
      : answers[1];
    if (!answer) return false;
    if (answer === answers[0]) Object.assign(disk, { name: both, base: null });
    return this.change(disk);
  }

  // Screens of a text go onto the disk that is in. Asks if others are replaced.
  async merge(name, screens) {
    const { disk, session } = this;
    const others = screens.filter(
      ({ block, page }) => block < disk.count && linesOf(session.page(block)).join("") &&
        !isSame(session.page(block), page));
    const named = others.slice(0, 12).map(({ block }) => block).join(" ") + (others.length > 12 ? " …" : "");
    const question = `${name} replaces ${others.length} of the screens of ${disk.name}: ${named}.`;
    if (others.length && !(await this.page.ask(question, ["Replace them"]))) return false;
    return this.place(new Map(screens.map(({ block, page }) => [block, page])));
  }

  // Puts pages at their blocks of the disk that is in, which grows if it must: one act for Undo.
  place(pages, act = () => {}) {
    const { disk, session } = this;
    const count = [...pages.keys()].reduce((most, block) => Math.max(most, block + 1), disk.count);
    if (session.isRunning || !this.isOurs) return this.refuse();
    session.settle();
    const grown = count > disk.count ? Disk.blank(disk.name, count) : disk;
    if (grown !== disk) Object.assign(grown, { base: disk.base, dirty: new Set(grown.pieces) }).bytes.set(disk.bytes);
    return this.change(grown, () => {
      this.disk = grown;
      for (const [block, page] of pages) this.write(block, page);
      act();
    }, PLACED);
  }

  // Moves a screen to another number: those between make room, and drafts stay with their screens. One after the last
  // screen is a new one.
  move(from, to) {
    const { disk, session } = this, pages = new Map(), blank = new Uint8Array(PAGE_SIZE).fill(32);
    const step = Math.sign(from - to);
    const target = (block) => (block === from ? to : block + step);
    for (let block = Math.min(from, to); block <= Math.max(from, to); block++)
      pages.set(target(block), block < disk.count ? session.page(block).slice() : blank);
    return this.place(pages, () => {
      const own = [...this.drafts.values()].filter((draft) => draft.disk === disk.name && pages.has(draft.block));
      for (const draft of own) this.drafts.delete(keyOf(draft));
      for (const draft of own)
        this.drafts.set(keyOf({ ...draft, block: target(draft.block) }), { ...draft, block: target(draft.block) });
    });
  }

  // The next blank screen from one on, which may be after the last one; null if a disk can't have more. A disk that
  // was replaced by a smaller one may have left drafts after its end.
  blankFrom(block) {
    const { disk, session } = this;
    const isBlank = (one) => !this.draft(one) &&
      (one >= disk.count || session.page(one).every((byte) => byte === 32 || byte === 0));
    while (!isBlank(block)) block++;
    return block < MOST_SCREENS ? block : null;
  }

  rename(name) {
    const { disk } = this, old = disk.name;
    return this.change(disk, () => {
      this.disks.delete(old);
      if (DATA.disks[old]) this.disks.set(old, builtIn(old));
      Object.assign(disk, { name, base: null, isFresh: false });
      this.moveDrafts(old, name);
    });
  }

  // Removes the disk that is in; of one of the page's, brings the page's edition back.
  remove() {
    const { name } = this.disk, next = DATA.disks[name] ? builtIn(name) : this.disks.get(DATA.first);
    return this.load(next).then(() => this.change(next, () => {
      this.disks.delete(name);
      this.moveDrafts(name, null);
    }));
  }

  // The drafts of a disk that gets another name, or none.
  moveDrafts(old, name) {
    const own = [...this.drafts.values()].filter((draft) => draft.disk === old);
    for (const draft of own) this.drafts.delete(keyOf(draft));
    if (name) for (const draft of own) this.drafts.set(keyOf({ ...draft, disk: name }), { ...draft, disk: name });
  }

  // Goes on with a whole session from a file: its machine takes the place of the one here, its disks come to those
  // that are here.
  async adopt(file, kept) {
    const theirs = Object.entries({ ...kept.disks, [kept.name]: kept.disk });
    const given = theirs.map(([name, bytes]) => ownDisk(name, bytes));
    const others = [];
    this.session.settle();
    for (const disk of given) {
      const known = this.disks.get(disk.name);
      if (known && !isSame((await this.load(known)).bytes, disk.bytes)) others.push(disk);
    }
    const answers = others.length ? ["Open it, and keep both", "Open it, and replace mine"] : ["Open it"];
    const about = others.length
      ? ` Its ${others.map((disk) => disk.name).join(", ")} has other screens than yours.`
      : "";
    const answer = await this.page.ask(
      `Open ${file}? Its words and its stack take the place of yours.${about} Undo brings yours back.`, answers);
    if (!answer || this.session.isRunning || !this.isOurs) return answer ? this.refuse() : false;
    this.session.settle();
    const before = this.snapshot("file");
    if (!this.session.resume(kept)) return null;
    this.push(before);
    for (const disk of given) {
      const { name } = disk;
      const drafts = (kept.drafts || []).map(([, draft]) => draft).filter((draft) => draft.disk === name);
      if (others.includes(disk) && answer === answers[0])
        Object.assign(disk, { name: this.freeName(name), base: null });
      if (others.includes(disk) || !this.disks.has(name)) this.disks.set(disk.name, disk);
      for (const draft of drafts) this.drafts.set(keyOf({ ...draft, disk: disk.name }), { ...draft, disk: disk.name });
    }
    this.disk = this.disks.get(given[given.length - 1].name);
    this.session.goOn();
    this.page.opened();
    return true;
  }

  // All of it as a value for a file.
  async whole() {
    this.session.settle();
    const own = [...this.disks.values()].filter((disk) => disk !== this.disk && !disk.isFresh), disks = {};
    for (const disk of own) disks[disk.name] = toBase64((await this.load(disk)).bytes);
    return {
      format: "forth83",
      ...converted(this.session.kept(), toBase64),
      name: this.disk.name,
      disk: toBase64(this.disk.bytes),
      disks,
      drafts: [...this.drafts],
      version: this.version };
  }

  // Writes a block of the disk that is in, and notes what it had before for Undo.
  write(block, page) {
    const { disk } = this, entry = this.undos[this.undos.length - 1];
    if (entry && !entry.blocks.has(disk)) entry.blocks.set(disk, new Map());
    if (entry && !entry.blocks.get(disk).has(block)) entry.blocks.get(disk).set(block, disk.page(block).slice());
    disk.put(block, page);
  }

  draft(block) { return this.drafts.get(keyOf({ block, disk: this.disk.name })); }

  // The lines of a screen as they are shown: those of its draft, if it has one.
  lines(block) {
    const draft = this.draft(block);
    return draft ? draft.text.split("\n") : linesOf(this.session.page(block));
  }

  // Edits a screen: LINES are what is in the frame now, and BEFORE what it showed; lines that nobody edited stay as
  // they are on the disk. A text that doesn't fit is a draft until it does. Returns what is wrong, or null.
  edit(block, lines, before, line) {
    const draft = { disk: this.disk.name, block, text: lines.join("\n"), before };
    const own = linesOf(this.session.page(block));
    const made = pageOf(
      lines.map((one, at) => (one.trimEnd() === before[at] && at < own.length ? own[at] : one)),
      this.session.page(block));
    this.remember(`screen ${block} line ${line}`);
    if (made.wrong) this.drafts.set(keyOf(draft), draft);
    else {
      this.drafts.delete(keyOf(draft));
      this.session.put(block, made.page);
    }
    this.page.changed();
    return made.wrong ? made : null;
  }

  // All as it is now, for Undo; blocks that change later are noted with it.
  snapshot(what) {
    const { session, disk, drafts, disks, version } = this, { machine, places, outer, program, texts } = session;
    return {
      what,
      when: Date.now(),
      record: machine.copy(),
      machine: { places: { ...places }, outer, program, texts },
      disk,
      version,
      disks: [...disks],
      drafts: new Map(drafts),
      mark: this.page.mark(),
      blocks: new Map()
    };
  }

  // Remembers all as it is: before a line, and before a screen is edited after a pause or in another line.
  remember(what) {
    const last = this.undos[this.undos.length - 1];
    const isMore = last && last.what === what && what.startsWith("screen") && Date.now() - last.when < PAUSE;
    if (isMore && !this.redos.length) last.when = Date.now();
    else this.push(this.snapshot(what));
  }

  push(entry) {
    const size = ({ record, blocks }) => record.length +
      [...blocks.values()].reduce((sum, own) => sum + own.size * PAGE_SIZE, 0);
    this.redos = [];
    this.undos.push(entry);
    let left = MOST_UNDONE;
    const first = this.undos.length - this.undos.slice().reverse().findIndex((one) => (left -= size(one)) < 0);
    if (left < 0) this.undos.splice(0, first);
  }

  undo() { this.exchange("undos", "redos"); }
  redo() { this.exchange("redos", "undos"); }

  // Brings back the state on top of one list, and puts the present one on top of the other.
  exchange(from, to) {
    if (!this[from].length || !this.isOurs || this.session.waits(() => this.exchange(from, to))) return;
    const entry = this[from].pop(), now = this.snapshot(entry.what), { session } = this;
    for (const [disk, blocks] of entry.blocks) {
      now.blocks.set(disk, new Map([...blocks.keys()].map((block) => [block, disk.page(block).slice()])));
      for (const [block, page] of blocks) disk.put(block, page);
    }
    this[to].push(now);
    Object.assign(
      this, { disks: new Map(entry.disks), disk: entry.disk, drafts: new Map(entry.drafts), version: entry.version });
    for (const [name, disk] of this.disks)
      Object.assign(disk, { name, base: disk.base || (DATA.disks[name] && disk.bytes ? builtIn(name).base : null) });
    session.machine.restore(entry.record);
    Object.assign(session, entry.machine, session.fresh());
    this.page.back(entry.mark);
    this.page.opened(true);
  }

  // What the store lacks of a work, as entries, and as [disk, piece]; and which disks it has no more.
  changes({ name: work, stored, disks, flying } = this) {
    const entries = [], pieces = [];
    for (const [name, disk] of stored)
      if (disks.get(name) !== disk) entries.push([`disks/${work}/${name}`], [`blocks/${work}/${name}/*`]);
    for (const [name, disk] of disks) {
      const isStored = stored.get(name) === disk;
      if (!disk.bytes || (!isStored && disk.isFresh)) continue;
      if (!isStored || disk.dirty.size) entries.push([`disks/${work}/${name}`, { count: disk.count, base: disk.base }]);
      for (const piece of isStored ? new Set([...disk.dirty, ...(flying.get(disk) || [])]) : disk.pieces) {
        entries.push([`blocks/${work}/${name}/${String(piece).padStart(4, "0")}`, disk.piece(piece)]);
        pieces.push([disk, piece]);
      }
    }
    return { entries, pieces };
  }

  state() {
    return {
      ...this.session.kept(),
      ...this.page.seen(),
      disk: this.disk.name,
      drafts: [...this.drafts],
      version: this.version,
      saved: this.saved,
      step: ++this.step
    };
  }

  // Keeps it soon, or now; one after the other.
  keepSoon() {
    clearTimeout(this.timer);
    this.timer = setTimeout(() => this.keep(), KEEP_AFTER);
  }

  keep() { return (this.keeping = (this.keeping || Promise.resolve()).then(() => this.keepNow())); }

  async keepNow() {
    if (!this.isOurs) return "lost";
    const { entries, pieces } = this.changes(), disks = new Map(this.disks);
    const has = new Set(pieces.map(([disk]) => disk));
    this.flying = new Map([...has].map((disk) => [disk, disk.dirty]));
    for (const disk of has) disk.dirty = new Set();
    const answer = await this.store.write([...entries, [`work/${this.name}`, this.state()]]);
    if (answer === "kept") {
      this.stored = new Map([...disks].filter(([name, disk]) => has.has(disk) || this.stored.get(name) === disk));
      this.store.dropLast(this.name);
      await this.keepLeft();
    } else for (const [disk, dirty] of this.flying) disk.dirty = new Set([...disk.dirty, ...dirty]);
    this.flying = new Map();
    if (answer === "lost") this.isOurs = false;
    this.page.kept(answer);
    return answer;
  }

  // Works of other people that the browser refused when they were left, and may keep now.
  async keepLeft() {
    for (const [name, { own, kept }] of this.left) {
      const { entries } = this.changes({ name, ...own, flying: new Map() });
      if ((await this.store.write([...entries, [`work/${name}`, kept]], name)) !== "kept") return;
      this.left.delete(name);
      this.store.dropLast(name);
    }
  }

  // As the page is closed or hidden: keeps in a smaller place what the database may no longer accept; returns whether
  // that has it.
  keepAtOnce() {
    if (!this.isOurs) return false;
    const pieces = this.changes().pieces.map(
      ([disk, piece]) => [disk.name, disk.count, disk.base, piece, toBase64(disk.piece(piece))]);
    const isKept = this.store.putLast(this.name, {
      ...converted(this.state(), toBase64),
      names: this.names,
      fresh: this.names.filter((name) => this.disks.get(name).isFresh),
      pieces
    });
    this.keep();
    return isKept;
  }

  // Keeps all before another work is opened; what the browser doesn't keep stays in this window.
  async leave() {
    const answer = await this.keep(), { disks, stored } = this;
    if (answer !== "kept") this.left.set(this.name, { own: { disks, stored }, kept: this.state() });
    else this.left.delete(this.name);
    if (answer !== "kept") this.keepAtOnce();
    this.isOurs = false;
  }

  // Another window has this work now.
  async lose() {
    await this.keep();
    this.isOurs = false;
    this.page.kept("lost");
  }

  // The names of all whose work is here.
  async people() {
    return [
      ...new Set([
        this.name, "", ...(await this.store.names("work/")), ...(await this.store.names("session/")),
        ...this.left.keys()
      ])
    ].sort();
  }

  // Settings of this browser, which belong to no work.
  setting(name) { return this.store.get(name); }
  set(name, value) { this.store.set(name, value); }
}

// What a file of a whole session has; or null.
export function sessionOf(text) {
  try {
    const kept = JSON.parse(text);
    const disks = Object.entries(kept.disks || {}).map(([name, bytes]) => [name, fromBase64(bytes)]);
    const disk = fromBase64(kept.disk);
    const isWhole = [disk, ...disks.map(([, bytes]) => bytes)].every(
      (bytes) => bytes.length && bytes.length % PAGE_SIZE === 0);
    return isWhole
      ? { ...converted(kept, fromBase64), name: String(kept.name), disk, disks: Object.fromEntries(disks) }
      : null;
  } catch {
    return null;
  }
}
