// The page: what is pressed and typed, its tabs, and what the browser keeps.

import { element, encode, signed } from "./bytes.js";
import { DATA } from "./data.js";
import { COLUMNS } from "./disk.js";
import { makingLines, nameVersion, versionOf } from "./editions.js";
import { Files } from "./files.js";
import { wordAt } from "./manual.js";
import { textOf } from "./screens.js";
import { ask, by } from "./parts.js";
import { Work } from "./work.js";

const MOST_LINES = 200, DAY = 86400000;
const NARROW = "(max-width: 75.99rem)";
const SIGNS_OF_LINES = [":", ";", "@", "!", ".", '."', '"', "(", ")", "+", "-", "*", "/", "="];
// Keys that a program gets as a terminal would send them.
const ARROWS = { ArrowUp: "A", ArrowDown: "B", ArrowRight: "C", ArrowLeft: "D", Home: "H", End: "F" };
const KEYS = { Backspace: [127], Escape: [27], Enter: [10], Tab: [9] };

export class Page {
  constructor(transcript, store) {
    Object.assign(
      this,
      { transcript, history: [], place: 0, isOpen: false, ask, work: new Work(store, this), files: new Files(this) });
  }

  async begin() {
    this.listen();
    this.size(Number(await this.work.setting("size")) || (innerWidth < 2080 ? 16 : 18));
    await this.beginWork((await this.work.setting("work")) || "");
    this.course.find(await this.work.setting("lesson"));
    this.tab(
      (await this.work.setting("tab")) ||
      (DATA.start.length
         ? (matchMedia(NARROW).matches ? "forth" : "screens")
         : DATA.screen === null ? "start"
        : "course"));
    by("line").focus();
  }

  // Continues with the work that was kept under a name, or starts a new one.
  async beginWork(name) {
    this.news = [];
    const kept = await this.work.open(name), { news } = this;
    this.news = null;
    this.history = (kept && kept.history) || [];
    this.place = this.history.length;
    this.transcript.back(kept ? kept.texts || [] : []);
    for (const text of news) this.note(text);
    if (!kept) this.startNew();
    else if (this.session.resume(kept)) this.goOn(kept);
    else this.startAgain();
    this.isOpen = true;
    this.shown = this.work.disk;
    this.opened(true);
    this.editor.go(kept && kept.screen !== undefined ? kept.screen : this.firstScreen());
    await this.listWorks();
  }

  // Whether this window keeps what is done.
  get isKeeping() { return this.isOpen && this.work.isOurs; }

  startNew() {
    const keeps = this.work.store.database
      ? " Your work is kept in this browser."
      : " This browser keeps nothing: save your work as a file.";
    this.note(`${DATA.title} Type 3 4 + . and press Enter. HELP says more.${keeps}`);
    this.session.forget();
    this.session.start();
    if (DATA.start.length) this.session.type(DATA.start);
  }

  // What was kept is not a machine of this version of the page; its screens can be used.
  startAgain() {
    this.note("The words of your last session don't fit this version of the page, and are gone. The screens are here.");
    this.work.version = DATA.version;
    this.session.forget();
    this.session.start();
    this.work.goOn();
  }

  // Goes on with a machine that was kept. One of an older page may be exchanged for this page's.
  goOn(kept) {
    const { memory } = this.session.machine, old = kept.version || { text: versionOf(memory).text };
    const isOther = old.text !== DATA.version.text || kept.places.fence !== this.session.own.fence;
    const isOld = old.image ? old.image !== DATA.version.image : isOther;
    this.work.version = old;
    nameVersion(memory, DATA.version.text);
    this.work.goOn();
    this.session.goOn();
    if (isOld && !this.session.program && old.left !== DATA.version.image) this.offer(old, kept.texts || []);
  }

  async offer(old, texts) {
    const lines = makingLines(texts);
    const again = lines.length
      ? ` What made words is typed again: ${lines.length} ${lines.length === 1 ? "line" : "lines"}.`
      : "";
    const lacks = this.session.isForeign
      ? " The old one goes on, but EDIT, MS and the marks of faults do nothing in it."
      : "";
    const question = `Your Forth is that of an older page (${old.text || "unknown"}); this page brings ` +
      `${DATA.version.text}. With the new one, your disks stay.${again}${lacks}`;
    if (!(await this.ask(question, ["Take the new Forth"], { cancel: "Keep the old one" })))
      return void (Object.assign(this.work.version, { left: DATA.version.image }), this.keeps());
    await this.idle();
    this.session.settle();
    this.work.remember("update");
    this.work.version = DATA.version;
    this.session.start();
    await this.idle();
    this.note("This is the new Forth. Undo brings the old one back.");
    if (lines.length) this.session.type(lines);
  }

  // Another disk is in, or its name is another; isBack: after Undo.
  opened(isBack) {
    const { disk, names } = this.work;
    by("disks").replaceChildren(...names.map((name) => new Option(name, name, false, disk && name === disk.name)));
    if (!this.isOpen) return;
    if (!isBack && this.shown !== disk) this.note(`The disk is ${disk.name} now, with ${disk.count} screens.`);
    this.course.list();
    const isLesson = document.body.dataset.tab === "course" && this.course.isOpen;
    const first = isLesson ? this.course.lesson.screen : this.firstScreen();
    this.editor.go(this.shown === disk ? this.editor.block : first);
    this.shown = disk;
    this.changed();
  }

  firstScreen() { return Math.min(DATA.screen ?? 21, this.session.disk.count - 1); }

  // What the session asks of its view.
  show(bytes, isTyped) { this.transcript.show(bytes, isTyped); }
  note(text) {
    if (this.news) this.news.push(text);
    else this.transcript.note(text);
  }
  started(isAnswer) { this.transcript.begin(isAnswer); }
  mark() { return this.transcript.mark(); }
  back(mark) { this.transcript.back(mark); }

  say(text) { this.transcript.add("shown", text); }
  isAtLineStart() { return this.transcript.isAtLineStart(); }

  // A fault, in words; its place, if it is on a screen.
  fault(text, place) {
    const unknown = /^(\S+) is unknown(?:;.*)? \(fault 13\)$/m.exec(text);
    this.transcript.add("fault", text);
    this.session.drop("there was a fault");
    this.outcome = "failed";
    this.advise(unknown ? unknown[1] : "");
    if (!place) return;
    this.editor.show({ ...place, text: text.trim().split("\n")[0] });
    if (this.isFromEditor && document.body.dataset.tab !== "course") this.tab("screens");
  }

  // Loads a screen for the editor. A narrow page shows the Forth then, and the editor again for a fault.
  load(block) {
    this.enter(`${block} LOAD`);
    this.isFromEditor = true;
  }

  // Shows a screen in the editor, at a place of it if there is one.
  edit(screen, place) {
    if (document.body.dataset.tab !== "course" || screen !== this.course.lesson.screen) this.tab("screens");
    this.editor.go(screen);
    if (place) this.editor.select(Math.floor(place.byte / COLUMNS), place.byte % COLUMNS);
    by("screen-text").focus();
  }

  // RETYPE: how the next line begins.
  retype(text) { by("line").value = text; }

  // DEBUG: the film of a line, from the machine before it.
  async steps(line, record) {
    await this.idle();
    this.showFilm(line, record);
  }

  // Shows the session's state, and keeps it soon.
  changed() {
    if (!this.isDrawn) requestAnimationFrame(() => this.draw());
    this.isDrawn = true;
    this.keeps();
  }

  keeps() { this.work.keepSoon(); }

  // Called after each slice of time of a program that runs.
  looks() { this.canvas.look(); }

  draw() {
    const { session } = this, isBusy = session.isRunning, cells = isBusy ? [] : session.machine.values;
    this.isDrawn = false;
    document.body.classList.toggle("busy", isBusy);
    by("stop").disabled = !isBusy && !session.waitsForKey && !session.waitsForAnswer;
    by("undo").disabled = !this.work.undos.length;
    by("redo").disabled = !this.work.redos.length;
    const shown = cells.slice(-16).flatMap((cell, at) => [at ? " " : "", element("b", String(signed(cell)))]);
    by("stack").replaceChildren(...(isBusy ? ["running"] : shown.length ? shown : ["empty"]));
    by("asks").textContent = isBusy ? "…" : session.waitsForKey ? "key" : session.waitsForAnswer ? "?" : "›";
    if (session.waitsForLine && this.outcome) this.sign();
    by("line").placeholder = session.waitsForKey ? "the program waits for a key" : "";
    by("program").textContent = session.program ? `${session.program} runs` : "";
    by("disk-name").textContent = `${session.disk.name}, ${session.disk.count} screens`;
    if (!isBusy) this.editor.refresh();
    if (!isBusy && document.body.dataset.tab === "map") this.map.draw();
    if (!isBusy) this.canvas.look();
  }

  // How the line ended is seen for a second where the next one is typed.
  sign() {
    const asks = by("asks"), { outcome } = this;
    this.outcome = "";
    asks.className = outcome;
    asks.textContent = outcome === "done" ? "✓" : "✗";
    clearTimeout(this.signing);
    this.signing = setTimeout(() => {
      asks.className = "";
      this.changed();
    }, 1000);
  }

  focusLine() { by("line").focus({ preventScroll: true }); }

  listen() {
    this.listenToLine();
    this.listenToButtons();
    this.listenToKeys();
    this.listenToDivider();
    document.addEventListener("keydown", (event) => this.pressAnywhere(event));
    addEventListener("resize", () => this.transcript.fit());
    addEventListener("pagehide", () => this.work.keepAtOnce());
    document.addEventListener("visibilitychange", () => document.hidden && this.work.keepAtOnce());
    for (const kind of ["dragover", "drop"]) document.addEventListener(kind, (event) => this.files.dropFile(event));
  }

  // The browser edits the line; the arrows bring back earlier lines.
  listenToLine() {
    const line = by("line");
    by("form").addEventListener("submit", (event) => {
      event.preventDefault();
      const text = line.value;
      line.value = "";
      if (this.session.takesKeys) this.session.press(text ? encode(text) : [10]);
      else this.enter(text);
    });
    line.addEventListener("keydown", (event) => (this.session.takesKeys ? this.pressKey(event) : this.recall(event)));
    line.addEventListener("input", () => {
      if (!this.session.takesKeys || !line.value) return;
      this.session.press(encode(line.value));
      line.value = "";
    });
    line.addEventListener("paste", (event) => this.paste(event));
    by("transcript").addEventListener("mouseup", () => String(getSelection()) || this.focusLine());
  }

  listenToButtons() {
    const { files } = this;
    const acts = {
      stop: () => this.stop(),
      undo: () => this.work.undo(),
      redo: () => this.work.redo(),
      over: () => location.reload(),
      anew: () => this.anew(),
      larger: () => this.size(this.points + 2),
      smaller: () => this.size(this.points - 2), open: () => by("file").click(), "new-disk": () => files.newDisk(),
      "rename-disk": () => files.renameDisk(),
      "remove-disk": () => files.removeDisk(),
      "new-work": () => this.newWork(),
      "print-screens": () => files.print(), "save-blocks": () => files.save("blk", () => this.session.disk.bytes),
      "save-text": () => files.save("txt", () => textOf(this.session.disk)),
      "save-all": () => files.saveAll(),
      "save-transcript": () => files.saveBlob("txt", new Blob([this.transcript.text()]), "transcript"),
      "save-image": () => files.saveImage()
    };
    for (const [id, act] of Object.entries(acts)) by(id).addEventListener("click", act);
    by("file").addEventListener("change", (event) => files.openAll([...event.target.files]));
    by("disks").addEventListener("change", (event) => this.work.putIn(event.target.value));
    by("works").addEventListener("change", (event) => this.changeWork(event.target.value));
    for (const tab of document.querySelectorAll("[role=tab]"))
      tab.addEventListener("click", () => this.tab(tab.dataset.tab));
    by("tabs").addEventListener("keydown", (event) => this.turn(event));
  }

  // Signs that are far away on a telephone's keyboard.
  listenToKeys() {
    by("keys").append(...SIGNS_OF_LINES.map((sign) => element("button", sign, { type: "button", tabindex: -1 })));
    by("keys").addEventListener("pointerdown", (event) => {
      const place = [by("line"), by("screen-text")].find((one) => one === document.activeElement) || by("line");
      event.preventDefault();
      place.focus();
      if (event.target.type !== "button") return;
      place.setRangeText(`${event.target.textContent} `, place.selectionStart, place.selectionEnd, "end");
      place.dispatchEvent(new Event("input"));
    });
  }

  // The line between the Forth and the tabs, which can be moved.
  listenToDivider() {
    const divider = by("divider"), move = (x) => {
      document.querySelector("main").style.setProperty(
        "--forth", `${Math.max(20, Math.min(80, (100 * x) / innerWidth))}%`);
      this.transcript.fit();
    };
    divider.addEventListener("pointerdown", (event) => divider.setPointerCapture(event.pointerId));
    divider.addEventListener(
      "pointermove", (event) => divider.hasPointerCapture(event.pointerId) && move(event.clientX));
    divider.addEventListener("keydown", ({ key }) => {
      if (key === "ArrowLeft" || key === "ArrowRight") move(divider.offsetLeft + (key === "ArrowLeft" ? -20 : 20));
    });
  }

  pressAnywhere(event) {
    const isStop = event.key === "Escape" || (event.ctrlKey && event.key === "c" && !String(getSelection()));
    if (isStop && this.session.isRunning) this.stop(event);
    if (event.key === "F1") this.explain(event);
    if (event.key === "F6") this.otherSide(event);
  }

  // The manual's entry for the word at the cursor.
  explain(event) {
    event.preventDefault();
    const place = document.activeElement, { value, selectionStart } = place;
    const word = typeof value === "string" && typeof selectionStart === "number"
      ? wordAt(value, selectionStart)
      : String(getSelection()).trim();
    this.showWord(word);
    by("words-sought").focus();
  }

  showWord(word) {
    this.tab("words");
    this.manual.explain(word.toUpperCase());
  }

  // Moves the focus from the line to the tabs, and back.
  otherSide(event) {
    event.preventDefault();
    if (document.activeElement === by("line")) document.querySelector("[role=tab][aria-selected=true]").focus();
    else by("line").focus();
  }

  paste(event) {
    const line = event.target, text = event.clipboardData.getData("text").replace(/\r\n?/g, "\n");
    if (!text.includes("\n")) return;
    event.preventDefault();
    const lines = (line.value + text).split("\n");
    line.value = lines.pop();
    this.enter(...lines);
  }

  // A key for a program that waits for one.
  pressKey(event) {
    const arrow = ARROWS[event.key];
    const isControl = event.ctrlKey && event.key.length === 1;
    const bytes = arrow
      ? [27, 91, arrow.charCodeAt(0)]
      : isControl ? [event.key.toUpperCase().charCodeAt(0) & 31]
      : KEYS[event.key];
    if (!bytes) return;
    event.preventDefault();
    if (bytes[0] === 3) this.stop();
    else this.session.press(bytes);
  }

  recall(event) {
    if (event.key !== "ArrowUp" && event.key !== "ArrowDown") return;
    event.preventDefault();
    const line = event.target, last = this.history.length;
    if (this.place === last) this.draft = line.value;
    this.place = Math.max(0, Math.min(last, this.place + (event.key === "ArrowUp" ? -1 : 1)));
    line.value = this.place === last ? this.draft || "" : this.history[this.place];
    line.setSelectionRange(line.value.length, line.value.length);
  }

  // Puts a word at the end of the line.
  take(word) {
    const line = by("line");
    line.value = `${line.value.trimEnd()} ${word} `.trimStart();
    this.tab("forth", true);
    line.focus();
  }

  // Types lines, as a person does, and shows the Forth.
  enter(...lines) {
    this.tab("forth", true);
    this.send(...lines);
  }

  send(...lines) {
    this.isFromEditor = false;
    this.outcome = "done";
    this.advise("");
    for (const line of lines)
      if (line.trim() && line !== this.history[this.history.length - 1]) this.history.push(line);
    this.history = this.history.slice(-MOST_LINES);
    this.place = this.history.length;
    this.session.type(lines);
  }

  // What may help after a word that the Forth doesn't know.
  advise(word) {
    const near = word ? this.manual.near(word, this.session.machine.words().map((one) => one.name)) : [];
    const said = `I don't know the word ${word}. ${near.length ? "Perhaps " : ""}`;
    const search = element("button", "Search in Words", { type: "button" });
    const words = near.map((name) => element("button", name, { type: "button", class: "word" }));
    by("advice").hidden = !word;
    by("advice").replaceChildren(element("span", said), ...words, search);
    search.onclick = () => this.showWord(word);
    for (const one of words) one.onclick = () => this.showWord(one.textContent);
  }

  // Waits until the Forth asks for something.
  async idle() {
    while (this.session.isRunning) await new Promise((resolve) => setTimeout(resolve, 20));
  }

  showFilm(line, record) {
    this.tab("film");
    this.film.parts.line.value = line;
    this.film.make(line, record);
  }

  stop(event) {
    if (event) event.preventDefault();
    this.session.stop();
    by("line").focus();
  }

  async anew() {
    const question =
      "Start a new Forth? The words that you typed will be gone; the screens are kept. Undo brings them back.";
    if (!(await this.ask(question, ["Start a new Forth"]))) return;
    this.session.settle();
    this.work.remember("new Forth");
    this.transcript.clear();
    this.work.version = DATA.version;
    this.session.start();
    by("line").focus();
  }

  // Shows a tab, beside the Forth if there is room.
  tab(name, isForNarrow) {
    const isNarrow = matchMedia(NARROW).matches;
    if (isForNarrow && !isNarrow) return;
    if (name === "forth" && !isNarrow) name = "screens";
    for (const tab of document.querySelectorAll("[role=tab]")) {
      const isIt = tab.dataset.tab === name;
      tab.setAttribute("aria-selected", isIt);
      tab.tabIndex = isIt ? 0 : -1;
    }
    document.body.dataset.tab = name;
    by(`tab-${name}`).scrollIntoView({ block: "nearest", inline: "nearest" });
    this.remember("tab", name);
    this.placeDesk();
    if (name === "screens") this.editor.refresh();
    if (name === "map") this.map.draw();
    if (name === "canvas") this.canvas.look();
    this.transcript.fit();
  }

  // The editor is below the lesson whose screen it shows, and the canvas below one that draws; or each is in its own
  // tab.
  placeDesk() {
    const { course } = this, isCourse = document.body.dataset.tab === "course", isLesson = isCourse && course.isOpen;
    const desk = by("desk"), picture = by("canvas-picture");
    const place = by(isLesson ? "course-desk" : "screens");
    const wall = by(isCourse && course.isDrawing ? "course-desk" : "canvas");
    if (picture.parentElement !== wall) wall.prepend(picture);
    if (desk.parentElement === place) return;
    place.prepend(desk);
    if (isLesson) this.editor.go(course.lesson.screen);
  }

  turn(event) {
    const tabs = [...document.querySelectorAll("[role=tab]")].filter((tab) => tab.offsetParent);
    const at = tabs.indexOf(event.target);
    const step = { ArrowRight: 1, ArrowLeft: tabs.length - 1 }[event.key];
    if (!step || at < 0) return;
    const tab = tabs[(at + step) % tabs.length];
    this.tab(tab.dataset.tab);
    tab.focus();
  }

  size(points) {
    this.points = Math.max(10, Math.min(40, points));
    document.documentElement.style.fontSize = `${this.points}px`;
    this.film.size();
    this.remember("size", this.points);
    this.transcript.fit();
  }

  // Several people at one computer keep their work under their names.
  async listWorks() {
    const names = await this.work.people();
    by("works").replaceChildren(
      ...names.map((name) => new Option(name || "(no name)", name, false, name === this.work.name)));
  }

  async newWork() {
    const name = await this.files.askForName("Your name, or a name for new work:", "");
    if (name) this.changeWork(name);
  }

  async changeWork(name) {
    if (this.session.isRunning) {
      this.note("The Forth is busy: stop it first.");
      return this.listWorks();
    }
    await this.work.leave();
    this.isOpen = false;
    this.shown = null;
    this.work.set("work", name);
    this.transcript.clear();
    await this.beginWork(name);
    this.changed();
  }

  // What is kept beside the machine and the disks.
  seen() {
    return { texts: this.transcript.mark(), history: this.history, screen: this.editor.block, when: Date.now() };
  }

  remember(name, value) { this.work.set(name, value); }

  // Asks the browser, once there is work of a person's, not to drop it by itself.
  persist() {
    if (!this.isPersistent && navigator.storage && navigator.storage.persist)
      navigator.storage.persist().catch(() => false);
    this.isPersistent = true;
  }

  // Shows whether work is kept: "kept", "refused" by the browser, or "lost" to another window.
  kept(answer) {
    const days = Math.floor((Date.now() - this.work.saved) / DAY);
    const ago = days ? `${days} ${days === 1 ? "day" : "days"} ago` : "today";
    const isLost = answer === "lost", wasLost = !by("over").hidden;
    by("kept").textContent = { kept: `kept in this browser; saved as a file: ${this.work.saved ? ago : "never"}`,
      refused: "NOT KEPT: this browser keeps nothing; save your work as a file",
      lost: "only shown here: another window has this work now"
    }[answer];
    by("kept").classList.toggle("at-fault", answer !== "kept");
    by("over").hidden = !isLost;
    by("line").disabled = by("screen-text").readOnly = isLost;
    if (isLost && !wasLost)
      this.note(
        "This page is open in another window, which has your work now. This window only shows it; " +
          "Take over brings it back here.");
  }
}
