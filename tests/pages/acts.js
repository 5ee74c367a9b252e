// What a trial does in the page: the verbs of tests/cases/pages, and the random acts of page_keeping.py. It is
// evaluated in the page, and gives `trial`.
(() => {
  const table = Array.from({ length: 256 }, (_, n) => {
    for (let k = 0; k < 8; k++) n = n & 1 ? (n >>> 1) ^ 0xedb88320 : n >>> 1;
    return n >>> 0;
  });
  // Firefox runs this outside of the page's realm, where each look at a byte of the page's takes long: the bytes are
  // copied first.
  const crc = (bytes) => {
    const own = new Uint8Array(bytes);
    let c = 0xffffffff;
    for (let at = 0; at < own.length; at++) c = table[(c ^ own[at]) & 255] ^ (c >>> 8);
    return (c ^ 0xffffffff) >>> 0;
  };
  const by = (id) => document.getElementById(id), page = window.page, { work, session } = page;
  const text = by("screen-text");
  const idle = async () => { while (session.isRunning) await new Promise((done) => setTimeout(done, 1)); };
  const bytes = (value) => Uint8Array.from(atob(value), (letter) => letter.charCodeAt(0));
  const change = (one, values, ...events) => {
    Object.assign(one, values);
    for (const name of events) one.dispatchEvent(new Event(name, { bubbles: true }));
  };
  const trial = window.trial = { answers: [], asked: [], refusing: null,
    // What the person answers to the next questions; after them she cancels.
    answer(...answers) {
      Object.assign(trial, { answers, asked: [] });
      page.ask = async (question, choices, { given } = {}) => {
        const answer = trial.answers.shift();
        trial.asked.push(question);
        if (answer === undefined || answer === "cancel") return null;
        return given === undefined
          ? choices.find((one) => one.toLowerCase().includes(answer.toLowerCase())) ?? `no answer ${answer}`
          : answer;
      };
    },
    // What is typed into the editor after this is undone by itself.
    pause() { work.undos.forEach((one) => (one.when = 0)); },
    async sums() {
      const found = {};
      for (const disk of work.disks.values()) {
        if (!disk.bytes && work.stored.get(disk.name) !== disk) continue;
        await work.load(disk);
        const all = disk.bytes.slice();
        if (disk === work.disk)
          for (const one of session.machine.buffers)
            if (one.updated && one.block !== null) all.set(one.bytes, one.block * 1024);
        found[disk.name] = [disk.count, crc(all)];
      }
      return {
        found,
        current: work.disk.name,
        undos: work.undos.length,
        redos: work.redos.length,
        isOurs: work.isOurs,
        drafts: work.drafts.size
      };
    },
    async act(name, ...words) {
      await idle();
      await trial[name](...words);
      await idle();
      trial.pause();
      return trial.sums();
    },
    async type(line) { page.enter(line); },
    show(block, wanted) {
      page.editor.go(block);
      if (text.value.trimEnd() !== wanted.trimEnd())
        throw new Error(`the frame shows ${JSON.stringify(text.value)} in place of ${JSON.stringify(wanted)}`);
    },
    // The lines of a screen of the disk that is in, as one text.
    lines(block) {
      const all = session.page(block);
      const line = (at) => new TextDecoder().decode(Uint8Array.from(all.subarray(at, at + 64)));
      return Array.from({ length: 16 }, (_, at) => line(64 * at).replace(/[\0 ]+$/, "")).join("\n").trimEnd();
    },
    // Another text in the frame of the editor.
    frame(value) { change(text, { value }, "input"); },
    // A control has this value, as if a person had chosen or typed it.
    choose(id, value) { change(by(id), { value }, "input", "change"); },
    async edit(block, wanted, line, value) {
      trial.show(block, wanted);
      const lines = text.value.split("\n");
      lines[line] = value;
      trial.frame(lines.join("\n"));
    },
    async lineKey(block, wanted, line, key) {
      trial.show(block, wanted);
      page.editor.select(line, 0);
      text.dispatchEvent(new KeyboardEvent("keydown", { key, ctrlKey: true, shiftKey: true, cancelable: true }));
    },
    async click(...ids) {
      for (const id of ids) {
        by(id).click();
        await new Promise((done) => setTimeout(done));
      }
    },
    async arrange(block, button) {
      page.editor.go(block);
      await trial.click(button);
    },
    async replace(block, wanted, instead, isWhole, ...buttons) {
      page.editor.go(block);
      Object.assign(by("screen-find"), { value: wanted });
      Object.assign(by("screen-instead"), { value: instead });
      Object.assign(by("screen-whole"), { checked: isWhole });
      await trial.click(...buttons);
    },
    async fresh(name) {
      return btoa(
        Array.from((await work.load(work.disks.get(name))).bytes, (byte) => String.fromCharCode(byte)).join(""));
    },
    async open(...files) { await page.files.openAll(files.map(([name, value]) => new File([bytes(value)], name))); },
    async drop(...files) {
      const data = new DataTransfer(), all = [];
      for (const [name, value] of files) data.items.add(new File([bytes(value)], name));
      const before = page.files.openAll;
      page.files.openAll = (given) => all.push(before.call(page.files, given));
      document.dispatchEvent(new DragEvent("drop", { dataTransfer: data, bubbles: true, cancelable: true }));
      page.files.openAll = before;
      await Promise.all(all);
    },
    paste(value) {
      const data = new DataTransfer();
      data.setData("text", value);
      by("line").dispatchEvent(new ClipboardEvent(
        "paste", { clipboardData: data, dataType: "text/plain", data: value, bubbles: true, cancelable: true }));
    },
    async create() { await page.files.newDisk(); },
    async rename() { await page.files.renameDisk(); },
    async remove() { await page.files.removeDisk(); },
    async putIn(name) { await work.putIn(name); },
    async undo() { work.undo(); },
    async redo() { work.redo(); },
    async person(name) { await page.changeWork(name); },
    async keep() { await work.keep(); },
    async refuse(isRefused) {
      trial.refusing ??= IDBObjectStore.prototype.put;
      IDBObjectStore.prototype.put = isRefused ? () => { throw new Error("refused"); } : trial.refusing;
      await work.keep();
    },
    // What the page would save as a file, without the browser's own window for it: the next file, as base64.
    async saved(button) {
      const file = new Promise((done) => {
        page.files.saveBlob = (_, blob) => blob.arrayBuffer().then((all) => done(toBase64(new Uint8Array(all))));
        setTimeout(() => done(""), 1000);
      });
      by(button).click();
      return file.finally(() => { delete page.files.saveBlob; });
    },
  };
})()
