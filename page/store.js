// What the browser keeps, by names: plain values with their bytes, in IndexedDB. Only a work of work.js has a store.

const WAIT = 1000, MOMENT = 300;

// All names that begin so.
const range = (beginning) => IDBKeyRange.bound(beginning, `${beginning}\uffff`);
const later = (milliseconds) => new Promise((resolve) => setTimeout(resolve, milliseconds));

export class Store {
  // place: which page's values these are, so that pages that were handed out separately don't mix. mine: this window's
  // name, of the same length in all windows, so that a full browser has room for it in place of another one.
  constructor(place) {
    Object.assign(this, { place, database: null, mine: `${Date.now()} ${Math.random().toFixed(16)}`, owned: "" });
  }

  // Opens it; a browser that keeps nothing gives a store without values.
  static async open(place) {
    const store = new Store(place);
    try {
      store.database = await new Promise((resolve, reject) => {
        const opening = indexedDB.open("forth83", 1);
        opening.onupgradeneeded = () => opening.result.createObjectStore("kept");
        opening.onsuccess = () => resolve(opening.result);
        opening.onerror = () => reject(opening.error);
        opening.onblocked = () => reject(new Error("another window keeps it open"));
      });
    } catch {
      store.database = null;
    }
    addEventListener("storage", (event) => store.hear(event));
    return store;
  }

  // Becomes the owner of a work. The window that had it keeps all that it has, and lets go: it is asked by the
  // browser's storage, and calls LOST. One that doesn't answer in a second loses the work.
  async claim(work, lost) {
    this.release();
    Object.assign(this, { owned: `${this.place}/owner/${work}`, lost });
    try {
      localStorage.setItem(this.owned, this.mine);
    } catch {
      // Then the other window learns of it when it writes.
    }
    await (navigator.locks ? this.lock(`forth83/${this.owned}`) : later(MOMENT));
    this.isClaimed = Boolean(await this.ask("readwrite", (kept) => kept.put(this.mine, this.owned)));
  }

  // Waits for a lock, which is held until this window lets go, or another one takes it away.
  lock(name) {
    return new Promise((got) => {
      const waiting = new AbortController();
      let isHeld = false;
      const hold = () => new Promise((letGo) => {
        isHeld = true;
        this.letGo = letGo;
        got();
      });
      setTimeout(() => isHeld || waiting.abort(), WAIT);
      navigator.locks.request(name, { signal: waiting.signal }, hold)
        .catch(() => (isHeld ? this.yield() : navigator.locks.request(name, { steal: true }, hold)))
        .catch(() => (isHeld ? this.yield() : got()));
    });
  }

  release() {
    if (this.letGo) this.letGo();
    Object.assign(this, { letGo: null, owned: "" });
  }

  // Another window wants the work.
  hear({ key, newValue }) {
    if (this.owned && key === this.owned && newValue !== this.mine) this.yield();
  }

  async yield() {
    if (!this.owned) return;
    await this.lost();
    this.release();
  }

  // The answer of a request to the database, or null if it fails.
  ask(mode, act) {
    if (!this.database) return Promise.resolve(null);
    return new Promise((resolve) => {
      try {
        const work = this.database.transaction("kept", mode), request = act(work.objectStore("kept"));
        work.oncomplete = () => resolve({ value: request.result });
        work.onerror = work.onabort = () => resolve(null);
      } catch {
        resolve(null);
      }
    });
  }

  // Writes values all together, or none: "kept", "refused", or "lost" if another window has the work now: the one that
  // is owned, or one that this window had before and nobody else since. A value of undefined removes the name, and all
  // names that begin so if * is at its end.
  async write(entries, earlier) {
    const owner = earlier === undefined ? this.owned : `${this.place}/owner/${earlier}`;
    const isClaimed = earlier === undefined ? this.isClaimed : !this.hasLast(owner);
    let isLost = false;
    const put = (kept, name, value) => {
      if (value !== undefined) kept.put(value, name);
      else kept.delete(name.endsWith("*") ? range(name.slice(0, -1)) : name);
    };
    const answer = await this.ask("readwrite", (kept) => {
      const asking = kept.get(owner);
      asking.onsuccess = () => {
        isLost = isClaimed && asking.result !== this.mine;
        if (!isClaimed) kept.put(this.mine, owner);
        if (!isLost) for (const [name, value] of entries) put(kept, `${this.place}/${name}`, value);
      };
      return asking;
    });
    if (isLost) return "lost";
    if (answer && earlier === undefined) this.isClaimed = true;
    return answer ? "kept" : "refused";
  }

  // A setting of this browser, which belongs to no work.
  set(name, value) { this.ask("readwrite", (kept) => kept.put(value, `${this.place}/${name}`)); }

  async get(name) { return ((await this.ask("readonly", (kept) => kept.get(`${this.place}/${name}`))) || {}).value; }

  // The newest session that a page of version 2.0.0 kept with this disk: such a page's place was a sum of its disk.
  async elsewhere(work, disk) {
    const names = ((await this.ask("readonly", (kept) => kept.getAllKeys())) || { value: [] }).value, found = [];
    for (const name of names.filter(
           (one) => /^[0-9a-f]{16}$/.test(one.split("/")[0]) && one.slice(16) === `/session/${work}`))
      found.push(((await this.ask("readonly", (kept) => kept.get(name))) || {}).value);
    return found.filter((one) => one && one.name === disk).sort((one, other) => other.when - one.when)[0];
  }

  // The names that begin so, without that beginning; and their values, in the same order.
  async names(beginning) {
    const full = `${this.place}/${beginning}`;
    const answer = await this.ask("readonly", (kept) => kept.getAllKeys(range(full)));
    return answer ? answer.value.map((name) => name.slice(full.length)) : [];
  }
  async values(beginning) {
    return ((await this.ask("readonly", (kept) => kept.getAll(range(`${this.place}/${beginning}`)))) || { value: [] })
      .value;
  }

  // Whether this window was the last one that wanted a work, also where the database refused to note it.
  hasLast(owner) {
    try {
      return localStorage.getItem(owner) === this.mine;
    } catch {
      return false;
    }
  }

  // The last state of a work, as the page is closed: a small place, written at once by its owner. Returns whether it
  // is kept there; a state that is too big for it isn't.
  putLast(work, value) {
    try {
      if (!this.hasLast(this.owned)) return false;
      localStorage.setItem(`${this.place}/last of/${work}`, JSON.stringify(value));
      return true;
    } catch {
      return false;
    }
  }

  dropLast(work) {
    try {
      localStorage.removeItem(`${this.place}/last of/${work}`);
    } catch {
      // Then it is older than what the database has.
    }
  }

  last(work, kind = "last of") {
    try {
      return JSON.parse(localStorage.getItem(`${this.place}/${kind}/${work}`));
    } catch {
      return null;
    }
  }
}
