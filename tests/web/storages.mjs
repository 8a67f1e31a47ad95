// @ts-check
// What a browser has for a page to keep things in, as far as web/keeping.mjs asks for it, for tests without a browser. A test says when the database
// answers.

/** @typedef {{ result?: unknown, onsuccess?: () => void, onerror?: () => void }} Request */
/** @typedef {{ error: unknown, objectStore?: () => object, commit?: () => void, oncomplete?: () => void, onabort?: () => void }} Transaction */

const begin = setTimeout; // what isn't a page's
const soon = (act) => begin(act, 0);

// A database that opens unless it is mute, and writes once it isn't held: what was committed also where the page is left meanwhile.
class Database {
  constructor() {
    this.entries = new Map();
    this.isHeld = false;
    this.isBroken = false;
    this.isMute = false;
    this.waiting = [];
  }

  // Lets what waits be done.
  release() {
    this.isHeld = false;
    this.waiting.splice(0).forEach((act) => act());
  }

  open() {
    /** @type {Request} */
    const request = { result: { transaction: () => this.transaction() } };
    if (!this.isMute) soon(() => (this.isBroken ? request.onerror() : request.onsuccess()));
    return request;
  }

  // The names of what is kept, in the order in which it was kept.
  get names() {
    return [...this.entries].sort(([, one], [, other]) => one.kept - other.kept).map(([name]) => name);
  }

  transaction() {
    /** @type {Transaction} */
    const transaction = { error: null }, acts = [];
    const answered = (act) => {
      /** @type {Request} */
      const request = {};
      soon(() => {
        request.result = act();
        request.onsuccess();
      });
      return request;
    };
    transaction.objectStore = () => ({
      index: () => ({ getAllKeys: () => answered(() => this.names) }), get: (name) => answered(() => structuredClone(this.entries.get(name))),
      put: (value, name) => acts.push(() => this.entries.set(name, structuredClone(value))), delete: (name) => this.entries.delete(name),
    });
    const write = () => {
      if (!this.isBroken) acts.forEach((act) => act());
      if (this.isBroken) transaction.onabort();
      else transaction.oncomplete();
    };
    transaction.commit = () => soon(() => (this.isHeld ? this.waiting.push(write) : write()));
    return transaction;
  }
}

// What a tab keeps by names.
class Storage {
  constructor() {
    this.items = new Map();
  }

  getItem(name) {
    return this.items.get(name) ?? null;
  }

  setItem(name, text) {
    this.items.set(name, text);
  }

  removeItem(name) {
    this.items.delete(name);
  }
}

// A browser with one tab at a time. Its pages are visited one after another.
export class OneTab {
  constructor() {
    this.database = new Database();
    this.open();
    /** @type {Record<string, (() => void)[]>} */
    this.listeners = {};
    const there = {
      indexedDB: { open: () => this.database.open() }, setTimeout: (act, after, ...words) => begin(act, after, ...words),
      window: { addEventListener: (name, act) => { (this.listeners[name] ??= []).push(act); } },
    };
    for (const [name, value] of Object.entries(there)) Object.defineProperty(globalThis, name, { value, configurable: true, writable: true });
  }

  // Opens another tab. One that is a copy of this has what this has noted.
  open({ isCopy = false } = {}) {
    const former = this.tab;
    this.tab = new Storage();
    if (isCopy) former.items.forEach((text, name) => this.tab.setItem(name, text));
    Object.defineProperty(globalThis, "sessionStorage", { value: this.tab, configurable: true });
  }

  // Leaves the page.
  leave() {
    (this.listeners.pagehide ?? []).forEach((act) => act());
    this.listeners = {};
  }
}

// Waits until something is so.
export async function until(isSo) {
  while (!isSo()) await new Promise((settle) => begin(settle, 1));
}
