// @ts-check
// Keeps what is worked on between visits, in the browser's own storage on this machine: a record for each tab, written at each change.
const DATABASE = "saxtegun";
const STORE = "kept";
const ORDER = "kept"; // by which records stand in the order in which they were written last
const TAB = "saxtegun-tab"; // where a page that is left notes the name of its record, for a reload; a copy of a tab that is open finds none there
const MOST_RECORDS = 20; // of the tabs that kept something last
const MOST_OF_OPENING = 15_000; // milliseconds that the database may take until the page begins without what it has, which stays there
const MOST_WRITES = 8; // values that are handed to the database before it has written one
const LATE = 2000; // milliseconds that the database may take before it is said that it hasn't kept the last changes

function settled(request) {
  return new Promise((settle, refuse) => {
    request.onsuccess = () => settle(request.result);
    request.onerror = () => refuse(request.error);
  });
}

function databaseOpened() {
  const opening = indexedDB.open(DATABASE, 2);
  opening.onupgradeneeded = () => {
    const { result, transaction } = opening;
    const store = result.objectStoreNames.contains(STORE) ? /** @type {IDBTransaction} */ (transaction).objectStore(STORE) : result.createObjectStore(STORE);
    store.createIndex(ORDER, ORDER);
  };
  return settled(opening);
}

// The name of the record of the page that this tab left, or null.
function nameLeft() {
  try {
    const name = sessionStorage.getItem(TAB);
    sessionStorage.removeItem(TAB);
    return name;
  } catch {
    return null;
  }
}

function noteName(name) {
  try {
    sessionStorage.setItem(TAB, name);
  } catch {
    // the next visit begins with what was written last
  }
}

// What this browser keeps for one tab. `value` is what the page goes on with: undefined where nothing was kept, null where that can't be read.
export class Store {
  // The store of this tab, which goes on with its own record after a reload, and else with a copy of the one that was written last.
  static async open(most = MOST_OF_OPENING) {
    const store = new Store();
    await Promise.race([store.begin().catch(() => {}), new Promise((settle) => { setTimeout(settle, most); })]);
    return store;
  }

  constructor() {
    this.name = `work ${Date.now().toString(36)} ${Math.random().toString(36).slice(2)}`;
    this.former = nameLeft();
    this.value = null;
    this.database = null;
    this.unkept = null;
    this.count = 0; // of values that are being written
    window.addEventListener("pagehide", () => this.leave());
    window.addEventListener("pageshow", nameLeft);
  }

  async begin() {
    const database = await this.opened(), store = database.transaction(STORE, "readwrite").objectStore(STORE), names = await settled(store.index(ORDER).getAllKeys());
    const name = names.includes(this.former) ? this.former : names.at(-1);
    names.slice(0, -MOST_RECORDS).filter((it) => it !== name).forEach((it) => store.delete(it));
    this.value = name === undefined ? undefined : await settled(store.get(name));
  }

  // The database, which another page may want to change or to delete.
  async opened() {
    const database = await databaseOpened();
    database.onversionchange = () => {
      database.close();
      this.database = null;
    };
    this.database = database;
    return database;
  }

  // Goes on with the record that this tab left. One that was copied, or can't be read, stays as it is.
  goOn() {
    if (this.former !== null) this.name = this.former;
  }

  // Writes a value at once, unless many are being written: of those that wait for them the last is. What is told is whether the browser took it, or null where
  // it takes long.
  keep(value, tell) {
    this.unkept = value;
    if (this.count < MOST_WRITES) this.writeNext(tell);
  }

  async writeNext(tell) {
    const value = this.unkept, timer = setTimeout(tell, LATE, null);
    this.unkept = null;
    this.count += 1;
    const isKept = await this.write(value).then(() => true, () => false);
    this.count -= 1;
    clearTimeout(timer);
    tell(isKept);
    if (this.unkept !== null) this.writeNext(tell);
  }

  // A page that is left is gone before it hears of an answer, so what is written is committed at once.
  async write(value) {
    const transaction = (this.database ?? (await this.opened())).transaction(STORE, "readwrite");
    const done = new Promise((settle, refuse) => { transaction.oncomplete = settle; transaction.onabort = () => refuse(transaction.error); });
    transaction.objectStore(STORE).put(value, this.name);
    transaction.commit();
    await done;
  }

  leave() {
    noteName(this.name);
    if (this.unkept !== null && this.database !== null) this.write(this.unkept).catch(() => {});
  }
}
