// @ts-check
// What is kept between visits, without a browser: also where the database is slow or broken. What is expected is written by hand.
import assert from "node:assert/strict";
import { readFileSync } from "node:fs";
import test from "node:test";
import { Store } from "../../web/keeping.mjs";
import { keptOf, stateFrom } from "../../web/kept-work.mjs";
import { keepingTold } from "../../web/page-words.mjs";
import { SessionFile } from "../../web/session-file.mjs";
import { beginning, named, withGame } from "../../web/work.mjs";
import { OneTab, until } from "./storages.mjs";
import "./module.mjs";

const GAME = "title A game", OTHER = "title Another";
const FILE = new SessionFile("mine.json", new TextEncoder().encode(JSON.stringify([["one", ["", [1, 2], "background:0,"]]])));
let time = 1000; // of the clock

// A visit of the page, which keeps its states.
class Visit {
  static async of(...words) {
    const store = await Store.open(...words), state = store.value === undefined ? null : stateFrom(store.value, GAME);
    if (state !== null) store.goOn();
    return new Visit(store, state ?? beginning(GAME), store.value !== undefined && state === null);
  }

  /** @param {Store} store @param {import("../../web/state").State} state */
  constructor(store, state, isUnread) {
    this.store = store;
    this.isUnread = isUnread;
    /** @type {(boolean | null)[]} */
    this.told = [];
    this.keep(state);
  }

  keep(state) {
    this.state = state;
    time += 1;
    this.store.keep({ ...keptOf(state, false), kept: time }, (isKept) => this.told.push(isKept));
  }

  act(change, ...words) {
    this.keep(change(this.state, ...words));
    return this.written();
  }

  // Waits until nothing more is written.
  written() {
    return until(() => this.store.count === 0);
  }
}

test("all is there again behind a reload: the text, the recording, the file and what can be put back", async () => {
  const browser = new OneTab(), visit = await Visit.of();
  await visit.act(withGame, OTHER);
  await visit.act((state) => ({ ...state, file: FILE, isUnsaved: true, work: { ...state.work, inputs: [1, "undo"], name: "mine", opened: 0 } }));
  await visit.act((state) => ({ ...state, past: [{ text: "title Lost" }], queue: [{ input: 1, behind: null, looked: null }] }));
  browser.leave();
  const { state, isUnread } = await Visit.of();
  assert.deepEqual([state.text, state.work.inputs, state.work.name, state.work.opened, state.queue.length, isUnread], [OTHER, [1, "undo"], "mine", 0, 1, false]);
  assert.deepEqual([state.file.entries, state.isUnsaved, state.past], [FILE.entries, true, [{ text: "title Lost" }]]);
  assert.equal(browser.database.entries.size, 1);
});

test("each tab goes on with its own, and a tab that is new with a copy of what was written last", async () => {
  const browser = new OneTab(), one = await Visit.of();
  await one.act(named, "one");
  const first = browser.tab;
  browser.open({ isCopy: true });
  const other = await Visit.of();
  assert.equal(other.state.work.name, "one");
  await other.act(named, "other");
  assert.deepEqual([...browser.database.entries.values()].map(({ work }) => work.name), ["one", "other"]);
  // the first is reloaded
  Object.defineProperty(globalThis, "sessionStorage", { value: first, configurable: true });
  one.store.leave();
  assert.equal((await Visit.of()).state.work.name, "one");
});

test("what waits is written as the page is left", async () => {
  const browser = new OneTab(), visit = await Visit.of();
  await visit.written();
  browser.database.isHeld = true;
  for (let number = 0; number < 20; number += 1) visit.act(named, `${number}`);
  visit.act(named, "two");
  browser.leave();
  browser.database.release();
  assert.equal((await Visit.of()).state.work.name, "two");
});

test("where the database takes long, that is said until it is done, and of what waits the last is written", async () => {
  const browser = new OneTab(), visit = await Visit.of();
  await visit.written();
  visit.told = [];
  browser.database.isHeld = true;
  for (let number = 1; number <= 20; number += 1) visit.act(named, `${number}`);
  await until(() => visit.told.length === 8);
  browser.database.release();
  await visit.written();
  // eight were handed over before, and the last
  assert.deepEqual([visit.told, [...browser.database.entries.values()].map(({ work }) => work.name)], [[...Array(8).fill(null), ...Array(9).fill(true)], ["20"]]);
});

test("a database that is broken holds up no visit, and what it has stays where it is", async () => {
  const browser = new OneTab();
  await (await Visit.of()).act(named, "one");
  browser.leave();
  browser.database.isBroken = true;
  const next = await Visit.of();
  await next.written();
  assert.deepEqual([next.isUnread, next.state.work.name, next.told], [true, "", [false]]);
  browser.database.isBroken = false;
  await next.act(named, "two");
  assert.deepEqual([...browser.database.entries.values()].map(({ work }) => work.name), ["one", "two"]);
});

test("a database that never opens holds up no visit, and it is said that nothing is kept", async () => {
  const browser = new OneTab();
  browser.database.isMute = true;
  const visit = await Visit.of(20);
  await until(() => visit.told.length > 0);
  assert.deepEqual([visit.isUnread, visit.told], [true, [null]]);
});

test("what can't be read stays where it is", async () => {
  const browser = new OneTab();
  browser.database.entries.set("work", { version: 9, kept: 1 });
  const visit = await Visit.of();
  await visit.written();
  assert.deepEqual([visit.isUnread, browser.database.entries.size, browser.database.entries.get("work").version], [true, 2, 9]);
});

test("the records of twenty tabs stay, those that were written last", async () => {
  const browser = new OneTab();
  for (let number = 0; number < 30; number += 1) browser.database.entries.set(`work ${number}`, { ...keptOf(beginning(GAME), false), kept: 30 - number });
  await Visit.of();
  assert.deepEqual([...browser.database.entries.keys()].filter((name) => /^work \d+$/.test(name)), Array.from({ length: 20 }, (_, number) => `work ${number}`));
});

test("keys that wait, and are none, are not read", () => {
  for (const wrong of [3, [{ input: 9, behind: null, looked: null }], [{ input: 1, behind: "", looked: null }], [null]]) {
    assert.equal(stateFrom({ ...keptOf(beginning(GAME), false), queue: wrong }, GAME), null);
  }
});

test("the page promises what it says once all is kept", () => {
  const page = readFileSync(new URL("../../web/playground.html", import.meta.url), "utf-8");
  assert.ok(page.includes(`<p id="promise" role="status">${keepingTold(true)}</p>`));
});
